//! A call with every slice between guard pages, and the answer that it comes to.

use onerom::fence::{Lent, Shown, Side};
use oracle::case::line_of;

use super::calls::{Answer, Call};
use super::{OUT_OF_DOMAIN, PLACES, SHORT_BUFFER};

/// How the slices of a case stand.
#[derive(Clone, Copy)]
pub struct Turn {
    side: Side,
    /// How many bytes more than needed are lent, if the case does not say.
    spare: usize,
}

impl Turn {
    /// Cases take turns: at each side, with no byte to spare and with some.
    pub fn of(number: u64) -> Self {
        Self {
            side: Side::BOTH[(number % 2) as usize],
            spare: [4, 0][(number / 2 % 2) as usize],
        }
    }
}

/// Room for the slices of a call, used again for each.
pub struct Fences<const READ: usize, const LENT: usize> {
    shown: [Shown; READ],
    lent: [Lent; LENT],
}

impl<const READ: usize, const LENT: usize> Default for Fences<READ, LENT> {
    fn default() -> Self {
        Self {
            shown: std::array::from_fn(|_| Shown::default()),
            lent: std::array::from_fn(|_| Lent::default()),
        }
    }
}

impl<const READ: usize, const LENT: usize> Fences<READ, LENT> {
    fn show(&mut self, read: [&[u8]; READ], side: Side) {
        for (shown, bytes) in self.shown.iter_mut().zip(read) {
            shown.put(bytes, side);
        }
    }

    /// The result on the bytes that are shown in a byte order, with so many lent.
    fn call<C: Call<READ, LENT>>(&mut self, order: u64, lent: [usize; LENT], side: Side) -> u64 {
        let mut lengths = lent.into_iter();
        let lend = |buffer| Lent::lend(buffer, lengths.next().unwrap_or(0), side);
        let lent = self.lent.each_mut().map(lend);
        C::call(order, self.shown.each_ref().map(Shown::bytes), lent)
    }

    fn fronts(&self, reach: [usize; LENT]) -> [&[u8]; LENT] {
        std::array::from_fn(|n| self.lent[n].front(reach[n]))
    }

    /// Whether each buffer is as it was, but for so many bytes at its front.
    fn are_kept_past(&self, reach: [usize; LENT]) -> bool {
        let mut pairs = self.lent.iter().zip(reach);
        pairs.all(|(buffer, reach)| buffer.is_kept_past(reach))
    }

    /// The library's answer. Where it wrote more or less than it says, the line says so and equals no
    /// other.
    pub fn answer<C: Call<READ, LENT>>(&mut self, call: &C, turn: Turn) -> Answer {
        self.told(call, call.lengths(), turn).1
    }

    fn told<C: Call<READ, LENT>>(
        &mut self,
        call: &C,
        lengths: [usize; LENT],
        turn: Turn,
    ) -> (u64, Answer) {
        self.show(call.read(), turn.side);
        let lent = call.lent(lengths, turn.spare);
        let result = self.call::<C>(call.order(), lent, turn.side);
        let reach = C::reach(lengths, result);
        let written = self.fronts(reach);
        let wrote = if result == 0 {
            call.success(written)
        } else {
            call.refusal(result, written)
        };
        let mut numbers = vec![C::KIND, result >> PLACES, place(result)];
        let answer = match wrote.filter(|_| self.are_kept_past(reach)) {
            Some((fields, bytes)) => {
                numbers.extend(fields);
                let line = line_of(&numbers);
                Answer { line, bytes }
            }
            None => Answer {
                line: line_of(&numbers) + " and a buffer is wrong",
                bytes: Vec::new(),
            },
        };
        (result, answer)
    }

    /// The library's answer, and whether it does what it has to with a buffer too short and with a
    /// number that is no byte order. What was read stands there still.
    pub fn answer_and_refusals<C: Call<READ, LENT>>(
        &mut self,
        call: &C,
        other: u64,
        turn: Turn,
    ) -> (Answer, Refuses) {
        let lengths = call.lengths();
        let (result, answer) = self.told(call, lengths, turn);
        let refuses = Refuses {
            short_buffers: self.refuses_short(call, lengths, (result, &answer), turn),
            other_orders: !C::TAKES_ORDER || self.refuses_order(call, lengths, other, turn),
        };
        (answer, refuses)
    }

    /// Whether it does what it has to with each buffer in turn one byte short. A buffer that a success
    /// leaves as it was can lack none.
    fn refuses_short<C: Call<READ, LENT>>(
        &mut self,
        call: &C,
        lengths: [usize; LENT],
        (result, answer): (u64, &Answer),
        turn: Turn,
    ) -> bool {
        (0..LENT).all(|short| {
            let (wanted, reach) = C::told_short(lengths, result, short);
            if lengths[short] == 0 && wanted == SHORT_BUFFER << PLACES {
                return true;
            }
            let mut lent = lengths;
            lent[short] = lent[short].saturating_sub(1);
            let told = self.call::<C>(call.order(), lent, turn.side);
            let written = self.fronts(reach).concat();
            told == wanted && self.are_kept_past(reach) && answer.bytes.starts_with(&written)
        })
    }

    /// Whether a number that is no byte order is refused by 1, with nothing written.
    fn refuses_order<C: Call<READ, LENT>>(
        &mut self,
        call: &C,
        lengths: [usize; LENT],
        other: u64,
        turn: Turn,
    ) -> bool {
        let told = self.call::<C>(other, call.lent(lengths, turn.spare), turn.side);
        told == OUT_OF_DOMAIN << PLACES && self.are_kept_past([0; LENT])
    }
}

/// Whether the library refuses what it has to.
pub struct Refuses {
    /// A lent buffer that is a byte short, by 16.
    pub short_buffers: bool,
    /// A number that is no byte order, by 1.
    pub other_orders: bool,
}

fn place(result: u64) -> u64 {
    result & ((1 << PLACES) - 1)
}
