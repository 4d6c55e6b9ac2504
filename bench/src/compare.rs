//! The oracle's cases through the static library, against the original and the model.

pub mod build;
pub mod calls;
mod damage;
pub mod fenced;
pub mod hex;
mod hex_fenced;
mod images;
mod orders;
pub mod page;
mod page_fenced;
pub mod read_back;
mod records;
pub mod round_trip;
pub mod searches;
mod seen;
mod tried;

use std::process::ExitCode;

use onerom::interface::refusals;
use oracle::case::Case;
use oracle::engine::Engine;
use oracle::generate;
use oracle::random::Random;

use build::Build;
use calls::Call;
use damage::Damage;
use fenced::{Fences, Turn};
use orders::Way;
use read_back::ReadBack;
use round_trip::RoundTrip;
use searches::{AddressSearch, SelectSearch};
use seen::Seen;

use crate::ending::{Done, Fault, say};
use crate::progress::Progress;

/// Numbers as a result has them.
const OUT_OF_DOMAIN: u64 = refusals::OUT_OF_DOMAIN as u64;
const SHORT_BUFFER: u64 = refusals::SHORT_BUFFER as u64;
const WRONG_SIZE: u64 = refusals::WRONG_SIZE as u64;
const INCONSISTENT: u64 = refusals::INCONSISTENT as u64;
const UNSERVED: u64 = refusals::UNSERVED as u64;

/// A result has the refusal's number from this bit on, and its place below.
const PLACES: u32 = 48;

/// Each case of each call as it is, with a buffer that is too short, with wrong records, and in both
/// byte orders. Fails on any difference that is on no list.
pub fn compare(seed: u64, count: u64) -> Done {
    let run = Run::of(seed, count)?;
    judged(&[
        run.call::<1, 1, AddressSearch>(case_of::<1, 1, AddressSearch>)?,
        run.call::<2, 1, SelectSearch>(case_of::<2, 1, SelectSearch>)?,
        run.call::<5, 1, Build>(case_of::<5, 1, Build>)?,
        run.call::<2, 2, ReadBack>(case_of::<2, 2, ReadBack>)?,
        run.call::<3, 3, RoundTrip>(case_of::<3, 3, RoundTrip>)?,
    ])
}

/// The same with builds and read-backs of 512 KiB.
pub fn compare_large(seed: u64, count: u64) -> Done {
    let run = Run::of(seed, count)?;
    judged(&[
        run.call::<5, 1, Build>(generate::large_build)?,
        run.call::<2, 2, ReadBack>(generate::large_read_back)?,
    ])
}

fn case_of<const READ: usize, const LENT: usize, C: Call<READ, LENT>>(
    seed: u64,
    number: u64,
) -> Case {
    generate::case(seed, number, &[C::KIND])
}

/// How many cases there were as generated and with wrong records, how many of both ran once more or
/// twice high byte first, and how many differed.
#[derive(Default)]
struct Count {
    whole: u64,
    wrong: u64,
    high: u64,
    different: u64,
}

fn judged(counts: &[Count]) -> Done {
    let sum = |one: fn(&Count) -> u64| counts.iter().map(one).sum::<u64>();
    let [whole, wrong] = [sum(|count| count.whole), sum(|count| count.wrong)];
    let [high, different] = [sum(|count| count.high), sum(|count| count.different)];
    say(&format!(
        "in all {whole} cases, {wrong} with wrong records, {high} runs high byte first, {different} differences\n"
    ))?;
    Ok(if different == 0 {
        ExitCode::SUCCESS
    } else {
        ExitCode::FAILURE
    })
}

/// The cases, and who judges beside the model.
struct Run {
    seed: u64,
    count: u64,
    original: Option<&'static dyn Engine>,
}

impl Run {
    fn of(seed: u64, count: u64) -> Result<Self, Fault> {
        oracle::quiet_panics();
        let original = oracle::original();
        let checked = original.filter(|_| oracle::checks_overflow());
        say(match (original, checked) {
            (_, Some(_)) => "held against the original and the model\n",
            (Some(_), None) => {
                "held against the model alone: the original is no judge where overflow is not \
                 checked, as under --profile checked\n"
            }
            (None, _) => "held against the model alone: original sources not found\n",
        })?;
        Ok(Self {
            seed,
            count,
            original: checked,
        })
    }

    fn call<const READ: usize, const LENT: usize, C: Call<READ, LENT>>(
        &self,
        cases: fn(u64, u64) -> Case,
    ) -> Result<Count, Fault> {
        let mut progress = Progress::new(C::NAME, self.count);
        let mut fences = Fences::default();
        let mut trials = Trial::all(C::TAKES_ORDER);
        for number in 0..self.count {
            let case = cases(self.seed, number);
            if let Some(call) = C::of(&case) {
                for trial in &mut trials {
                    self.try_case(trial, &call, &case, number, &mut fences);
                }
            }
            progress.step(number + 1);
        }
        drop(progress);
        let mut count = Count::default();
        for trial in &trials {
            say(&format!("{}, {}\n{}", C::NAME, trial.name(), trial.seen))?;
            trial.add_to(&mut count);
        }
        Ok(count)
    }

    fn try_case<const READ: usize, const LENT: usize, C: Call<READ, LENT>>(
        &self,
        trial: &mut Trial,
        call: &C,
        case: &Case,
        number: u64,
        fences: &mut Fences<READ, LENT>,
    ) {
        let turn = Turn::of(number);
        match trial.damage {
            None if trial.way == Way::Low => trial.make(call, Some(case), fences, turn, self),
            None => {
                let mut call = call.clone();
                trial.way.set(&mut call);
                trial.make(&call, Some(case), fences, turn, self);
            }
            Some(damage) => {
                let random = &mut damage.random(self.seed, number);
                let (mut call, case) = damage.done(call, random);
                trial.way.set(&mut call);
                trial.make(&call, case.as_ref(), fences, turn, self);
            }
        }
    }
}

/// The cases as they are or with wrong records, in one way.
struct Trial {
    damage: Option<Damage>,
    way: Way,
    /// Numbers that are no byte order.
    others: Random,
    seen: Seen,
}

impl Trial {
    /// First the cases as they are; in more ways than one if the call takes a byte order.
    fn all(takes_order: bool) -> Vec<Self> {
        let whole = Way::OF_CASES.map(|way| (None, way)).into_iter();
        let wrong = Damage::ALL.into_iter().flat_map(|damage| {
            let ways = Way::OF_WRONG_RECORDS.into_iter();
            ways.map(move |way| (Some(damage), way))
        });
        let trial = |(number, (damage, way))| Self {
            damage,
            way,
            others: Random::of_case(OTHER_ORDERS, number),
            seen: Seen::default(),
        };
        let all = whole.chain(wrong);
        let own = all.filter(|(_, way)| takes_order || *way == Way::Low);
        (0..).zip(own).map(trial).collect()
    }

    fn name(&self) -> String {
        let way = self.way.name();
        match self.damage {
            None if self.way == Way::Low => "the oracle's cases".into(),
            None => format!("the same{way}"),
            Some(damage) => format!("the same with {}{way}", damage.name()),
        }
    }

    /// Makes a call, and holds the library's answer against those of the judges to its case.
    fn make<const READ: usize, const LENT: usize, C: Call<READ, LENT>>(
        &mut self,
        call: &C,
        case: Option<&Case>,
        fences: &mut Fences<READ, LENT>,
        turn: Turn,
        run: &Run,
    ) {
        let other = orders::other(&mut self.others);
        let (answer, refuses) = fences.answer_and_refusals(call, other, turn);
        let judges = self.way.judges(run.original);
        self.seen.add(call, answer, refuses, case, judges);
    }

    fn add_to(&self, count: &mut Count) {
        let number = match (self.way, self.damage) {
            (Way::Low, None) => &mut count.whole,
            (Way::Low, Some(_)) => &mut count.wrong,
            (Way::High | Way::Swapped, _) => &mut count.high,
        };
        *number += self.seen.count;
        count.different += self.seen.differences();
    }
}

/// The seed of numbers that are no byte order.
const OTHER_ORDERS: u64 = 5;
