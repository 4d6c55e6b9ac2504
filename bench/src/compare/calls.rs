//! What sets the calls of the library apart, each with what a case of its kind hands in.

use onerom::ByteOrder;
use oracle::answer::{Chain, answer, build, line, read_back, recovered_fields, table_fields};
use oracle::case::Case;
use oracle::engine::{Engine, Told};
use oracle::random::Random;

use super::{PLACES, SHORT_BUFFER};

/// An answer as a line of docs/CASES.md, and the bytes behind a checksum in it: a table's, those of
/// all ROMs, or both. None where there are no such bytes.
#[derive(PartialEq, Eq)]
pub struct Answer {
    pub line: String,
    pub bytes: Vec<u8>,
}

impl Answer {
    /// What an engine says to a case.
    pub fn of(engine: &dyn Engine, case: &Case) -> Self {
        match case {
            Case::Build(built) => {
                let table = build(engine, built);
                Self::with_bytes(case, table.map(|table| (table_fields(&table), table)))
            }
            Case::ReadBack(stored) => {
                let found = read_back(engine, stored);
                let told = found.map(|found| (recovered_fields(&found), found.roms.concat()));
                Self::with_bytes(case, told)
            }
            Case::Chain(record, images) => Self::of_chain(&Chain::of(engine, record, images)),
            _ => Self {
                line: answer(engine, case),
                bytes: Vec::new(),
            },
        }
    }

    fn with_bytes(case: &Case, told: Told<Wrote>) -> Self {
        let (fields, bytes) = match told {
            Ok((fields, bytes)) => (Ok(fields), bytes),
            Err(failure) => (Err(failure), Vec::new()),
        };
        Self {
            line: line(case.kind(), fields),
            bytes,
        }
    }

    /// A table that is built stays, whatever the read-back says.
    fn of_chain(chain: &Chain) -> Self {
        let roms = chain.told.iter().flat_map(|(_, found)| &found.roms);
        let parts: Vec<&[u8]> = chain.table.iter().chain(roms).map(Vec::as_slice).collect();
        Self {
            line: chain.line(),
            bytes: parts.concat(),
        }
    }
}

/// The fields of an answer, and the bytes of which they have no more than a checksum.
pub type Wrote = (Vec<u64>, Vec<u8>);

/// A record that is handed in.
pub struct Part<'a> {
    pub record: &'a mut Vec<u8>,
    /// How long it has to be.
    pub length: usize,
    /// The places at its front that decide most.
    pub head: usize,
}

/// A call that reads so many slices and is lent so many.
pub trait Call<const READ: usize, const LENT: usize>: Clone {
    const NAME: &'static str;
    /// Among the kinds of cases.
    const KIND: u64;
    /// What follows number and place where bytes are no record.
    const NO_RECORD: &'static [u64] = &[];
    /// Whether it takes a byte order.
    const TAKES_ORDER: bool = false;

    /// What a case hands in; none of another kind.
    fn of(case: &Case) -> Option<Self>;

    /// The number that is handed in as the byte order.
    fn order(&self) -> u64 {
        ByteOrder::LowFirst.number()
    }

    fn set_order(&mut self, _order: u64) {}

    /// Whether words have two bytes, so that the byte order counts.
    fn is_wide(&self) -> bool {
        false
    }

    /// Swaps the bytes of each word that the chips have, where words have two.
    fn swap_pairs(&mut self) {}

    /// Puts right what a case could not say beside a wrong record.
    fn make_ready(&mut self, _random: &mut Random) {}

    /// Puts one byte wrong.
    fn damage(&mut self, random: &mut Random);

    fn records(&mut self) -> Vec<Part<'_>>;

    /// The case that hands this in; none if no case can, and then docs/INTERFACE.md says 1.
    fn case(&self) -> Option<Case>;

    /// The slices that are read.
    fn read(&self) -> [&[u8]; READ];

    /// How many bytes a success writes to each buffer.
    fn lengths(&self) -> [usize; LENT];

    /// How many are lent for them, some to spare if the case does not say.
    fn lent(&self, lengths: [usize; LENT], spare: usize) -> [usize; LENT] {
        lengths.map(|length| length + spare)
    }

    /// Whether a refusal of this number leaves 0 where a success writes; the others write nothing.
    fn clears(_number: u64) -> bool {
        false
    }

    /// How many bytes of each buffer a result leaves written.
    fn reach(lengths: [usize; LENT], result: u64) -> [usize; LENT] {
        if result == 0 || Self::clears(result >> PLACES) {
            lengths
        } else {
            [0; LENT]
        }
    }

    /// What is told instead of this result where one buffer is a byte short, and what is written
    /// then: 16 where nothing else is refused before it, else the same refusal; nothing.
    fn told_short(_lengths: [usize; LENT], result: u64, _short: usize) -> (u64, [usize; LENT]) {
        let number = result >> PLACES;
        let looks_at_room = result == 0 || number == SHORT_BUFFER || Self::clears(number);
        let told = if looks_at_room {
            SHORT_BUFFER << PLACES
        } else {
            result
        };
        (told, [0; LENT])
    }

    fn call(order: u64, read: [&[u8]; READ], lent: [&mut [u8]; LENT]) -> u64;

    /// What a success wrote, in the order of docs/CASES.md; none if anything else stands in it.
    fn success(&self, written: [&[u8]; LENT]) -> Option<Wrote>;

    /// The same of a refusal, which can only clear.
    fn refusal(&self, _result: u64, written: [&[u8]; LENT]) -> Option<Wrote> {
        let clear = written.iter().all(|front| are_zero(front));
        clear.then(Wrote::default)
    }
}

pub fn are_zero(bytes: &[u8]) -> bool {
    bytes.iter().all(|&byte| byte == 0)
}
