//! Seeded cases inside 01's domain but for some candidates past package A, texts of Intel HEX, and pairs
//! of layouts for the pin page.

mod faults;
mod hex;
mod leaves;
mod page;
mod slots;
mod tables;
mod wiring;

use crate::case::Case;
use crate::random::Random;

pub use hex::HexCase;
pub use page::PageCase;

/// The case of a number under a seed; kinds take turns.
pub fn case(seed: u64, number: u64, kinds: &[u64]) -> Case {
    let mut random = Random::of_case(seed, number);
    let kind = kinds[(number % kinds.len() as u64) as usize];
    match kind {
        1 => leaves::window(&mut random),
        2 => leaves::offset(&mut random),
        3 => Case::Preference(random.chance(50), random.chance(50)),
        4 => leaves::multi_select(&mut random),
        5 => Case::AddressSearch(Box::new(wiring::description(&mut random).write())),
        6 => slots::select_search(&mut random),
        7 => slots::build(&mut random),
        8 => tables::read_back(&mut random),
        _ => slots::chain(&mut random),
    }
}

/// A build of a table of 512 KiB: kind 7 has hardly any.
pub fn large_build(seed: u64, number: u64) -> Case {
    slots::large_build(&mut Random::of_case(seed, number))
}

/// A read-back of as much.
pub fn large_read_back(seed: u64, number: u64) -> Case {
    tables::large_read_back(&mut Random::of_case(seed, number))
}

/// A text of Intel HEX, sound or damaged.
pub fn hex_case(seed: u64, number: u64) -> HexCase {
    hex::case(&mut Random::of_case(seed, number))
}

/// Two layouts of which a pin page can be asked.
pub fn page_case(seed: u64, number: u64) -> PageCase {
    page::case(&mut Random::of_case(seed, number))
}
