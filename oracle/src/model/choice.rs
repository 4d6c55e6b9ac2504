//! Choices among candidates, and sets of GPIOs as the bits of a number.

use crate::description::{NONE, Pin};

pub fn is_mapped(pin: Pin) -> bool {
    pin[0] != NONE
}

pub fn has_two(pin: Pin) -> bool {
    pin[1] != NONE
}

/// How many choices the listed pins leave.
pub fn count(pins: &[Pin]) -> u32 {
    1 << pins.iter().filter(|&&pin| has_two(pin)).count()
}

/// The GPIOs under a choice: its bit k serves the k-th two-candidate pin, 1 meaning the second.
pub fn gpios(pins: &[Pin], choice: u32) -> Vec<u8> {
    let mut bits = choice;
    let mut chosen = Vec::with_capacity(pins.len());
    for &pin in pins {
        if has_two(pin) {
            chosen.push(pin[(bits % 2) as usize]);
            bits /= 2;
        } else {
            chosen.push(pin[0]);
        }
    }
    chosen
}

pub type Set = u64;

pub fn set<'a>(gpios: impl IntoIterator<Item = &'a u8>) -> Set {
    gpios.into_iter().fold(0, |set, &gpio| set | 1 << gpio)
}

pub fn lowest(set: Set) -> u32 {
    set.trailing_zeros()
}

pub fn highest(set: Set) -> u32 {
    63 - set.leading_zeros()
}

pub fn span(set: Set) -> u32 {
    highest(set) - lowest(set) + 1
}

/// The GPIOs between lowest and highest that are not in the set.
pub fn gap(set: Set) -> Set {
    let all = ((1 << span(set)) - 1) << lowest(set);
    all & !set
}
