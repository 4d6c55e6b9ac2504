//! Pairs of layouts for the pin page: lines that share GPIOs, every role in both lists, counts at their
//! limits, and numbers just past the domain's bounds.

use super::{slots, wiring};
use crate::layout::{AddressLayout, Line, Qualifier, SelectLayout};
use crate::random::Random;

/// Two layouts, in the domain or not.
pub struct PageCase {
    pub address: AddressLayout,
    pub select: SelectLayout,
}

/// Numbers that are no GPIO, nor the one that stands for none.
const NO_GPIO: [u8; 6] = [48, 48, 48, 49, 128, 254];

const LINES: usize = 24;
const DATA: usize = 16;
const SELECT: usize = 30;
const COMMONED: usize = 6;

/// The case of a number under a seed: one in twenty is what searches find, and one in four has one or two
/// numbers past a bound.
pub fn case(random: &mut Random) -> PageCase {
    let found = match random.below(20) {
        0 => slots::found(&mut wiring::description(random)),
        _ => None,
    };
    let (address, select) = found.unwrap_or_else(|| made(random));
    let mut case = PageCase { address, select };
    if random.chance(25) {
        for _ in 0..random.pick(&[1, 1, 1, 2]) {
            past_a_bound(random, &mut case);
        }
    }
    case
}

/// Layouts that no search found, their lines on few GPIOs or on any.
fn made(random: &mut Random) -> (AddressLayout, SelectLayout) {
    let mut gpios: Vec<u8> = (0..48).collect();
    random.shuffle(&mut gpios);
    gpios.truncate(random.pick(&[1, 2, 4, 8, 16, 48, 48]));
    (address(random, &gpios), select(random, &gpios))
}

/// How many lines there are: few, any number of them, or as many as there can be.
fn count(random: &mut Random, least: usize, most: usize) -> usize {
    match random.below(6) {
        0 => least,
        1 => most,
        2 | 3 => random.between(least, most),
        _ => random.between(least, most.min(least + 3)),
    }
}

/// A number of a layout that no line is on, at the domain's ends or between.
fn any(random: &mut Random, last: u8) -> u8 {
    let between = random.below(usize::from(last) + 1) as u8;
    random.pick(&[0, last, between])
}

fn address(random: &mut Random, gpios: &[u8]) -> AddressLayout {
    let all = count(random, 0, LINES);
    let in_use = count(random, 0, all);
    let mut lines: Vec<u8> = (0..all).map(|_| random.pick(gpios)).collect();
    let excess = lines.split_off(in_use);
    AddressLayout {
        base: any(random, 47),
        pins: any(random, 48),
        x1: random.chance(50).then(|| random.pick(gpios)),
        x2: random.chance(50).then(|| random.pick(gpios)),
        lines,
        excess,
    }
}

fn select(random: &mut Random, gpios: &[u8]) -> SelectLayout {
    let data = count(random, 1, DATA);
    let (select, commoned) = (count(random, 0, SELECT), count(random, 0, COMMONED));
    SelectLayout {
        base: any(random, 47),
        base_data_pin: any(random, 47),
        base_cs_pin: any(random, 47),
        cs_pins: random.byte(),
        ignore: random.chance(50).then(|| random.below(255) as u8),
        qualifier: random.chance(50).then(|| Qualifier {
            base_pin: any(random, 47),
            pins: random.byte(),
            pattern: random.byte(),
        }),
        data: (0..data).map(|_| random.pick(gpios)).collect(),
        select: (0..select).map(|_| line(random, gpios)).collect(),
        commoned: (0..commoned).map(|_| line(random, gpios)).collect(),
    }
}

/// A line of any role.
fn line(random: &mut Random, gpios: &[u8]) -> Line {
    (random.below(9) as u8, random.pick(gpios))
}

/// How many bounds each layout has.
const ADDRESS_BOUNDS: usize = 9;
const SELECT_BOUNDS: usize = 14;

fn past_a_bound(random: &mut Random, case: &mut PageCase) {
    let bound = random.below(ADDRESS_BOUNDS + SELECT_BOUNDS);
    match bound.checked_sub(ADDRESS_BOUNDS) {
        None => past_address(random, &mut case.address, bound),
        Some(bound) => past_select(random, &mut case.select, bound),
    }
}

fn past_address(random: &mut Random, layout: &mut AddressLayout, bound: usize) {
    let none = random.pick(&NO_GPIO);
    let (in_use, excess, one_more) = (layout.lines.len(), layout.excess.len(), LINES + 1);
    match bound {
        0 => layout.base = none,
        1 => layout.pins = none.max(49),
        2 => layout.x1 = Some(none),
        3 => layout.x2 = Some(none),
        4 => change(random, &mut layout.lines, |gpio| *gpio = none),
        5 => change(random, &mut layout.excess, |gpio| *gpio = none),
        6 => layout.lines.resize(one_more.saturating_sub(excess), 0),
        7 => layout.excess.resize(one_more.saturating_sub(in_use), 0),
        // Counts that come to a small number in a byte.
        _ => {
            layout.lines.resize(random.between(232, 255), 0);
            layout.excess.resize(256 - layout.lines.len(), 0);
        }
    }
}

fn past_select(random: &mut Random, layout: &mut SelectLayout, bound: usize) {
    let none = random.pick(&NO_GPIO);
    let role = random.pick(&[9, 9, 10, 128, 255]);
    match bound {
        0 => layout.base = none,
        1 => layout.base_data_pin = none,
        2 => layout.base_cs_pin = none,
        3 => {
            layout.qualifier = Some(Qualifier {
                base_pin: none,
                pins: 0,
                pattern: 0,
            });
        }
        4 => layout.data.clear(),
        5 => layout.data.resize(DATA + 1, 0),
        6 => change(random, &mut layout.data, |gpio| *gpio = none),
        7 => change(random, &mut layout.select, |line| line.0 = role),
        8 => change(random, &mut layout.select, |line| line.1 = none),
        9 => layout.select.resize(SELECT + 1, (0, 0)),
        10 => change(random, &mut layout.commoned, |line| line.0 = role),
        11 => change(random, &mut layout.commoned, |line| line.1 = none),
        12 => layout.commoned.resize(COMMONED + 1, (0, 0)),
        _ => layout.select.resize(255, (0, 0)),
    }
}

/// Changes a line of a list, if there is one.
fn change<T>(random: &mut Random, list: &mut [T], change: impl FnOnce(&mut T)) {
    if !list.is_empty() {
        change(&mut list[random.below(list.len())]);
    }
}

#[cfg(test)]
mod tests {
    use std::collections::BTreeSet;

    use super::*;
    use crate::model::page::{LENGTH, page};

    fn cases() -> impl Iterator<Item = PageCase> {
        (0..4000).map(|number| case(&mut Random::of_case(5, number)))
    }

    #[test]
    fn some_are_outside_the_domain() {
        let outside = |case: &PageCase| page(&case.address, &case.select, LENGTH).is_err();
        let outside = cases().filter(outside).count();
        assert!((700..1000).contains(&outside), "{outside}");
    }

    /// Each role is hidden by the one before it, so that no two can change places unseen.
    #[test]
    fn every_role_is_shown_before_the_next() {
        let mut pairs = BTreeSet::new();
        let is_numbered = |role: &str| role.starts_with(['A', 'D']);
        for case in cases() {
            let found = page(&case.address, &case.select, LENGTH);
            for roles in found.iter().flat_map(|page| &page.0) {
                let kinds = roles.iter().map(|role| match is_numbered(role) {
                    true => &role[..1],
                    false => role,
                });
                let kinds: Vec<&str> = kinds.collect();
                if let [shown, next, ..] = kinds[..] {
                    pairs.insert(format!("{shown} {next}"));
                }
            }
        }
        let order = "A A D D X1 X2 CE OE CS1 CS2 CS3 CS4 HALF CE";
        let order: Vec<&str> = order.split(' ').collect();
        for next in order.windows(2) {
            assert!(pairs.contains(&next.join(" ")), "{next:?}");
        }
        for commoned in ["OE", "CS1", "CS2", "CS3", "CS4"] {
            assert!(pairs.contains(&format!("HALF {commoned}")), "{commoned}");
        }
    }

    #[test]
    fn counts_reach_their_limits() {
        let has = |passes: fn(&PageCase) -> bool| assert!(cases().any(|case| passes(&case)));
        has(|case| case.address.lines.len() == LINES && case.address.excess.is_empty());
        has(|case| case.address.excess.len() == LINES && case.address.lines.is_empty());
        has(|case| case.address.lines.is_empty() && case.address.excess.is_empty());
        has(|case| case.select.data.len() == DATA && case.select.select.len() == SELECT);
        has(|case| case.select.data.len() == 1 && case.select.commoned.len() == COMMONED);
        has(|case| case.select.select.is_empty() && case.select.commoned.is_empty());
    }
}
