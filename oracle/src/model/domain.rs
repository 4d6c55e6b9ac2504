//! The domain: what must hold of the numbers handed in before any other question is asked.

use super::choice::has_two;
use crate::case::MultiSelect;
use crate::description::{Chip, Description, MULTI, Multi, NONE, Package, Pin, SINGLE, Settings};
use crate::layout::{AddressLayout, Line, SelectLayout};
use crate::slot::Slot;

const LAST_GPIO: u8 = 47;
const LARGEST_CHIP: u32 = 1 << 24;
const MOST_CHOICES: usize = 16;

pub fn board_pins(pins: u8) -> bool {
    [24, 28, 32, 40].contains(&pins)
}

/// The last GPIO that a pin of a board with this package can be wired to.
pub fn last_gpio(package: Package) -> u8 {
    match package {
        Package::A => 29,
        Package::B => LAST_GPIO,
    }
}

fn pin(pin: Pin, last: u8) -> bool {
    match pin {
        [NONE, NONE] => true,
        [one, NONE] => one <= last,
        [one, two] => one <= last && two <= last && one != two,
    }
}

fn settings(settings: &Settings) -> bool {
    let [ce, oe, cs1, rest @ ..] = settings.lines;
    let given = |setting: u8| setting <= 2;
    let absent = |settings: &[u8]| settings.iter().all(|&setting| setting == NONE);
    match settings.form {
        0 => absent(&[ce, oe]) && given(cs1) && rest.iter().all(|&s| given(s) || s == NONE),
        1 => absent(&settings.lines),
        2 => given(ce) && given(oe) && absent(&settings.lines[2..]),
        _ => false,
    }
}

fn kinds(kinds: &[u8]) -> bool {
    let once = |kind: u8| kinds.iter().filter(|&&one| one == kind).count() <= 1;
    kinds.len() <= 8 && kinds.iter().all(|&kind| kind <= 6) && (0..6).all(once)
}

fn chip(chip: &Chip, word_bytes: u8) -> bool {
    let pins = |list: &[u8]| list.iter().all(|pin| (1..=40).contains(pin));
    let control_kinds: Vec<u8> = chip.control.iter().map(|line| line.0).collect();
    let control_pins: Vec<u8> = chip.control.iter().map(|line| line.1).collect();
    (usize::from(word_bytes)..=24).contains(&chip.address_pins.len())
        && (1..=16).contains(&chip.data_pins.len())
        && kinds(&control_kinds)
        && pins(&chip.address_pins)
        && pins(&chip.data_pins)
        && pins(&control_pins)
        && chip.size <= LARGEST_CHIP
}

fn multi(multi: &Multi) -> bool {
    let lines = |list: &[u8]| list.len() <= 6 && list.iter().all(|&kind| kind <= 5);
    multi.select <= 5 && lines(&multi.commoned) && lines(&multi.ignored)
}

/// What every call asks of a description.
pub fn description(slot: &Description) -> bool {
    let numbers = board_pins(slot.board_pins)
        && slot.set_type <= MULTI
        && (1..=2).contains(&slot.word_bytes)
        && (-4..=4).contains(&slot.offset)
        && (256..=1 << 20).contains(&slot.largest_table)
        && (1..=4).contains(&slot.chips.len());
    let last = last_gpio(slot.package);
    let mut pins = slot.socket.iter().chain(&slot.x);
    numbers
        && settings(&slot.settings)
        && pins.all(|&one| pin(one, last))
        && slot.chips.iter().all(|one| chip(one, slot.word_bytes))
        && slot.multi.as_ref().is_none_or(multi)
        && (slot.set_type != MULTI || slot.multi.is_some())
}

/// Each search has its own bound on the two-candidate pins that it lists.
pub fn address_search(slot: &Description) -> bool {
    description(slot) && address_choices(slot) <= MOST_CHOICES
}

pub fn select_search(slot: &Description) -> bool {
    description(slot) && select_choices(slot) <= MOST_CHOICES
}

fn twos(pins: impl IntoIterator<Item = Pin>) -> usize {
    pins.into_iter().filter(|&pin| has_two(pin)).count()
}

fn on_socket(slot: &Description, chip_pins: &[u8]) -> Vec<Pin> {
    let socket_pins = chip_pins.iter().filter_map(|&pin| slot.socket_pin(pin));
    socket_pins.map(|pin| slot.candidates(pin)).collect()
}

/// Two-candidate pins that the address search lists, also past a fault.
fn address_choices(slot: &Description) -> usize {
    let lines = &slot.chip0().address_pins[usize::from(slot.word_bytes) - 1..];
    let seated = on_socket(slot, lines);
    let off = (lines.len() - seated.len()).min(2);
    let x_pins = match slot.set_type {
        SINGLE => off,
        _ if slot.chips.len() >= 3 => 2,
        _ => 1,
    };
    twos(seated) + twos(slot.x[..x_pins].iter().copied())
}

/// Two-candidate pins that the select search lists, also past a fault.
fn select_choices(slot: &Description) -> usize {
    let chip = slot.chip0();
    let data = twos(on_socket(slot, &chip.data_pins));
    let pins_of = |kinds: &[u8]| -> Vec<u8> {
        let of = |kind: &u8| chip.control.iter().find(|line| line.0 == *kind);
        kinds.iter().filter_map(of).map(|line| line.1).collect()
    };
    let Some(multi) = slot.multi.as_ref().filter(|_| slot.set_type == MULTI) else {
        let active = super::select::active_lines(slot);
        let pins: Vec<u8> = active.iter().map(|line| line.1).collect();
        return data + twos(on_socket(slot, &pins));
    };
    let x_pins = (slot.chips.len() - 1).min(2);
    data + twos(on_socket(slot, &pins_of(&[multi.select])))
        + twos(on_socket(slot, &pins_of(&multi.commoned)))
        + twos(slot.x[..x_pins].iter().copied())
}

pub fn multi_select(case: &MultiSelect) -> bool {
    kinds(&case.kinds) && settings(&case.primary) && settings(&case.secondary)
}

fn gpios(gpios: &[u8]) -> bool {
    gpios.iter().all(|&gpio| gpio <= LAST_GPIO)
}

/// What every call asks of an address layout, whether a description goes with it or not.
pub fn lone_address_layout(layout: &AddressLayout) -> bool {
    let x = [layout.x1, layout.x2]
        .iter()
        .flatten()
        .all(|&gpio| gpio <= LAST_GPIO);
    layout.base <= LAST_GPIO
        && layout.pins <= 48
        && x
        && layout.lines.len() + layout.excess.len() <= 24
        && gpios(&layout.lines)
        && gpios(&layout.excess)
}

pub fn address_layout(slot: &Description, layout: &AddressLayout) -> bool {
    lone_address_layout(layout) && qualifiers(slot, layout)
}

/// The qualifier list, tested where an address layout is given.
fn qualifiers(slot: &Description, layout: &AddressLayout) -> bool {
    let found: Option<Vec<u8>> = slot
        .qualifiers
        .iter()
        .map(|&index| layout.lines.get(usize::from(index)).copied())
        .collect();
    let Some(gpios) = found else {
        return false;
    };
    match (gpios.iter().min(), gpios.iter().max()) {
        (Some(low), Some(high)) => high - low < 8,
        _ => true,
    }
}

pub fn select_layout(layout: &SelectLayout) -> bool {
    let lines = |list: &[Line]| {
        list.iter()
            .all(|&(role, gpio)| role <= 8 && gpio <= LAST_GPIO)
    };
    let bases = [layout.base, layout.base_data_pin, layout.base_cs_pin];
    gpios(&bases)
        && layout
            .qualifier
            .is_none_or(|qualifier| qualifier.base_pin <= LAST_GPIO)
        && (1..=16).contains(&layout.data.len())
        && gpios(&layout.data)
        && layout.select.len() <= 30
        && lines(&layout.select)
        && layout.commoned.len() <= 6
        && lines(&layout.commoned)
}

/// A stored slot names no package: its X pins can be on any GPIO.
pub fn slot(slot: &Slot) -> bool {
    let x = slot.x.iter().all(|&one| pin(one, LAST_GPIO));
    x && slot.overrides.len() <= 64
        && slot.roms.len() <= 4
        && slot.roms.iter().all(|rom| rom.size <= LARGEST_CHIP)
}
