//! The address search.

use super::choice::{self, Set, is_mapped, lowest, span};
use super::window_fits;
use crate::description::{Description, MULTI, Pin, SINGLE};
use crate::engine::{Told, refused};
use crate::layout::AddressLayout;

/// How many address lines a table of the largest size can take.
fn reach(slot: &Description) -> usize {
    let mut entries = slot.largest_table / u32::from(slot.word_bytes);
    let mut lines = 0;
    while entries > 1 {
        entries /= 2;
        lines += 1;
    }
    lines
}

/// The chip pins of the address lines; 16-bit mode skips the first.
fn line_pins(slot: &Description) -> &[u8] {
    &slot.chip0().address_pins[usize::from(slot.word_bytes) - 1..]
}

fn x_pin(slot: &Description, number: usize) -> Told<Pin> {
    let pin = slot.x[number - 1];
    if is_mapped(pin) {
        Ok(pin)
    } else {
        refused(4, number as u64)
    }
}

/// The pins that the search chooses for: the lines in order, then X1, X2.
fn listed(slot: &Description) -> Told<Vec<Pin>> {
    let mut pins = Vec::new();
    let mut x_taken = 0;
    for &chip_pin in line_pins(slot) {
        match slot.socket_pin(chip_pin) {
            Some(socket_pin) => {
                let pin = slot.candidates(socket_pin);
                if !is_mapped(pin) {
                    return refused(3, u64::from(socket_pin));
                }
                pins.push(pin);
            }
            None if slot.set_type == SINGLE && x_taken < 2 => {
                x_taken += 1;
                pins.push(x_pin(slot, x_taken)?);
            }
            None => return refused(9, 0),
        }
    }
    for number in 1..=x_pins(slot) {
        pins.push(x_pin(slot, number)?);
    }
    Ok(pins)
}

/// How many X pins pick the chip.
fn x_pins(slot: &Description) -> usize {
    match slot.set_type {
        SINGLE => 0,
        _ if slot.chips.len() >= 3 => 2,
        _ => 1,
    }
}

/// In Multi, the first candidates of select and commoned lines, as far as they have one.
fn shared(slot: &Description) -> Set {
    let Some(multi) = slot.multi.as_ref().filter(|_| slot.set_type == MULTI) else {
        return 0;
    };
    let mut set = 0;
    for kind in multi.commoned.iter().chain([&multi.select]) {
        for &(_, chip_pin) in slot.chip0().control.iter().filter(|line| line.0 == *kind) {
            let first = slot.socket_pin(chip_pin).map(|pin| slot.candidates(pin));
            if let Some(pin) = first.filter(|&pin| is_mapped(pin)) {
                set |= 1 << pin[0];
            }
        }
    }
    set
}

pub fn search(slot: &Description) -> Told<AddressLayout> {
    let pins = listed(slot)?;
    let lines = line_pins(slot).len();
    let in_range = lines.min(reach(slot));
    let shared = shared(slot);
    let mut best: Option<(u32, AddressLayout)> = None;
    for number in 0..choice::count(&pins) {
        let gpios = choice::gpios(&pins, number);
        let used = gpios[..in_range].iter().chain(&gpios[lines..]);
        let window = choice::set(used) | shared;
        let (base, width) = (lowest(window), span(window).max(8));
        let score = width * 1000 + base;
        if window_fits(base, width) && best.as_ref().is_none_or(|(least, _)| score < *least) {
            let layout = AddressLayout {
                base: base as u8,
                pins: width as u8,
                x1: gpios.get(lines).copied(),
                x2: gpios.get(lines + 1).copied(),
                lines: gpios[..in_range].to_vec(),
                excess: gpios[in_range..lines].to_vec(),
            };
            best = Some((score, layout));
        }
    }
    best.map_or_else(|| refused(9, 0), |(_, layout)| Ok(layout))
}
