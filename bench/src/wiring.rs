//! Why a slot is not well wired, by a look at its description: the library's proved test says only
//! that it is not.

use std::collections::BTreeSet;

use onerom::description::{Candidates, Chip, Kind, SetType};
use onerom::{AddrLayout, Description, well_wired};

use crate::ending::Fault;

/// What is wrong with the wiring, a line each; nothing of a slot that is well wired and whose chips
/// have the same pins.
pub fn complaints(slot: &Description, addr: &AddrLayout) -> Result<String, Fault> {
    let others = other_pins(slot);
    if well_wired(slot, addr)? {
        return Ok(others);
    }
    let mut reasons = shared_gpios(slot);
    if let Some(chip) = slot.chips.first() {
        reasons.extend(data_lines(slot, chip));
        reasons.extend(of_multi(slot, chip));
    }
    reasons.extend(x_pins(slot, addr));
    if reasons.is_empty() {
        reasons.push("a rule of docs/INTERFACE.md, `onerom_well_wired`, is not kept".into());
    }
    let lines = reasons.iter().map(|why| format!("not well wired: {why}\n"));
    Ok(lines.chain([others]).collect())
}

/// GPIOs that are candidates of two pins of the board.
fn shared_gpios(slot: &Description) -> Vec<String> {
    let socket = (1..).zip(&slot.socket).take(slot.board_pins.into());
    let socket = socket.map(|(pin, &own)| (format!("socket pin {pin}"), own.gpios().collect()));
    let x = (1..).zip(slot.x);
    let x = x.map(|(number, own)| (format!("X{number}"), own.gpios().collect()));
    let pins: Vec<(String, Vec<u8>)> = socket.chain(x).collect();
    let mut reasons = Vec::new();
    for (place, (name, own)) in pins.iter().enumerate() {
        for (other, others) in &pins[place + 1..] {
            let own: BTreeSet<u8> = own.iter().copied().collect();
            let both = own.iter().filter(|gpio| others.contains(gpio));
            reasons.extend(
                both.map(|gpio| format!("GPIO {gpio} is a candidate of {name} and {other}")),
            );
        }
    }
    reasons
}

/// A number of data lines that makes no word. That no two lines of a chip lie on one pin is seen to
/// when a description is read.
fn data_lines(slot: &Description, chip: &Chip) -> Option<String> {
    let (wanted, has) = (8 * usize::from(slot.word_bytes), chip.data_pins.len());
    let why = || format!("a word has {wanted} bits, and there are {has} data lines");
    (has != wanted).then(why)
}

/// Chips whose lines lie elsewhere than the first one's, by which a slot is laid out. Fewer address
/// lines are no fault: a smaller chip repeats in its place.
fn other_pins(slot: &Description) -> String {
    let Some(first) = slot.chips.first() else {
        return String::new();
    };
    let differs = |chip: &Chip| {
        let lines = chip.address_pins.len().min(first.address_pins.len());
        chip.address_pins[..lines] != first.address_pins[..lines]
            || chip.data_pins != first.data_pins
            || chip.control != first.control
    };
    let others = slot.chips.iter().enumerate();
    let others = others.filter(|(_, chip)| differs(chip));
    let line = |(number, _)| {
        format!("chip {number}: its lines lie on other pins than chip 0's, which count for all\n")
    };
    others.map(line).collect()
}

/// The chip pin of the line that tells a Multi set's chips apart.
fn select_pin(slot: &Description, chip: &Chip) -> Option<u8> {
    let select: Kind = slot.multi.as_ref()?.select;
    let own = chip.control.iter().rev().find(|(kind, _)| *kind == select);
    own.map(|&(_, pin)| pin)
        .filter(|_| slot.set_type == SetType::Multi)
}

fn of_multi(slot: &Description, chip: &Chip) -> Vec<String> {
    let mut reasons = Vec::new();
    if slot.set_type != SetType::Multi {
        return reasons;
    }
    if let Some(pin) = select_pin(slot, chip) {
        let socket_pin = i32::from(pin) + i32::from(slot.pin_offset);
        let place = usize::try_from(socket_pin - 1).ok();
        let own = place.and_then(|place| slot.socket.get(place));
        if matches!(own, Some(Candidates::Two(..))) {
            reasons.push(format!(
                "socket pin {socket_pin}, the select's, has two GPIOs"
            ));
        }
    }
    if !slot.qualifiers.is_empty() {
        reasons.push("a Multi set has qualifiers".into());
    }
    reasons
}

/// X pins that pick a bank or a chip, and have no candidate or two among the GPIOs that are read.
fn x_pins(slot: &Description, addr: &AddrLayout) -> Vec<String> {
    let needed = match (slot.set_type, slot.chips.len()) {
        (SetType::Single, _) => 0,
        (_, 3..) => 2,
        _ => 1,
    };
    let (from, to) = (
        addr.base,
        addr.base.saturating_add(addr.pins.saturating_sub(1)),
    );
    let mut reasons = Vec::new();
    for (number, x) in (1..).zip(slot.x).take(needed) {
        let own: BTreeSet<u8> = x.gpios().collect();
        let inside = own.iter().filter(|gpio| (from..=to).contains(gpio)).count();
        if inside != 1 {
            reasons.push(format!(
                "X{number} has {inside} candidates among GPIOs {from} to {to}, which are read, and should have one"
            ));
        }
    }
    reasons
}
