//! The select search.

use super::choice::{self, Set, gap, highest, is_mapped, lowest, set, span};
use super::{multi, preference, window_fits};
use crate::description::{Description, IGNORED, MULTI, Pin};
use crate::engine::{Failure, Told, refused};
use crate::layout::{AddressLayout, Line, Qualifier, ROLE_HALF, ROLE_X1, ROLE_X2, SelectLayout};

const CS1: u8 = 2;

/// The active lines of Single and Banked: kind and chip pin, in the chip's order.
pub fn active_lines(slot: &Description) -> Vec<(u8, u8)> {
    let active = |kind: u8| kind < 6 && multi::reads(kind, &slot.settings) != IGNORED;
    slot.chip0()
        .control
        .iter()
        .filter(|line| active(line.0))
        .copied()
        .collect()
}

/// What the search chooses for, and what stays fixed over its choices.
struct Listed {
    /// Data, select with X1 and X2, commoned.
    pins: Vec<Pin>,
    data: usize,
    select_roles: Vec<u8>,
    commoned_roles: Vec<u8>,
    excess: Vec<u8>,
    ignored: Set,
    qualifiers: Set,
    one_gap: bool,
}

fn chip_pin(slot: &Description, pin: u8) -> Told<Pin> {
    let found = slot
        .socket_pin(pin)
        .map(|socket_pin| slot.candidates(socket_pin));
    match found.filter(|&pin| is_mapped(pin)) {
        Some(candidates) => Ok(candidates),
        None => refused(3, u64::from(pin)),
    }
}

fn control_pin(slot: &Description, kind: u8) -> Told<Pin> {
    match slot.chip0().control.iter().find(|line| line.0 == kind) {
        Some(&(_, pin)) => chip_pin(slot, pin),
        None => refused(2, 0),
    }
}

fn listed(slot: &Description, address: Option<&AddressLayout>) -> Told<Listed> {
    let excess = address.map_or(Vec::new(), |layout| layout.excess.clone());
    if !slot.qualifiers.is_empty() && address.is_none() {
        return refused(5, 0);
    }
    if !excess.is_empty() && multi::reads(CS1, &slot.settings) == IGNORED {
        return refused(6, 0);
    }
    let mut pins = Vec::new();
    for &pin in &slot.chip0().data_pins {
        pins.push(chip_pin(slot, pin)?);
    }
    let of_index = |&index: &u8| address.map(|layout| layout.lines[usize::from(index)]);
    let qualifiers: Vec<u8> = slot.qualifiers.iter().filter_map(of_index).collect();
    let mut listed = Listed {
        data: pins.len(),
        pins,
        select_roles: Vec::new(),
        commoned_roles: Vec::new(),
        excess,
        ignored: 0,
        qualifiers: set(&qualifiers),
        one_gap: slot.set_type != MULTI,
    };
    match slot.multi.as_ref().filter(|_| slot.set_type == MULTI) {
        Some(config) => list_multi(slot, config, &mut listed)?,
        None => list_active(slot, &mut listed)?,
    }
    Ok(listed)
}

fn list_active(slot: &Description, listed: &mut Listed) -> Told<()> {
    let active = active_lines(slot);
    if active.is_empty() {
        return refused(2, 0);
    }
    for (kind, pin) in active {
        listed.pins.push(chip_pin(slot, pin)?);
        listed.select_roles.push(kind);
    }
    Ok(())
}

fn list_multi(
    slot: &Description,
    config: &crate::description::Multi,
    listed: &mut Listed,
) -> Told<()> {
    listed.pins.push(control_pin(slot, config.select)?);
    listed.select_roles.push(config.select);
    let mut commoned = Vec::new();
    for &kind in &config.commoned {
        commoned.push(control_pin(slot, kind)?);
        listed.commoned_roles.push(kind);
    }
    for &kind in &config.ignored {
        let pin = control_pin(slot, kind)?;
        listed.ignored |= set(pin.iter().filter(|&&gpio| gpio < 48));
    }
    for (chips, role) in [(2, ROLE_X1), (3, ROLE_X2)] {
        if slot.chips.len() >= chips {
            let pin = slot.x[usize::from(role - ROLE_X1)];
            if !is_mapped(pin) {
                return refused(4, u64::from(role - ROLE_X1) + 1);
            }
            listed.pins.push(pin);
            listed.select_roles.push(role);
        }
    }
    listed.pins.extend(commoned);
    Ok(())
}

/// What becomes of one choice.
enum Verdict {
    Data,
    /// The refused set.
    Select(Set),
    Window,
    Fits((u8, u32), SelectLayout),
}

fn judge(listed: &Listed, gpios: &[u8]) -> Verdict {
    let data = set(&gpios[..listed.data]);
    if gap(data) != 0 {
        return Verdict::Data;
    }
    let selects = set(gpios[listed.data..].iter().chain(&listed.excess));
    let missing = gap(selects);
    let ignore = match missing.count_ones() {
        0 => None,
        1 if listed.one_gap => Some((lowest(missing) - lowest(selects)) as u8),
        _ => return Verdict::Select(selects),
    };
    let all = data | selects | listed.qualifiers;
    let base = if lowest(all) < 16 { 0 } else { 16 };
    if !window_fits(base, highest(all) + 1 - base) {
        return Verdict::Window;
    }
    let score = (
        preference(listed.qualifiers != 0, ignore.is_some()),
        span(all),
    );
    Verdict::Fits(score, layout(listed, gpios, base, ignore))
}

fn layout(listed: &Listed, gpios: &[u8], base: u32, ignore: Option<u8>) -> SelectLayout {
    let (data, rest) = gpios.split_at(listed.data);
    let (select, commoned) = rest.split_at(listed.select_roles.len());
    let lines = |roles: &[u8], gpios: &[u8]| -> Vec<Line> {
        roles.iter().copied().zip(gpios.iter().copied()).collect()
    };
    let mut select_lines = lines(&listed.select_roles, select);
    select_lines.extend(listed.excess.iter().map(|&gpio| (ROLE_HALF, gpio)));
    let selects = set(rest.iter().chain(&listed.excess));
    let qualifiers = listed.qualifiers;
    SelectLayout {
        base: base as u8,
        base_data_pin: (lowest(set(data)) - base) as u8,
        base_cs_pin: (lowest(selects) - base) as u8,
        cs_pins: span(selects) as u8,
        ignore,
        qualifier: (qualifiers != 0).then(|| Qualifier {
            base_pin: (lowest(qualifiers) - base) as u8,
            pins: span(qualifiers) as u8,
            pattern: (qualifiers >> lowest(qualifiers)) as u8,
        }),
        data: data.to_vec(),
        select: select_lines,
        commoned: lines(&listed.commoned_roles, commoned),
    }
}

pub fn search(slot: &Description, address: Option<&AddressLayout>) -> Told<SelectLayout> {
    let listed = listed(slot, address)?;
    let mut best: Option<((u8, u32), SelectLayout)> = None;
    let mut first_ignored = None;
    let mut last_set = None;
    for number in 0..choice::count(&listed.pins) {
        match judge(&listed, &choice::gpios(&listed.pins, number)) {
            Verdict::Data | Verdict::Window => {}
            Verdict::Select(refused) => {
                let ignored = gap(refused) & listed.ignored;
                if ignored != 0 && first_ignored.is_none() {
                    first_ignored = Some(u64::from(lowest(ignored)));
                }
                last_set = Some(refused);
            }
            Verdict::Fits(score, layout) => {
                if best.as_ref().is_none_or(|(least, _)| score < *least) {
                    best = Some((score, layout));
                }
            }
        }
    }
    let nothing = match (first_ignored, last_set) {
        (Some(gpio), _) => (8, gpio),
        (None, Some(set)) => (7, set),
        (None, None) => (9, 0),
    };
    let (number, place) = nothing;
    best.map_or(Err(Failure::Refused { number, place }), |(_, layout)| {
        Ok(layout)
    })
}
