//! Damage to a good read-back record.

use crate::case::ReadBack;
use crate::description::NONE;
use crate::random::Random;
use crate::slot::{Rom, Slot};

/// How many faults `at` knows, in the order in which a read-back meets them.
const FAULTS: usize = 22;

pub fn any(random: &mut Random, case: &mut ReadBack) {
    let place = random.below(FAULTS);
    at(random, case, place);
}

/// Two or three faults that are met soon after each other: the first must answer.
pub fn neighbours(random: &mut Random, case: &mut ReadBack) {
    let first = random.below(FAULTS);
    at(random, case, first);
    for _ in 0..random.between(1, 2) {
        let next = first + random.between(1, 4);
        at(random, case, next.min(FAULTS - 1));
    }
}

fn at(random: &mut Random, case: &mut ReadBack, place: usize) {
    let slot = &mut case.slot;
    match place {
        0 => slot.size = slot.size.wrapping_add(1),
        1 => slot.kind = random.between(7, 255) as u8,
        2 => slot.has_layout = false,
        3 => slot.address_algorithm = random.between(1, 255) as u8,
        4 => slot.base_address_pin = past_255(slot.address_base),
        5 => slot.data_algorithm = random.between(2, 255) as u8,
        6 => slot.base_data_pin = past_255(slot.data_base),
        7 => slot.dma_algorithm = random.between(1, 255) as u8,
        8 => slot.bit_mode = random.between(2, 255) as u8,
        9 => slot.pins = random.pick(&[31, 32, 33, 63, 64, 255]),
        10 => {
            case.data.pop();
            slot.size = case.data.len() as u32;
        }
        11 => with_rom(random, slot, |_, rom| rom.has_map = false),
        12 => with_rom(random, slot, |random, rom| rom.address[0] = random.byte()),
        13 => with_rom(random, slot, data_entry),
        14 => {
            slot.roms.pop();
        }
        15 | 16 => slot.x[place - 15] = random.pick(&[[NONE, NONE], [0, NONE], [20, 21]]),
        17 => slot.select_algorithm = random.between(1, 4) as u8,
        18 => slot.first_select_pin = random.byte(),
        19 => case.output_length = case.output_length.saturating_sub(random.below(64) as u32),
        20 => case.mark_length /= 2,
        _ => flip(random, &mut case.data),
    }
}

/// A pin that takes the base's sum just past 255, if the base is not 0.
fn past_255(base: u8) -> u8 {
    255 - base.saturating_sub(1)
}

fn with_rom(random: &mut Random, slot: &mut Slot, change: fn(&mut Random, &mut Rom)) {
    if !slot.roms.is_empty() {
        let which = random.below(slot.roms.len());
        change(random, &mut slot.roms[which]);
    }
}

fn data_entry(random: &mut Random, rom: &mut Rom) {
    rom.data[random.below(8)] = random.pick(&[NONE, 0, 47, 200]);
}

fn flip(random: &mut Random, data: &mut [u8]) {
    if !data.is_empty() {
        data[random.below(data.len())] ^= 1 << random.below(8);
    }
}

/// Changes that need not be faults.
pub fn other(random: &mut Random, case: &mut ReadBack) {
    let slot = &mut case.slot;
    match random.below(14) {
        0 => {
            case.data.pop();
        }
        1 => slot.kind = random.below(7) as u8,
        2 => slot.bit_mode ^= 1,
        3 => slot.pins = random.below(10) as u8,
        4 => slot.address_base = random.byte(),
        5..=6 => split_bases(random, slot),
        7..=9 => force(random, slot),
        _ => with_rom(random, slot, map_or_size),
    }
}

/// Splits a base between base and pin otherwise; the sum stays.
fn split_bases(random: &mut Random, slot: &mut Slot) {
    let (base, pin) = match random.below(3) {
        0 => (&mut slot.address_base, &mut slot.base_address_pin),
        1 => (&mut slot.data_base, &mut slot.base_data_pin),
        _ => (&mut slot.select_base, &mut slot.first_select_pin),
    };
    let moved = (random.below(8) as u8).min(*base);
    *base -= moved;
    *pin += moved;
}

/// Overrides of every kind, in and out of the window, at times low and high on one GPIO.
fn force(random: &mut Random, slot: &mut Slot) {
    for _ in 0..random.pick(&[1, 1, 2, 3, 64]) {
        let near = random.below(10) as u8;
        let gpio = match random.chance(80) {
            true => slot.address_base.wrapping_add(near) % 64,
            false => random.below(64) as u8,
        };
        slot.overrides.push((random.below(4) as u8) << 6 | gpio);
        if random.chance(30) {
            let order = random.pick(&[[2, 3], [3, 2]]);
            slot.overrides
                .extend(order.map(|kind: u8| kind << 6 | gpio));
        }
    }
    slot.overrides.truncate(64);
}

fn map_or_size(random: &mut Random, rom: &mut Rom) {
    let place = random.below(6);
    match random.below(5) {
        0 => rom.address[place] = random.gpio(),
        1 => rom.address[place] = NONE,
        2 => rom.address[place] = rom.address[place + 1],
        3 => rom.data[place] = rom.data[place + 1],
        _ => rom.size = random.pick(&[0, 1, 3, 64, 300, 1 << 24]),
    }
}
