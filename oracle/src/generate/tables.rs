//! Layouts that no search found, and records for read-back: good ones and damaged copies.

use super::{faults, slots, wiring};
use crate::answer::fitted;
use crate::case::{Case, ReadBack};
use crate::description::{Description, MULTI, NONE, Pin, SINGLE};
use crate::engine::Job;
use crate::layout::{AddressLayout, SelectLayout};
use crate::model::build;
use crate::model::dump::Order;
use crate::random::Random;
use crate::slot::{SINGLE_RAM, SINGLE_ROM};

/// Layouts over a small window: lines, X pins and the select on different GPIOs of it.
pub fn layouts(random: &mut Random, slot: &Description) -> (AddressLayout, SelectLayout) {
    let base = random.between(0, 40);
    let pins = random.between(3, 8).min(48 - base);
    let mut window: Vec<u8> = (base..base + pins).map(|gpio| gpio as u8).collect();
    random.shuffle(&mut window);
    let (x1, x2) = (window.pop(), window.pop());
    let first = window.pop().unwrap_or(base as u8);
    if slot.set_type == SINGLE || random.chance(20) {
        window.extend(x1.iter().chain(&x2));
    }
    window.truncate(random.between(1, window.len().max(1)));
    let address = AddressLayout {
        base: base as u8,
        pins: pins as u8,
        x1,
        x2,
        lines: window,
        excess: Vec::new(),
    };
    (address, select_layout(random, slot, first))
}

/// Layouts of a table of 512 KiB: what picks the chip, and address lines on the rest of the window,
/// now and then but for one or two.
pub fn large_layouts(random: &mut Random, slot: &Description) -> (AddressLayout, SelectLayout) {
    let pins = 20 - usize::from(slot.word_bytes);
    let base = random.between(0, 48 - pins);
    let mut window: Vec<u8> = (base..base + pins).map(|gpio| gpio as u8).collect();
    random.shuffle(&mut window);
    let x_pins = match slot.set_type {
        SINGLE => 0,
        _ => slot.chips.len() - 1,
    };
    let x1 = window.pop_if(|_| x_pins > 0);
    let x2 = window.pop_if(|_| x_pins > 1);
    let first = window.pop_if(|_| slot.set_type == MULTI);
    window.truncate(window.len() - random.pick(&[0, 0, 0, 1, 2]));
    let address = AddressLayout {
        base: base as u8,
        pins: pins as u8,
        x1,
        x2,
        lines: window,
        excess: Vec::new(),
    };
    (address, select_layout(random, slot, first.unwrap_or(0)))
}

/// A layout with one select line and the data lines of a word side by side, in any order.
fn select_layout(random: &mut Random, slot: &Description, first: u8) -> SelectLayout {
    let bits = 8 * slot.word_bytes;
    let start = random.between(0, 48 - usize::from(bits)) as u8;
    let mut data: Vec<u8> = (start..start + bits).collect();
    random.shuffle(&mut data);
    let base = if start < 16 { 0 } else { 16 };
    SelectLayout {
        base,
        base_data_pin: start - base,
        base_cs_pin: first.saturating_sub(base),
        cs_pins: 1,
        ignore: None,
        qualifier: None,
        data,
        select: vec![(random.below(6) as u8, first)],
        commoned: Vec::new(),
    }
}

/// Changes one to three numbers of a pair of layouts.
pub fn damage_layouts(random: &mut Random, address: &mut AddressLayout, select: &mut SelectLayout) {
    for _ in 0..random.between(1, 3) {
        match random.below(18) {
            16 | 17 => to_the_edge(random, address, select),
            0 => address.base = random.gpio(),
            1 => address.base = (address.base + 1).min(47),
            2 => address.pins = random.between(0, 48) as u8,
            3 => address.pins = address.pins.saturating_sub(2),
            4 => address.x1 = None,
            5 => address.x2 = None,
            6 => address.x1 = Some(random.gpio()),
            7 => address.x2 = Some(random.gpio()),
            8 => change(random, &mut address.lines),
            9 => change(random, &mut select.data),
            10 => select.data.truncate(random.between(1, select.data.len())),
            11 => select.base_data_pin = random.gpio(),
            12 => select.base_data_pin = select.base_data_pin.saturating_sub(1),
            13 => select.select.clear(),
            14 => select
                .select
                .iter_mut()
                .for_each(|line| line.1 = (line.1 + 9) % 48),
            _ => address
                .lines
                .truncate(random.between(0, address.lines.len())),
        }
    }
}

/// Puts a line at position 31 or 32.
fn to_the_edge(random: &mut Random, address: &mut AddressLayout, select: &mut SelectLayout) {
    let edge = random.pick(&[31, 31, 32]);
    address.base = random.below(16) as u8;
    let gpio = address.base + edge;
    match random.below(5) {
        0 => address.x1 = Some(gpio),
        1 => address.x2 = Some(gpio),
        2 => select.select = vec![(0, gpio)],
        3 => {
            select.base = 0;
            select.base_data_pin = address.base;
            select.data[0] = gpio;
        }
        _ => {
            address.lines.pop();
            address.lines.push(gpio);
        }
    }
}

fn change(random: &mut Random, gpios: &mut [u8]) {
    if !gpios.is_empty() {
        gpios[random.below(gpios.len())] = random.gpio();
    }
}

/// Sizes around what the lines reach.
pub fn words_fit(random: &mut Random, slot: &mut Description, lines: usize) {
    for chip in &mut slot.chips {
        let full = u32::from(slot.word_bytes) << lines;
        let some = random.below(full as usize + 1) as u32;
        chip.size = random.pick(&[full, full, full, full / 2, some, full + 3, 2 * full, 0]);
    }
}

pub fn read_back(random: &mut Random) -> Case {
    let slot = wiring::description(random);
    let layouts = layouts(random, &slot);
    let good = good_read_back(random, slot, layouts);
    read_back_case(random, good)
}

/// The same of a table of 512 KiB.
pub fn large_read_back(random: &mut Random) -> Case {
    let slot = wiring::description(random);
    let layouts = large_layouts(random, &slot);
    let good = good_read_back(random, slot, layouts);
    read_back_case(random, good)
}

/// The case as it is or with faults.
fn read_back_case(random: &mut Random, mut case: ReadBack) -> Case {
    match random.below(10) {
        0..=3 => {}
        4 | 5 => faults::any(random, &mut case),
        6 | 7 => faults::other(random, &mut case),
        8 => faults::neighbours(random, &mut case),
        _ => {
            faults::other(random, &mut case);
            faults::any(random, &mut case);
        }
    }
    Case::ReadBack(Box::new(case))
}

/// A table as the build makes it, or any bytes where the build refuses, and the record to read it.
fn good_read_back(
    random: &mut Random,
    mut slot: Description,
    (address, select): (AddressLayout, SelectLayout),
) -> ReadBack {
    words_fit(random, &mut slot, address.lines.len());
    slot.largest_table = 1 << 20;
    let images = slots::images(random, &slot);
    let job = Job {
        address: &address,
        select: &select,
        images: &images,
        table_length: usize::MAX,
    };
    let length = usize::from(slot.word_bytes) << address.pins;
    let table = build::table(&slot, &job, Order::LowFirst);
    let data = table.unwrap_or_else(|_| (0..length).map(|_| random.byte()).collect());
    let mut record = fitted(&slot, &address, &select, data.len());
    if record.kind == SINGLE_ROM && random.chance(50) {
        record.kind = SINGLE_RAM;
    }
    record.data_algorithm = random.below(2) as u8;
    record.x = [
        x_pin(random, address.x1, &address),
        x_pin(random, address.x2, &address),
    ];
    let sizes: u32 = slot.chips.iter().map(|chip| chip.size).sum();
    let room = sizes.max(length as u32);
    ReadBack {
        slot: record,
        output_length: room,
        mark_length: room,
        data,
    }
}

/// An X pin with its GPIO of the window and perhaps another outside it, in either order.
fn x_pin(random: &mut Random, inside: Option<u8>, window: &AddressLayout) -> Pin {
    let any = random.gpio();
    let is_outside = any.wrapping_sub(window.base) >= window.pins;
    let outside = if is_outside { any } else { NONE };
    match (inside, outside) {
        (Some(gpio), NONE) => [gpio, NONE],
        (Some(gpio), other) if random.chance(50) => [other, gpio],
        (Some(gpio), other) => [gpio, other],
        (None, other) => [other, NONE],
    }
}
