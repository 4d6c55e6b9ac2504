//! The build of a table.

use super::dump::{Order, word};
use crate::description::{BANKED, Description, MULTI, SINGLE};
use crate::engine::{Job, Told, refused};

const PAD: u32 = 0xAA;

/// Bit k of the answer is bit `positions[k]` of the number.
pub fn gather(positions: &[u32], number: u64) -> u64 {
    positions
        .iter()
        .enumerate()
        .map(|(k, &position)| (number >> position & 1) << k)
        .sum()
}

/// Bit k of the number goes to `positions[k]`; bits that meet are joined.
fn scatter(positions: &[u32], number: u32) -> u32 {
    let bits = positions
        .iter()
        .enumerate()
        .map(|(k, &position)| (number >> k & 1) << position);
    bits.fold(0, |joined, bit| joined | bit)
}

fn position(gpio: u8, base: u32) -> Told<u32> {
    match u32::from(gpio).checked_sub(base) {
        Some(position) if position <= 31 => Ok(position),
        _ => refused(13, 0),
    }
}

fn positions(gpios: &[u8], base: u32) -> Told<Vec<u32>> {
    gpios.iter().map(|&gpio| position(gpio, base)).collect()
}

fn needed(gpio: Option<u8>, base: u32) -> Told<u32> {
    gpio.map_or_else(|| refused(13, 0), |gpio| position(gpio, base))
}

/// Where the lines are in the index and in an entry.
struct Places {
    address: Vec<u32>,
    /// Banked: X1, X2. Multi: first select, X1, X2.
    pick: Vec<u32>,
    data: Vec<u32>,
}

fn places(slot: &Description, job: &Job) -> Told<Places> {
    let base = u32::from(job.address.base);
    let address = positions(&job.address.lines, base)?;
    let chips = slot.chips.len();
    let wanted = match slot.set_type {
        SINGLE => 1..=1,
        BANKED => 2..=4,
        _ => 2..=3,
    };
    if !wanted.contains(&chips) {
        return refused(12, 0);
    }
    let mut pick = Vec::new();
    if slot.set_type == MULTI {
        let first = job.select.select.first().map(|line| line.1);
        pick.push(needed(first, base)?);
    }
    if slot.set_type != SINGLE {
        pick.push(needed(job.address.x1, base)?);
        if chips >= 3 {
            pick.push(needed(job.address.x2, base)?);
        }
    }
    let data_base = u32::from(job.select.base) + u32::from(job.select.base_data_pin);
    Ok(Places {
        address,
        pick,
        data: positions(&job.select.data, data_base)?,
    })
}

/// The chip that an index picks, if any.
pub fn picked(set_type: u8, chips: usize, pick: &[u32], index: u64) -> Option<usize> {
    let bits = gather(pick, index) as usize;
    match set_type {
        SINGLE => Some(0),
        BANKED => (bits < chips).then_some(bits),
        _ => (bits.count_ones() == 1).then(|| bits.trailing_zeros() as usize),
    }
}

/// Which word of the chip an address reads; none where the chip ends before it.
fn word_at(words: u64, address: u64) -> Option<u64> {
    match address {
        _ if address < words => Some(address),
        _ if words.is_power_of_two() => Some(address % words),
        _ => None,
    }
}

/// The chips' bytes, all there.
fn chip_bytes(slot: &Description, job: &Job) -> Told<Vec<Vec<u8>>> {
    let images = &job.images[..slot.chips.len()];
    if let Some(chip) = images.iter().position(|image| !image.present) {
        return refused(14, chip as u64);
    }
    let mut pairs = slot.chips.iter().zip(images);
    if let Some(chip) = pairs.position(|(chip, image)| image.length < chip.size) {
        return refused(15, chip as u64);
    }
    Ok(images.iter().map(|image| image.bytes()).collect())
}

/// The table of chips whose bytes are in this order; its entries are low byte first.
pub fn table(slot: &Description, job: &Job, order: Order) -> Told<Vec<u8>> {
    let word_bytes = usize::from(slot.word_bytes);
    let length = (1u64 << job.address.pins) * word_bytes as u64;
    if length > u64::from(slot.largest_table) {
        return refused(11, 0);
    }
    let places = places(slot, job)?;
    let bytes = chip_bytes(slot, job)?;
    if (job.table_length as u64) < length {
        return refused(16, 0);
    }
    let pad = if word_bytes == 1 { PAD } else { PAD << 8 | PAD };
    let mut table = Vec::with_capacity(length as usize);
    for index in 0..1u64 << job.address.pins {
        let address = gather(&places.address, index);
        let chip = picked(slot.set_type, slot.chips.len(), &places.pick, index);
        let raw = chip.and_then(|chip| {
            let words = u64::from(slot.chips[chip].size) / word_bytes as u64;
            word_at(words, address).map(|number| word(&bytes[chip], number, word_bytes, order))
        });
        let entry = scatter(&places.data, raw.unwrap_or(pad));
        table.extend_from_slice(&entry.to_le_bytes()[..word_bytes]);
    }
    Ok(table)
}
