//! Read-back of a slot's table.

use super::build::{gather, picked};
use super::dump::{Order, put};
use crate::description::{BANKED, MULTI, NONE, Pin, SINGLE};
use crate::engine::{Lent, Recovered, Told, refused};
use crate::slot::{
    BANKED_ROM, FIRST_PLUGIN, LAST_PLUGIN, MULTI_ROM, Rom, SINGLE_RAM, SINGLE_ROM, Slot,
};

/// The address window and the data base.
struct Window {
    base: u32,
    pins: u32,
    data_base: u32,
    word_bytes: u32,
}

impl Window {
    fn position(&self, gpio: u32) -> Option<u32> {
        gpio.checked_sub(self.base)
            .filter(|&position| position < self.pins)
    }
}

struct RomPlaces {
    address: Vec<u32>,
    data: Vec<u32>,
    words: u64,
}

fn base_sum(base: u8, pin: u8) -> Told<u32> {
    let sum = u32::from(base) + u32::from(pin);
    if sum > 255 { refused(21, 0) } else { Ok(sum) }
}

fn window(slot: &Slot, length: usize) -> Told<Window> {
    if !slot.has_layout {
        return refused(19, 0);
    }
    if slot.address_algorithm != 0 {
        return refused(20, 0);
    }
    let base = base_sum(slot.address_base, slot.base_address_pin)?;
    if slot.data_algorithm > 1 {
        return refused(20, 0);
    }
    let data_base = base_sum(slot.data_base, slot.base_data_pin)?;
    if slot.dma_algorithm != 0 || slot.bit_mode > 1 {
        return refused(20, 0);
    }
    let window = Window {
        base,
        pins: u32::from(slot.pins),
        data_base,
        word_bytes: u32::from(slot.bit_mode) + 1,
    };
    if window.pins >= 32 || length as u64 != u64::from(window.word_bytes) << window.pins {
        return refused(21, 0);
    }
    Ok(window)
}

fn up_to_end(map: &[u8; 32]) -> impl Iterator<Item = u32> + '_ {
    map.iter()
        .take_while(|&&gpio| gpio != NONE)
        .map(|&gpio| u32::from(gpio))
}

fn rom_places(rom: &Rom, window: &Window) -> Told<RomPlaces> {
    if !rom.has_map {
        return refused(19, 0);
    }
    let bits = 8 * window.word_bytes;
    let data_position = |gpio: u32| {
        gpio.checked_sub(window.data_base)
            .filter(|&position| position < bits)
    };
    let address: Option<Vec<u32>> = up_to_end(&rom.address)
        .map(|gpio| window.position(gpio))
        .collect();
    let data: Option<Vec<u32>> = up_to_end(&rom.data).map(data_position).collect();
    match (address, data) {
        (Some(address), Some(data)) if data.len() == bits as usize => {
            let words = u64::from(rom.size / window.word_bytes).min(1 << address.len());
            Ok(RomPlaces {
                address,
                data,
                words,
            })
        }
        _ => refused(21, 0),
    }
}

fn x_position(pin: Pin, number: u64, window: &Window) -> Told<u32> {
    let given = pin.iter().filter(|&&gpio| gpio != NONE);
    let inside: Vec<u32> = given
        .filter_map(|&gpio| window.position(u32::from(gpio)))
        .collect();
    match inside[..] {
        [only] => Ok(only),
        _ => refused(22, number),
    }
}

/// The index bits that pick the ROM: Banked X1, X2; Multi select, X1, X2.
fn pick(slot: &Slot, set_type: u8, window: &Window) -> Told<Vec<u32>> {
    let roms = slot.roms.len();
    let wanted = match set_type {
        SINGLE => 1..=1,
        BANKED => 2..=4,
        _ => 2..=3,
    };
    if !wanted.contains(&roms) {
        return refused(21, 0);
    }
    let mut pick = Vec::new();
    if set_type != SINGLE {
        pick.push(x_position(slot.x[0], 1, window)?);
        if roms >= 3 {
            pick.push(x_position(slot.x[1], 2, window)?);
        }
    }
    if set_type == MULTI {
        if slot.select_algorithm != 0 {
            return refused(20, 0);
        }
        let gpio = base_sum(slot.select_base, slot.first_select_pin)?;
        match window.position(gpio) {
            Some(position) => pick.insert(0, position),
            None => return refused(21, 0),
        }
    }
    Ok(pick)
}

/// The forced index bits, and those forced high; high beats low.
fn forced(slot: &Slot, window: &Window) -> (u64, u64) {
    let (mut any, mut high) = (0, 0);
    for &entry in &slot.overrides {
        let kind = entry / 64;
        if let Some(position) = window.position(u32::from(entry % 64)).filter(|_| kind >= 2) {
            any |= 1 << position;
            high |= u64::from(kind == 3) << position;
        }
    }
    (any, high)
}

/// What a slot stores, as ROMs in this byte order.
pub fn recover(slot: &Slot, data: &[u8], lent: Lent, order: Order) -> Told<Recovered> {
    if data.len() != slot.size as usize {
        return refused(17, 0);
    }
    let set_type = match slot.kind {
        FIRST_PLUGIN..=LAST_PLUGIN => return plugin(data, lent),
        SINGLE_ROM | SINGLE_RAM => SINGLE,
        BANKED_ROM => BANKED,
        MULTI_ROM => MULTI,
        _ => return refused(18, 0),
    };
    let window = window(slot, data.len())?;
    let roms: Vec<RomPlaces> = slot
        .roms
        .iter()
        .map(|rom| rom_places(rom, &window))
        .collect::<Told<_>>()?;
    let pick = pick(slot, set_type, &window)?;
    let words: u64 = roms.iter().map(|rom| rom.words).sum();
    let bytes = words * u64::from(window.word_bytes);
    if (lent.output as u64) < bytes || (lent.marks as u64) < words {
        return refused(16, 0);
    }
    let forced = forced(slot, &window);
    let picked = |index| {
        let free = index & forced.0 == forced.1;
        picked(set_type, roms.len(), &pick, index).filter(|_| free)
    };
    let kept = keep(data, window.word_bytes as usize, &roms, picked)?;
    collect(&kept, window.word_bytes as usize, order)
}

/// The values of each ROM's words, by address; none where no entry has come.
type Kept = Vec<Vec<Option<u64>>>;

/// Goes through the entries in rising index order and keeps the first value of each word.
fn keep(
    data: &[u8],
    word_bytes: usize,
    roms: &[RomPlaces],
    picked: impl Fn(u64) -> Option<usize>,
) -> Told<Kept> {
    let mut kept: Kept = roms
        .iter()
        .map(|rom| vec![None; rom.words as usize])
        .collect();
    for (index, entry) in data.chunks(word_bytes).enumerate() {
        let index = index as u64;
        let Some(chip) = picked(index) else {
            continue;
        };
        let address = gather(&roms[chip].address, index);
        let stored = entry
            .iter()
            .rev()
            .fold(0, |word, &byte| word << 8 | u64::from(byte));
        let value = gather(&roms[chip].data, stored);
        match kept[chip].get_mut(address as usize) {
            Some(place @ None) => *place = Some(value),
            Some(Some(first)) if *first != value => return refused(23, word(chip, address)),
            _ => {}
        }
    }
    Ok(kept)
}

fn plugin(data: &[u8], lent: Lent) -> Told<Recovered> {
    if lent.output < data.len() {
        return refused(16, 0);
    }
    Ok(Recovered {
        roms: vec![data.to_vec()],
        marks: 0,
    })
}

fn word(rom: usize, address: u64) -> u64 {
    ((rom as u64) << 32) + address
}

fn collect(kept: &Kept, word_bytes: usize, order: Order) -> Told<Recovered> {
    let mut roms = Vec::new();
    let mut marks = 0;
    for (rom, words) in kept.iter().enumerate() {
        let mut bytes = Vec::new();
        for (address, value) in words.iter().enumerate() {
            let &Some(value) = value else {
                return refused(24, word(rom, address as u64));
            };
            put(&mut bytes, value, word_bytes, order);
            marks += 1;
        }
        roms.push(bytes);
    }
    Ok(Recovered { roms, marks })
}
