//! Records that are handed in: what a case makes of their bytes.

use std::ops::Range;

use onerom::images::{self, SPAN};
use onerom::interface::{addr_layout, cs_data_layout, image_span, stored_rom, stored_slot as at};
use onerom::layout::{addr, cs_data};
use onerom::slot;
use onerom::{AddrLayout, CsDataLayout};
use oracle::layout::{AddressLayout, SelectLayout};
use oracle::slot::{ChipBytes, Rom, Slot};

use crate::plain;

/// Places of the address layout record that are kept at 0.
pub const ADDR_KEPT: [Range<usize>; 2] = [addr_layout::SPARE, addr_layout::INVERTED];

/// The layout of a record as a case has it. A case has no other length, no kept places, and no
/// count past its places.
pub fn address_layout(record: &[u8]) -> Option<AddressLayout> {
    let record: &[u8; addr::LENGTH] = record.try_into().ok()?;
    let counts = [addr_layout::LINE_COUNT, addr_layout::EXCESS_COUNT];
    let lines: usize = counts.map(|place| usize::from(record[place])).iter().sum();
    let mut kept = ADDR_KEPT.into_iter().flatten();
    let said = kept.all(|place| record[place] == 0) && lines <= addr::MOST_LINES;
    said.then(|| plain::address(AddrLayout::read(record)))
}

/// The same of a select layout, whose qualifiers a case has or has not.
pub fn select_layout(record: &[u8]) -> Option<SelectLayout> {
    let record: &[u8; cs_data::LENGTH] = record.try_into().ok()?;
    let counts = [
        (cs_data_layout::DATA_COUNT, 16),
        (cs_data_layout::SELECT_COUNT, 30),
        (cs_data_layout::COMMONED_COUNT, 6),
    ];
    let fit = counts.iter().all(|&(place, most)| record[place] <= most);
    let said = fit && record[cs_data_layout::QUALIFIED] <= 1;
    said.then(|| plain::select(CsDataLayout::read(record)))
}

/// What the spans leave of bytes that are one sequence, which begins with this seed: any part of it
/// is a sequence too.
pub fn chip_bytes(spans: &[u8], seed: u32, bytes: usize) -> Option<[ChipBytes; 4]> {
    let spans: &[u8; images::LENGTH] = spans.try_into().ok()?;
    let (chips, _) = spans.as_chunks::<SPAN>();
    let is_span =
        |chip: &[u8; SPAN]| chip[image_span::GIVEN] <= 1 && chip[image_span::SPARE] == [0; 3];
    if !chips.iter().all(is_span) {
        return None;
    }
    let told = |chip: &[u8; SPAN]| {
        let start = four(chip, image_span::START);
        let there = (bytes as u32).saturating_sub(start);
        ChipBytes {
            present: chip[image_span::GIVEN] == 1,
            length: four(chip, image_span::LENGTH).min(there),
            seed: seed.wrapping_add(start),
        }
    };
    Some(std::array::from_fn(|chip| told(&chips[chip])))
}

/// The slot of a record as a case has it, with no other flag than 0 and 1, no kept places, and no
/// count past its places.
pub fn stored_slot(record: &[u8]) -> Option<Slot> {
    let record: &[u8; slot::LENGTH] = record.try_into().ok()?;
    let (roms, _) = record[slot::ROMS..].as_chunks::<{ slot::ROM }>();
    let roms = roms.iter().map(rom).collect::<Option<Vec<Rom>>>()?;
    Some(Slot {
        size: four(record, at::BYTES),
        kind: record[at::KIND],
        has_layout: flag(record[at::LAYOUT_GIVEN])?,
        address_algorithm: record[at::ADDR_ALGORITHM],
        address_base: record[at::ADDR_BASE],
        base_address_pin: record[at::BASE_ADDR_PIN],
        pins: record[at::ADDR_PINS],
        data_algorithm: record[at::DATA_ALGORITHM],
        data_base: record[at::DATA_BASE],
        base_data_pin: record[at::BASE_DATA_PIN],
        dma_algorithm: record[at::DMA_ALGORITHM],
        bit_mode: record[at::BIT_MODE],
        select_algorithm: record[at::CS_ALGORITHM],
        select_base: record[at::CS_BASE],
        first_select_pin: record[at::FIRST_CS_PIN],
        overrides: counted(&record[at::OVERRIDES], record[at::OVERRIDE_COUNT])?,
        x: [pair(&record[at::X1])?, pair(&record[at::X2])?],
        roms: counted(&roms, record[at::ROM_COUNT])?,
    })
}

fn rom(bytes: &[u8; slot::ROM]) -> Option<Rom> {
    let rom = Rom {
        has_map: flag(bytes[stored_rom::MAP_GIVEN])?,
        size: four(bytes, stored_rom::BYTES),
        address: bytes[stored_rom::ADDRESS].try_into().ok()?,
        data: bytes[stored_rom::DATA].try_into().ok()?,
    };
    (bytes[stored_rom::SPARE] == [0; 3]).then_some(rom)
}

/// So many of a list, if it has as many places.
fn counted<T: Clone>(list: &[T], count: u8) -> Option<Vec<T>> {
    list.get(..usize::from(count)).map(<[T]>::to_vec)
}

fn pair(bytes: &[u8]) -> Option<[u8; 2]> {
    bytes.try_into().ok()
}

fn flag(byte: u8) -> Option<bool> {
    (byte <= 1).then_some(byte == 1)
}

/// The number of the four bytes at these places; 0 of another number of them.
pub fn four(bytes: &[u8], places: Range<usize>) -> u32 {
    bytes[places].try_into().map_or(0, u32::from_le_bytes)
}
