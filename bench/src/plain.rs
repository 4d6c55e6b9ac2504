//! The library's values as the oracle has them, and back.

use onerom::description::Candidates;
use onerom::layout::cs_data::{Line, Qualifiers, Role};
use onerom::slot::{Layout, Map, Rom, SlotKind};
use onerom::{AddrLayout, CsDataLayout, Refusal, StoredSlot};
use oracle::description::{NONE, Pin};
use oracle::engine::Failure;
use oracle::layout::{AddressLayout, Qualifier, SelectLayout};
use oracle::slot::Slot;

pub fn address(layout: AddrLayout) -> AddressLayout {
    AddressLayout {
        base: layout.base,
        pins: layout.pins,
        x1: layout.x1,
        x2: layout.x2,
        lines: layout.lines,
        excess: layout.excess,
    }
}

/// The oracle's layouts as the library takes them.
pub fn to_address(layout: AddressLayout) -> AddrLayout {
    AddrLayout {
        base: layout.base,
        pins: layout.pins,
        x1: layout.x1,
        x2: layout.x2,
        lines: layout.lines,
        excess: layout.excess,
    }
}

pub fn select(layout: CsDataLayout) -> SelectLayout {
    let qualifier = |given: Qualifiers| Qualifier {
        base_pin: given.base_pin,
        pins: given.pins,
        pattern: given.pattern,
    };
    SelectLayout {
        base: layout.base,
        base_data_pin: layout.base_data_pin,
        base_cs_pin: layout.base_cs_pin,
        cs_pins: layout.cs_pins,
        ignore: layout.ignore_index,
        qualifier: layout.qualifiers.map(qualifier),
        data: layout.data,
        select: lines(&layout.select),
        commoned: lines(&layout.commoned),
    }
}

pub fn to_select(layout: SelectLayout) -> CsDataLayout {
    let qualifiers = |given: Qualifier| Qualifiers {
        base_pin: given.base_pin,
        pins: given.pins,
        pattern: given.pattern,
    };
    CsDataLayout {
        base: layout.base,
        base_data_pin: layout.base_data_pin,
        data: layout.data,
        base_cs_pin: layout.base_cs_pin,
        cs_pins: layout.cs_pins,
        ignore_index: layout.ignore,
        qualifiers: layout.qualifier.map(qualifiers),
        select: to_lines(&layout.select),
        commoned: to_lines(&layout.commoned),
    }
}

fn to_lines(lines: &[oracle::layout::Line]) -> Vec<Line> {
    let line = |&(role, gpio): &oracle::layout::Line| Line {
        role: Role::of(role),
        gpio,
    };
    lines.iter().map(line).collect()
}

fn lines(lines: &[Line]) -> Vec<oracle::layout::Line> {
    let plain = |line: &Line| (line.role.number(), line.gpio);
    lines.iter().map(plain).collect()
}

/// The oracle's slot as the library takes it. What stands behind a flag that says no is left out.
pub fn to_stored(slot: &Slot) -> StoredSlot {
    let layout = Layout {
        addr_algorithm: slot.address_algorithm,
        addr_base: slot.address_base,
        base_addr_pin: slot.base_address_pin,
        addr_pins: slot.pins,
        data_algorithm: slot.data_algorithm,
        data_base: slot.data_base,
        base_data_pin: slot.base_data_pin,
        dma_algorithm: slot.dma_algorithm,
        bit_mode: slot.bit_mode,
        cs_algorithm: slot.select_algorithm,
        cs_base: slot.select_base,
        first_cs_pin: slot.first_select_pin,
    };
    StoredSlot {
        size: slot.size,
        kind: SlotKind::of(slot.kind),
        layout: slot.has_layout.then_some(layout),
        overrides: slot.overrides.clone(),
        x: slot.x.map(candidates),
        roms: slot.roms.iter().map(to_rom).collect(),
    }
}

fn to_rom(rom: &oracle::slot::Rom) -> Rom {
    let map = Map {
        address: rom.address,
        data: rom.data,
    };
    Rom {
        size: rom.size,
        map: rom.has_map.then_some(map),
    }
}

fn candidates(pin: Pin) -> Candidates {
    match pin {
        [NONE, NONE] => Candidates::Absent,
        [one, NONE] => Candidates::One(one),
        [one, two] => Candidates::Two(one, two),
    }
}

pub fn failure(refusal: Refusal) -> Failure {
    Failure::Refused {
        number: u64::from(refusal.number),
        place: refusal.place,
    }
}
