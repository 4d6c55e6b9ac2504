//! The answer to a case as a line of numbers: the kind, the number and place of a refusal, or 0 0
//! and the result's fields.

use crate::case::{Build, Case, MultiSelect, ReadBack, Record, line_of};
use crate::description::{Description, MULTI, Multi, NONE, SINGLE};
use crate::engine::{Engine, Failure, Job, Lent, Recovered, Told, refused};
use crate::layout::{AddressLayout, SelectLayout};
use crate::model::domain;
use crate::slot::{BANKED_ROM, ChipBytes, MULTI_ROM, Rom, SINGLE_ROM, Slot};

pub fn answer(engine: &dyn Engine, case: &Case) -> String {
    match case {
        Case::Chain(record, images) => Chain::of(engine, record, images).line(),
        _ => line(case.kind(), fields(engine, case)),
    }
}

/// The line of any kind but the chain's.
pub fn line(kind: u64, told: Told<Vec<u64>>) -> String {
    match told {
        Ok(fields) => {
            let mut numbers = vec![kind, 0, 0];
            numbers.extend(fields);
            line_of(&numbers)
        }
        Err(Failure::Refused { number, place }) => line_of(&[kind, number, place]),
        Err(Failure::Panic) => format!("{kind} panic"),
    }
}

fn fields(engine: &dyn Engine, case: &Case) -> Told<Vec<u64>> {
    match case {
        &Case::Window(base, span) => Ok(vec![u64::from(engine.window_fits(base, span)?)]),
        &Case::Offset(chip, board) => offset(engine, chip, board),
        &Case::Preference(qualifiers, ignore) => {
            Ok(vec![u64::from(engine.preference(qualifiers, ignore)?)])
        }
        Case::MultiSelect(case) => multi_select(engine, case),
        Case::AddressSearch(record) => Ok(address_search(engine, &described(record)?)?.fields()),
        Case::SelectSearch(record, address) => {
            Ok(select_search(engine, &described(record)?, address.as_ref())?.fields())
        }
        Case::Build(case) => Ok(table_fields(&build(engine, case)?)),
        Case::ReadBack(case) => Ok(recovered_fields(&read_back(engine, case)?)),
        Case::Chain(..) => unreachable!("a chain's answer has a line of its own"),
    }
}

fn offset(engine: &dyn Engine, chip: u8, board: u8) -> Told<Vec<u64>> {
    if !domain::board_pins(board) {
        return refused(1, 0);
    }
    Ok(vec![u64::from(engine.socket_offset(chip, board)? as u8)])
}

fn multi_select(engine: &dyn Engine, case: &MultiSelect) -> Told<Vec<u64>> {
    if !domain::multi_select(case) {
        return refused(1, 0);
    }
    Ok(multi_fields(&engine.multi_select(case)?))
}

fn multi_fields(multi: &Multi) -> Vec<u64> {
    let mut fields = vec![
        u64::from(multi.select),
        multi.commoned.len() as u64,
        multi.ignored.len() as u64,
    ];
    for list in [&multi.commoned, &multi.ignored] {
        let mut places = list.clone();
        places.resize(8, 0);
        fields.extend(places.iter().map(|&kind| u64::from(kind)));
    }
    fields
}

/// The description of a record that is in the domain.
fn described(record: &Record) -> Told<Description> {
    match Description::read(record).filter(domain::description) {
        Some(slot) => Ok(slot),
        None => refused(1, 0),
    }
}

fn address_search(engine: &dyn Engine, slot: &Description) -> Told<AddressLayout> {
    if !domain::address_search(slot) {
        return refused(1, 0);
    }
    engine.address_search(slot)
}

fn select_search(
    engine: &dyn Engine,
    slot: &Description,
    address: Option<&AddressLayout>,
) -> Told<SelectLayout> {
    if !domain::select_search(slot)
        || !address.is_none_or(|layout| domain::address_layout(slot, layout))
    {
        return refused(1, 0);
    }
    engine.select_search(slot, address)
}

/// The table itself, of which an answer has the length and the checksum.
pub fn build(engine: &dyn Engine, case: &Build) -> Told<Vec<u8>> {
    let slot = described(&case.record)?;
    if !domain::address_layout(&slot, &case.address) || !domain::select_layout(&case.select) {
        return refused(1, 0);
    }
    let job = Job {
        address: &case.address,
        select: &case.select,
        images: &case.images,
        table_length: case.table_length as usize,
    };
    engine.build(&slot, &job)
}

pub fn table_fields(table: &[u8]) -> Vec<u64> {
    vec![table.len() as u64, checksum(table)]
}

/// The ROMs' bytes themselves, of which an answer has the lengths and the checksum.
pub fn read_back(engine: &dyn Engine, case: &ReadBack) -> Told<Recovered> {
    if !domain::slot(&case.slot) {
        return refused(1, 0);
    }
    let lent = Lent {
        output: case.output_length as usize,
        marks: case.mark_length as usize,
    };
    engine.read_back(&case.slot, &case.data, lent)
}

pub fn recovered_fields(recovered: &Recovered) -> Vec<u64> {
    let mut fields = vec![recovered.roms.len() as u64];
    for n in 0..4 {
        fields.push(recovered.roms.get(n).map_or(0, |rom| rom.len() as u64));
    }
    fields.extend([recovered.marks, checksum(&recovered.roms.concat())]);
    fields
}

/// FNV-1a of 64 bits.
pub fn checksum(bytes: &[u8]) -> u64 {
    bytes.iter().fold(0xcbf2_9ce4_8422_2325, |sum, &byte| {
        (sum ^ u64::from(byte)).wrapping_mul(0x0100_0000_01b3)
    })
}

/// Both searches, the build and the read-back in turn, each on what the one before it found.
pub struct Chain {
    /// Which of them answered: 1 to 4.
    pub stage: u64,
    /// As soon as it is built.
    pub table: Option<Vec<u8>>,
    /// Base and pins of the address layout, and what was read back.
    pub told: Told<([u8; 2], Recovered)>,
}

impl Chain {
    pub fn of(engine: &dyn Engine, record: &Record, images: &[ChipBytes; 4]) -> Self {
        let (mut stage, mut table) = (1, None);
        let told = chain(engine, record, images, &mut stage, &mut table);
        Self { stage, table, told }
    }

    pub fn line(&self) -> String {
        match &self.told {
            Ok((window, found)) => {
                let mut numbers = vec![9, 0, 0, self.stage];
                numbers.extend(window.map(u64::from));
                numbers.extend(self.table.iter().flat_map(|table| table_fields(table)));
                numbers.extend(recovered_fields(found));
                line_of(&numbers)
            }
            &Err(Failure::Refused { number, place }) => line_of(&[9, number, place, self.stage]),
            Err(Failure::Panic) => format!("9 panic {}", self.stage),
        }
    }
}

fn chain(
    engine: &dyn Engine,
    record: &Record,
    images: &[ChipBytes; 4],
    stage: &mut u64,
    built: &mut Option<Vec<u8>>,
) -> Told<([u8; 2], Recovered)> {
    let slot = described(record)?;
    let address = address_search(engine, &slot)?;
    *stage = 2;
    let select = select_search(engine, &slot, Some(&address))?;
    *stage = 3;
    let job = Job {
        address: &address,
        select: &select,
        images,
        table_length: usize::MAX,
    };
    let table = built.insert(engine.build(&slot, &job)?);
    *stage = 4;
    let lent = Lent {
        output: usize::MAX,
        marks: usize::MAX,
    };
    let found = engine.read_back(&fitted(&slot, &address, &select, table.len()), table, lent)?;
    Ok(([address.base, address.pins], found))
}

/// The slot record under which a table built from found layouts is read back.
pub fn fitted(
    slot: &Description,
    address: &AddressLayout,
    select: &SelectLayout,
    table_length: usize,
) -> Slot {
    let rom = |size| Rom {
        has_map: true,
        size,
        address: map(&address.lines),
        data: map(&select.data),
    };
    Slot {
        size: table_length as u32,
        kind: match slot.set_type {
            SINGLE => SINGLE_ROM,
            MULTI => MULTI_ROM,
            _ => BANKED_ROM,
        },
        has_layout: true,
        address_algorithm: 0,
        address_base: address.base,
        base_address_pin: 0,
        pins: address.pins,
        data_algorithm: 0,
        data_base: select.base,
        base_data_pin: select.base_data_pin,
        dma_algorithm: 0,
        bit_mode: slot.word_bytes - 1,
        select_algorithm: 0,
        select_base: select.select.first().map_or(0, |&(_, gpio)| gpio),
        first_select_pin: 0,
        overrides: Vec::new(),
        x: slot.x,
        roms: slot.chips.iter().map(|chip| rom(chip.size)).collect(),
    }
}

fn map(gpios: &[u8]) -> [u8; 32] {
    std::array::from_fn(|n| gpios.get(n).copied().unwrap_or(NONE))
}
