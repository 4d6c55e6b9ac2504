//! The read-back, with what a case of kind 8 hands in.

use onerom::{ByteOrder, StoredSlot, slot, unscramble_slot_into};
use oracle::answer::recovered_fields;
use oracle::case::{self, Case};
use oracle::engine::Recovered;
use oracle::random::Random;

use super::calls::{Call, Part, Wrote};
use super::damage::{SLOT_HEAD, damage_byte, damage_record};
use super::records::stored_slot;
use super::{INCONSISTENT, UNSERVED};
use crate::plain;

#[derive(Clone)]
pub struct ReadBack {
    record: Vec<u8>,
    stored: Vec<u8>,
    order: u64,
    output_length: u32,
    mark_length: u32,
}

impl ReadBack {
    fn slot(&self) -> Option<StoredSlot> {
        stored_slot(&self.record).map(|slot| plain::to_stored(&slot))
    }
}

/// The ROMs' bytes and marks that a success wrote.
pub fn recovered(roms: Vec<Vec<u8>>, marks: &[u8]) -> Option<Wrote> {
    let recovered = Recovered {
        roms,
        marks: marks.len() as u64,
    };
    let marked = marks.iter().all(|&mark| mark == 1);
    marked.then(|| (recovered_fields(&recovered), recovered.roms.concat()))
}

impl Call<2, 2> for ReadBack {
    const NAME: &'static str = "read-back";
    const KIND: u64 = 8;
    const TAKES_ORDER: bool = true;

    fn of(case: &Case) -> Option<Self> {
        let Case::ReadBack(case) = case else {
            return None;
        };
        Some(Self {
            record: plain::to_stored(&case.slot).to_bytes().to_vec(),
            stored: case.data.clone(),
            order: ByteOrder::LowFirst.number(),
            output_length: case.output_length,
            mark_length: case.mark_length,
        })
    }

    fn order(&self) -> u64 {
        self.order
    }

    fn set_order(&mut self, order: u64) {
        self.order = order;
    }

    fn is_wide(&self) -> bool {
        let slot = self.slot();
        slot.is_some_and(|slot| !slot.kind.is_plugin() && slot.word_bytes() == 2)
    }

    /// In half of the cases a byte of the algorithms or of the first ROM, else any.
    fn damage(&mut self, random: &mut Random) {
        let first_rom = slot::ROMS..slot::ROMS + slot::ROM;
        match random.below(4) {
            0 => damage_byte(&mut self.record[..SLOT_HEAD], random),
            1 => damage_byte(&mut self.record[first_rom], random),
            _ => damage_record(&mut self.record, random),
        }
    }

    fn records(&mut self) -> Vec<Part<'_>> {
        vec![Part {
            record: &mut self.record,
            length: slot::LENGTH,
            head: SLOT_HEAD,
        }]
    }

    fn case(&self) -> Option<Case> {
        Some(Case::ReadBack(Box::new(case::ReadBack {
            slot: stored_slot(&self.record)?,
            output_length: self.output_length,
            mark_length: self.mark_length,
            data: self.stored.clone(),
        })))
    }

    fn read(&self) -> [&[u8]; 2] {
        [&self.record, &self.stored]
    }

    fn lengths(&self) -> [usize; 2] {
        self.slot().map_or([0; 2], |slot| {
            let stored = self.stored.len();
            [slot.lengths(stored).iter().sum(), slot.marks(stored)]
        })
    }

    /// As the case says: some cases lend too few.
    fn lent(&self, _lengths: [usize; 2], _spare: usize) -> [usize; 2] {
        [self.output_length as usize, self.mark_length as usize]
    }

    fn clears(number: u64) -> bool {
        [INCONSISTENT, UNSERVED].contains(&number)
    }

    fn call(order: u64, [slot, stored]: [&[u8]; 2], [output, marks]: [&mut [u8]; 2]) -> u64 {
        unscramble_slot_into(slot, stored, order, output, marks)
    }

    fn success(&self, [output, marks]: [&[u8]; 2]) -> Option<Wrote> {
        recovered(self.slot()?.cut(output), marks)
    }
}
