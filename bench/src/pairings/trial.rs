//! A slot through both searches, the build and the read-back, with made bytes.

use onerom::images::{Span, spans_record};
use onerom::slot::words;
use onerom::{
    AddrLayout, ByteOrder, Call, Description, Refusal, build_rom_image_into, round_trip_into,
    table_length, well_wired,
};

use super::Untried;
use crate::laid_out;
use crate::reach::parts_served;

/// What comes of a pairing.
#[derive(Clone, Copy, PartialEq, Eq)]
pub enum Outcome {
    /// All words of the chips come back.
    Whole,
    /// Those that the largest table has come back; excess lines select among the others.
    Part,
    /// The address lines do not reach all words, and no excess line explains it.
    Lost,
    /// What was tried comes back, but the slot is not well wired.
    Wiring,
    /// A word comes back as another.
    Different,
    Refused(Refusal),
    Untried(Untried),
}

impl Outcome {
    /// Whether a table is built that does not give the chips back.
    pub fn is_fault(&self) -> bool {
        match self {
            Self::Lost | Self::Wiring | Self::Different => true,
            Self::Refused(refusal) => refusal.call == Call::ReadBack,
            Self::Whole | Self::Part | Self::Untried(_) => false,
        }
    }
}

/// The mark of a word that was read.
const MARKED: u8 = 1;

/// The byte order of the made bytes.
const ORDER: ByteOrder = ByteOrder::LowFirst;

/// Buffers that one trial after the other uses.
#[derive(Default)]
pub struct Trials {
    /// Bytes of chips, of which each slot's take the first.
    images: Vec<u8>,
    table: Vec<u8>,
    output: Vec<u8>,
    marks: Vec<u8>,
}

impl Trials {
    pub fn tried(&mut self, slot: &Description) -> Outcome {
        self.outcome(slot).unwrap_or_else(Outcome::Refused)
    }

    fn outcome(&mut self, slot: &Description) -> Result<Outcome, Refusal> {
        let (addr, cs_data) = laid_out(slot)?;
        let (record, layout, cs_data) = (slot.to_bytes(), addr.to_bytes(), cs_data.to_bytes());
        self.make_room(slot, table_length(&record, &layout));
        self.round_trip(slot, [&record, &layout, &cs_data])?;
        if !self.comes_back(slot, addr.lines.len()) {
            return Ok(Outcome::Different);
        }
        if !well_wired(slot, &addr)? {
            return Ok(Outcome::Wiring);
        }
        Ok(reached(slot, &addr))
    }

    /// Lets the buffers grow to what the slot needs, and clears what could be left of another.
    fn make_room(&mut self, slot: &Description, table: usize) {
        let room = bytes(slot).sum();
        if self.images.len() < room {
            self.images = (0..room as u64).map(made_byte).collect();
            self.output.resize(room, 0);
            self.marks.resize(room, 0);
        }
        if self.table.len() < table {
            self.table.resize(table, 0);
        }
        self.output[..room].fill(0);
        self.marks[..room].fill(0);
    }

    /// The records are those of description, address layout and select layout.
    fn round_trip(&mut self, slot: &Description, records: [&[u8]; 3]) -> Result<(), Refusal> {
        let [description, addr, cs_data] = records;
        let (spans, images, table) = (spans(slot), &self.images, &mut self.table);
        let (output, marks, order) = (&mut self.output, &mut self.marks, ORDER.number());
        let result = round_trip_into(description, &spans, images, order, table, output, marks);
        if result == 0 {
            return Ok(());
        }
        // The searches have answered before, so that the refusal is of one of the other two.
        let built = build_rom_image_into(description, addr, cs_data, &spans, images, order, table);
        let call = match built {
            0 => Call::ReadBack,
            _ => Call::Build,
        };
        Refusal::of(call, result).map_or(Ok(()), Err)
    }

    /// Whether each chip's words that so many lines reach are its own.
    fn comes_back(&self, slot: &Description, lines: usize) -> bool {
        let word_bytes = usize::from(slot.word_bytes);
        let (mut images, mut output) = (&self.images[..], &self.output[..]);
        let mut total = 0;
        for chip in &slot.chips {
            let count = words(chip.size, word_bytes, lines);
            let (read, others) = output.split_at(count * word_bytes);
            let (own, rest) = images.split_at(chip.size as usize);
            if read != &own[..read.len()] {
                return false;
            }
            (images, output) = (rest, others);
            total += count;
        }
        self.marks[..total].iter().all(|&mark| mark == MARKED)
    }
}

fn reached(slot: &Description, addr: &AddrLayout) -> Outcome {
    match parts_served(slot, addr, false) {
        Ok(parts) if parts.is_empty() => Outcome::Whole,
        Ok(_) => Outcome::Part,
        Err(_) => Outcome::Lost,
    }
}

fn bytes(slot: &Description) -> impl Iterator<Item = usize> + '_ {
    slot.chips.iter().map(|chip| chip.size as usize)
}

/// The chips' bytes stand end to end.
fn spans(slot: &Description) -> [u8; onerom::images::LENGTH] {
    let mut start = 0;
    spans_record(slot.chips.iter().map(|chip| {
        let span = Span {
            present: true,
            start,
            length: chip.size,
        };
        start += chip.size;
        span
    }))
}

/// Bytes that look like any, so that lines or chips which change places show: splitmix64.
fn made_byte(place: u64) -> u8 {
    let mut mixed = (place + 1).wrapping_mul(0x9e37_79b9_7f4a_7c15);
    mixed = (mixed ^ mixed >> 30).wrapping_mul(0xbf58_476d_1ce4_e5b9);
    mixed = (mixed ^ mixed >> 27).wrapping_mul(0x94d0_49bb_1331_11eb);
    (mixed ^ mixed >> 31) as u8
}
