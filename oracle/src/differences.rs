//! The places where the original and document 01 part, numbered as in docs/DIFFERENCES.md: how a
//! case is known to belong to one. The numbers of the case must show the cause; two answers alone
//! do not put it on the list.

use crate::case::{Build, Case, ReadBack, Record};
use crate::description::{BANKED, Description, MULTI, SINGLE};
use crate::fields::Fields;
use crate::layout::{AddressLayout, SelectLayout};
use crate::model::{address, select};
use crate::slot::ChipBytes;
use crate::tally::{Outcome, outcome};

/// The difference that a case with these two answers shows; none if it is on no list.
pub fn number(case: &Case, original: &str, model: &str) -> Option<u32> {
    let (was, wanted) = (outcome(original).1, outcome(model).1);
    match (case, wanted) {
        (Case::MultiSelect(_), Outcome::Refused(25)) => (was == Outcome::Panic).then_some(1),
        (Case::Build(case), Outcome::Refused(16)) => lacks_table(case, original).then_some(8),
        (Case::Build(case), Outcome::Refused(wanted)) => Built::of(case)?.number(wanted, was),
        (Case::ReadBack(case), Outcome::Refused(16)) => lacks_room(case, original).then_some(9),
        (Case::Chain(record, images), Outcome::Refused(wanted)) => {
            let built = Built::of_found(record, images)?;
            match (wanted, was) {
                // A table that 01 does not build can go on to the read-back.
                (15, Outcome::Refused(21 | 22 | 24)) => built.number(wanted, Outcome::Success),
                _ => built.number(wanted, was),
            }
        }
        _ => None,
    }
}

/// The fields of a success, after kind, number and place.
fn fields(answer: &str) -> Option<Vec<u64>> {
    let mut numbers = Fields::of(answer)?;
    let head = [numbers.number()?, numbers.number()?, numbers.number()?];
    let rest = std::iter::from_fn(|| numbers.number()).collect();
    (head[1] == 0).then_some(rest)
}

/// Whether the lent table is shorter than the one that the original made.
fn lacks_table(case: &Build, original: &str) -> bool {
    let made = fields(original).map(|fields| fields[0]);
    made.is_some_and(|length| u64::from(case.table_length) < length)
}

/// Whether a lent buffer is shorter than what the original found, or than the ROMs' sizes where it
/// stopped at an entry.
fn lacks_room(case: &ReadBack, original: &str) -> bool {
    let (bytes, words) = match (fields(original), outcome(original).1) {
        (Some(fields), _) => (fields[1..5].iter().sum(), fields[5]),
        (None, Outcome::Refused(23 | 24)) => {
            let bytes = case.slot.roms.iter().map(|rom| u64::from(rom.size)).sum();
            (bytes, bytes)
        }
        _ => return false,
    };
    u64::from(case.output_length) < bytes || u64::from(case.mark_length) < words
}

/// What a build goes by.
struct Built {
    slot: Description,
    address: AddressLayout,
    select: SelectLayout,
    images: [ChipBytes; 4],
}

impl Built {
    fn of(case: &Build) -> Option<Self> {
        Some(Self {
            slot: Description::read(&case.record)?,
            address: case.address.clone(),
            select: case.select.clone(),
            images: case.images,
        })
    }

    fn of_found(record: &Record, images: &[ChipBytes; 4]) -> Option<Self> {
        let slot = Description::read(record)?;
        let address = address::search(&slot).ok()?;
        let select = select::search(&slot, Some(&address)).ok()?;
        Some(Self {
            slot,
            address,
            select,
            images: *images,
        })
    }

    fn number(&self, wanted: u64, was: Outcome) -> Option<u32> {
        let chips = self.slot.chips.len();
        let lone_bank = self.slot.set_type == BANKED && chips == 1;
        let images = &self.images[..chips];
        let missing = images.iter().any(|image| !image.present);
        let mut pairs = self.slot.chips.iter().zip(images);
        let short = pairs.any(|(chip, image)| image.length < chip.size);
        let positions = [self.line_positions(), self.pick_positions()].concat();
        let is_low = |position: &Option<i16>| position.is_none_or(|position| position < 0);
        let is_high = |position: &Option<i16>| position.is_some_and(|position| position > 31);
        let low = positions.iter().any(is_low);
        let high = positions.iter().any(is_high);
        let data = self.data_positions();
        let data_fault = data
            .iter()
            .any(|position| is_low(position) || is_high(position));
        let line_high = self.line_positions().iter().any(is_high);
        match (wanted, was) {
            (11, Outcome::Panic) if self.address.pins >= 32 => Some(2),
            (12, Outcome::Panic) if lone_bank && is_low(&self.index_position(self.address.x1)) => {
                Some(3)
            }
            (13, Outcome::Panic) if low || high || data_fault => Some(4),
            (13, Outcome::Refused(12)) if line_high => Some(5),
            (13, Outcome::Refused(14)) if high && missing && !low && !data_fault => Some(6),
            (15, Outcome::Success | Outcome::Panic) if short && !missing => Some(7),
            _ => None,
        }
    }

    fn index_position(&self, gpio: Option<u8>) -> Option<i16> {
        gpio.map(|gpio| i16::from(gpio) - i16::from(self.address.base))
    }

    fn line_positions(&self) -> Vec<Option<i16>> {
        let lines = self.address.lines.iter();
        lines.map(|&gpio| self.index_position(Some(gpio))).collect()
    }

    /// Positions of what picks the chip, absent ones included.
    fn pick_positions(&self) -> Vec<Option<i16>> {
        let first = self.select.select.first().map(|line| line.1);
        let mut gpios = Vec::new();
        if self.slot.set_type == MULTI {
            gpios.push(first);
        }
        if self.slot.set_type != SINGLE {
            gpios.push(self.address.x1);
        }
        if self.slot.set_type != SINGLE && self.slot.chips.len() >= 3 {
            gpios.push(self.address.x2);
        }
        gpios
            .into_iter()
            .map(|gpio| self.index_position(gpio))
            .collect()
    }

    fn data_positions(&self) -> Vec<Option<i16>> {
        let base = i16::from(self.select.base) + i16::from(self.select.base_data_pin);
        let data = self.select.data.iter();
        data.map(|&gpio| Some(i16::from(gpio) - base)).collect()
    }
}
