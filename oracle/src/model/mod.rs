//! Document 01 once more, written from its text alone, as plainly as it can be run: what the
//! original is held against, and the answer where the original has none. hex.rs, page.rs, the package
//! in domain.rs and the byte order in dump.rs are slips of document 02, of which the original has
//! nothing.

pub mod address;
pub mod build;
pub mod choice;
pub mod domain;
pub mod dump;
pub mod hex;
pub mod multi;
pub mod page;
pub mod read_back;
pub mod select;

use crate::case::MultiSelect;
use crate::description::{Description, Multi};
use crate::engine::{Engine, Job, Lent, Recovered, Told, refused};
use crate::layout::{AddressLayout, SelectLayout};
use crate::slot::Slot;
use dump::Order;

/// Answers with the chips' bytes in a byte order.
pub struct Model(Order);

impl Model {
    /// As document 01 and the original have it.
    pub const LOW_FIRST: Self = Self(Order::LowFirst);
    pub const HIGH_FIRST: Self = Self(Order::HighFirst);
}

/// Base and span fit if the end is at most 32, or the base is 16 or more and the end at most 48.
pub fn window_fits(base: u32, span: u32) -> bool {
    base + span <= 32 || (base >= 16 && base + span <= 48)
}

/// Chip pins, board pins, offset.
const PAIRS: [(u8, u8, i16); 10] = [
    (24, 24, 0),
    (28, 28, 0),
    (32, 32, 0),
    (40, 40, 0),
    (24, 28, 2),
    (28, 32, 2),
    (24, 32, 4),
    (28, 24, -2),
    (32, 28, -2),
    (32, 24, -4),
];

pub fn preference(qualifiers: bool, ignore: bool) -> u8 {
    if qualifiers { 2 } else { u8::from(ignore) }
}

impl Engine for Model {
    fn window_fits(&self, base: u8, span: u8) -> Told<bool> {
        Ok(window_fits(u32::from(base), u32::from(span)))
    }

    fn socket_offset(&self, chip_pins: u8, board_pins: u8) -> Told<i16> {
        for (chip, board, offset) in PAIRS {
            if (chip, board) == (chip_pins, board_pins) {
                return Ok(offset);
            }
        }
        refused(10, 0)
    }

    fn preference(&self, qualifiers: bool, ignore: bool) -> Told<u8> {
        Ok(preference(qualifiers, ignore))
    }

    fn multi_select(&self, case: &MultiSelect) -> Told<Multi> {
        multi::select(case)
    }

    fn address_search(&self, slot: &Description) -> Told<AddressLayout> {
        address::search(slot)
    }

    fn select_search(
        &self,
        slot: &Description,
        address: Option<&AddressLayout>,
    ) -> Told<SelectLayout> {
        select::search(slot, address)
    }

    fn build(&self, slot: &Description, job: &Job) -> Told<Vec<u8>> {
        build::table(slot, job, self.0)
    }

    fn read_back(&self, slot: &Slot, data: &[u8], lent: Lent) -> Told<Recovered> {
        read_back::recover(slot, data, lent, self.0)
    }
}
