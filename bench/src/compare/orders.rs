//! The byte orders in which a call is made, and who judges it in each.

use onerom::ByteOrder;
use oracle::case::MultiSelect;
use oracle::description::{Description, Multi};
use oracle::engine::{Engine, Job, Lent, Recovered, Told};
use oracle::layout::{AddressLayout, SelectLayout};
use oracle::model::Model;
use oracle::random::Random;
use oracle::slot::{FIRST_PLUGIN, LAST_PLUGIN, Slot};

use super::calls::Call;
use crate::pairs::swapped;

/// How a call is made that takes a byte order. One that takes none goes by the first alone.
#[derive(Clone, Copy, PartialEq, Eq)]
pub enum Way {
    /// Low byte first, as the original has it: both judge.
    Low,
    /// High byte first: the model judges, which takes the order too.
    High,
    /// High byte first on chips with the bytes of each word swapped. Low byte first these are the
    /// chips of the case, so that both judge: the table is theirs, and what is read back is theirs
    /// with the bytes of each word swapped.
    Swapped,
}

impl Way {
    /// Those of a case as it is.
    pub const OF_CASES: [Self; 3] = [Self::Low, Self::High, Self::Swapped];
    /// Those with wrong records, which can have chips share bytes.
    pub const OF_WRONG_RECORDS: [Self; 2] = [Self::Low, Self::High];

    /// What is said of it behind the call's name.
    pub fn name(self) -> &'static str {
        match self {
            Self::Low => "",
            Self::High => ", high byte first",
            Self::Swapped => ", high byte first and swapped",
        }
    }

    /// Has a call be made in this way.
    pub fn set<const READ: usize, const LENT: usize, C: Call<READ, LENT>>(self, call: &mut C) {
        if self != Self::Low {
            call.set_order(ByteOrder::HighFirst.number());
        }
        if self == Self::Swapped {
            call.swap_pairs();
        }
    }

    /// Who judges: the model, and the original where there is one.
    pub fn judges(self, original: Option<&'static dyn Engine>) -> (Judge, Option<Judge>) {
        let judge = |engine| Judge {
            engine,
            swaps: self == Self::Swapped,
        };
        match self {
            Self::High => (judge(&Model::HIGH_FIRST), None),
            Self::Low | Self::Swapped => (judge(&Model::LOW_FIRST), original.map(judge)),
        }
    }
}

/// A number that is no byte order: the next one, or one of 64 bits that can be 0 or 1 in its low ones.
pub fn other(random: &mut Random) -> u64 {
    let high = 1 << random.between(1, 63);
    let any = random.below(usize::MAX) as u64;
    let low = random.pick(&[0, 1]);
    random.pick(&[2, high, high | low, any << 8 | high | low, any | 2])
}

/// Who answers a case; in what is read back the bytes of each word can be swapped.
#[derive(Clone, Copy)]
pub struct Judge {
    engine: &'static dyn Engine,
    swaps: bool,
}

impl Engine for Judge {
    fn window_fits(&self, base: u8, span: u8) -> Told<bool> {
        self.engine.window_fits(base, span)
    }

    fn socket_offset(&self, chip_pins: u8, board_pins: u8) -> Told<i16> {
        self.engine.socket_offset(chip_pins, board_pins)
    }

    fn preference(&self, qualifiers: bool, ignore: bool) -> Told<u8> {
        self.engine.preference(qualifiers, ignore)
    }

    fn multi_select(&self, case: &MultiSelect) -> Told<Multi> {
        self.engine.multi_select(case)
    }

    fn address_search(&self, slot: &Description) -> Told<AddressLayout> {
        self.engine.address_search(slot)
    }

    fn select_search(
        &self,
        slot: &Description,
        address: Option<&AddressLayout>,
    ) -> Told<SelectLayout> {
        self.engine.select_search(slot, address)
    }

    fn build(&self, slot: &Description, job: &Job) -> Told<Vec<u8>> {
        self.engine.build(slot, job)
    }

    fn read_back(&self, slot: &Slot, data: &[u8], lent: Lent) -> Told<Recovered> {
        let found = self.engine.read_back(slot, data, lent)?;
        let is_plugin = (FIRST_PLUGIN..=LAST_PLUGIN).contains(&slot.kind);
        if !self.swaps || is_plugin || slot.bit_mode == 0 {
            return Ok(found);
        }
        let roms = found.roms.into_iter().map(swapped).collect();
        Ok(Recovered { roms, ..found })
    }
}
