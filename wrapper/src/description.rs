//! The description of a slot, and its record.

use std::fmt;

use crate::bytes::{count, gpio, put};
use crate::interface::values::{self, GPIO_NONE, NOT_GIVEN};
use crate::interface::{chip as chip_at, description as at};

/// Bytes of the description record.
pub const LENGTH: usize = at::RECORD_SIZE;

/// How many pins the record has places for; a smaller socket uses the first of them.
pub const SOCKET_PINS: usize = (at::SOCKET.end - at::SOCKET.start) / 2;

/// How many chips the record has places for.
pub const MOST_CHIPS: usize = (at::CHIPS.end - at::CHIPS.start) / chip_at::RECORD_SIZE;

/// The package of the board's RP2350.
#[derive(Debug, Clone, Copy, PartialEq, Eq, Default)]
#[repr(u8)]
pub enum Package {
    /// The RP2350B, with GPIOs 0 to 47.
    #[default]
    B = values::PACKAGE_B,
    /// The RP2350A, with GPIOs 0 to 29.
    A = values::PACKAGE_A,
}

impl Package {
    /// Its last GPIO, above which no pin has a candidate.
    pub fn last_gpio(self) -> u8 {
        match self {
            Self::A => 29,
            Self::B => 47,
        }
    }
}

impl fmt::Display for Package {
    /// The name of the chip, as its data sheet has it.
    fn fmt(&self, f: &mut fmt::Formatter<'_>) -> fmt::Result {
        write!(f, "RP2350{self:?}")
    }
}

/// The GPIOs that can serve a pin: those that the board connects to it, 0 to 47, or 0 to 29 on
/// [`Package::A`].
#[derive(Debug, Clone, Copy, PartialEq, Eq, Default)]
pub enum Candidates {
    /// No GPIO. A line on this pin is refused.
    #[default]
    Absent,
    /// One GPIO.
    One(u8),
    /// Two GPIOs that differ. The searches take the one that makes the better layout.
    Two(u8, u8),
}

impl Candidates {
    /// The GPIOs one by one, the first candidate first.
    pub fn gpios(self) -> impl Iterator<Item = u8> {
        let (one, two) = match self {
            Self::Absent => (None, None),
            Self::One(one) => (Some(one), None),
            Self::Two(one, two) => (Some(one), Some(two)),
        };
        one.into_iter().chain(two)
    }
}

/// How many chips share the socket, and what picks one of them.
#[derive(Debug, Clone, Copy, PartialEq, Eq, Default)]
#[repr(u8)]
pub enum SetType {
    /// One chip.
    #[default]
    Single = values::SET_SINGLE,
    /// Two to four chips; X1 and X2 are the bits of the bank.
    Banked = values::SET_BANKED,
    /// Two or three chips, selected by the line that [`Multi`] names, X1 and X2.
    Multi = values::SET_MULTI,
}

/// A control line's kind. A chip has each but `Other` at most once.
#[derive(Debug, Clone, Copy, PartialEq, Eq)]
#[repr(u8)]
pub enum Kind {
    /// Chip enable.
    Ce = values::KIND_CE,
    /// Output enable.
    Oe = values::KIND_OE,
    /// Chip select 1.
    Cs1 = values::KIND_CS1,
    /// Chip select 2.
    Cs2 = values::KIND_CS2,
    /// Chip select 3.
    Cs3 = values::KIND_CS3,
    /// Chip select 4.
    Cs4 = values::KIND_CS4,
    /// Any other line, which never selects the chip.
    Other = values::KIND_OTHER,
}

/// What a control line is set to.
#[derive(Debug, Clone, Copy, PartialEq, Eq)]
#[repr(u8)]
pub enum Setting {
    /// The line selects when it is low.
    ActiveLow = values::ACTIVE_LOW,
    /// The line selects when it is high.
    ActiveHigh = values::ACTIVE_HIGH,
    /// The line is no select.
    Ignored = values::IGNORED,
}

/// How the chip's select lines are set.
#[derive(Debug, Clone, Copy, PartialEq, Eq, Default)]
pub enum Settings {
    /// A chip with lines cs1 to cs4.
    ChipSelects {
        /// The setting of cs1.
        cs1: Setting,
        /// Those of cs2, cs3, cs4; one that is not given counts as active low.
        others: [Option<Setting>; 3],
    },
    /// A chip with ce and oe, both active low.
    #[default]
    CeOe,
    /// A chip with ce and oe that are set one by one.
    Explicit {
        /// The setting of ce.
        ce: Setting,
        /// The setting of oe.
        oe: Setting,
    },
}

/// The lines of a Multi set. None of them is `Kind::Other`, and a list has six at most.
#[derive(Debug, Clone, PartialEq, Eq)]
pub struct Multi {
    /// The line that selects chip 0; X1 and X2 select the others.
    pub select: Kind,
    /// Lines that all chips share.
    pub commoned: Vec<Kind>,
    /// Lines that are not looked at.
    pub ignored: Vec<Kind>,
}

/// A chip's size and pins.
#[derive(Debug, Clone, PartialEq, Eq, Default)]
pub struct Chip {
    /// In bytes, up to 2^24.
    pub size: u32,
    /// Chip pins, lowest line first, 24 at most. In 16-bit mode the first is not used.
    pub address_pins: Vec<u8>,
    /// Chip pins, lowest line first, 16 at most.
    pub data_pins: Vec<u8>,
    /// Kind and chip pin of each control line, 8 at most.
    pub control: Vec<(Kind, u8)>,
}

/// A board's socket, the chips of one slot on it, and which GPIOs can serve each pin.
#[derive(Debug, Clone, PartialEq, Eq)]
pub struct Description {
    /// Pins of the board's socket: 24, 28, 32 or 40.
    pub board_pins: u8,
    /// The package of its RP2350. On A no candidate is above GPIO 29, at any pin, used or not.
    pub package: Package,
    /// How many chips there are, and what picks one.
    pub set_type: SetType,
    /// Bytes in a word: 1, or 2 in 16-bit mode.
    pub word_bytes: u8,
    /// Socket pin less chip pin, -4 to 4.
    pub pin_offset: i8,
    /// The largest table in bytes, 256 to 2^20.
    pub largest_table: u32,
    /// How chip 0's select lines are set.
    pub settings: Settings,
    /// The lines of a Multi set, which needs them.
    pub multi: Option<Multi>,
    /// Indices of address lines in use that qualify the select, 8 at most; none for no list.
    pub qualifiers: Vec<u8>,
    /// Socket pin n at place n - 1.
    pub socket: [Candidates; SOCKET_PINS],
    /// X1 and X2.
    pub x: [Candidates; 2],
    /// One to four. The searches go by the pins and lines of the first.
    pub chips: Vec<Chip>,
}

impl Description {
    /// The record. A list that is too long for its places keeps its count, cut at 255, so that
    /// the library refuses it; nothing is lost in silence.
    pub fn to_bytes(&self) -> [u8; LENGTH] {
        let mut record = [0; LENGTH];
        record[at::BOARD_PINS] = self.board_pins;
        record[at::PACKAGE] = self.package as u8;
        record[at::SET_TYPE] = self.set_type as u8;
        record[at::WORD_BYTES] = self.word_bytes;
        record[at::PIN_OFFSET] = self.pin_offset as u8;
        record[at::CHIP_COUNT] = count(&self.chips);
        record[at::QUALIFIER_COUNT] = count(&self.qualifiers);
        put(
            &mut record[at::LARGEST_TABLE],
            self.largest_table.to_le_bytes(),
        );
        put_settings(&mut record, &self.settings);
        if let Some(multi) = &self.multi {
            put_multi(&mut record, multi);
        }
        put(&mut record[at::QUALIFIERS], self.qualifiers.iter().copied());
        put(
            &mut record[at::SOCKET],
            self.socket.into_iter().flat_map(pair),
        );
        let [x1, x2] = self.x;
        put(&mut record[at::X1], pair(x1));
        put(&mut record[at::X2], pair(x2));
        put(&mut record[at::CHIPS], self.chips.iter().flat_map(chip));
        record
    }
}

pub(crate) fn pair(candidates: Candidates) -> [u8; 2] {
    match candidates {
        Candidates::Absent => [GPIO_NONE, GPIO_NONE],
        Candidates::One(one) => [gpio(one), GPIO_NONE],
        Candidates::Two(one, two) => [gpio(one), gpio(two)],
    }
}

fn put_settings(record: &mut [u8; LENGTH], settings: &Settings) {
    let given = |setting: Option<Setting>| setting.map_or(NOT_GIVEN, |setting| setting as u8);
    let (form, ce, oe, cs1, others) = match *settings {
        Settings::ChipSelects { cs1, others } => {
            (values::FORM_CHIP_SELECTS, None, None, Some(cs1), others)
        }
        Settings::CeOe => (values::FORM_CE_OE, None, None, None, [None; 3]),
        Settings::Explicit { ce, oe } => {
            (values::FORM_EXPLICIT, Some(ce), Some(oe), None, [None; 3])
        }
    };
    record[at::FORM] = form;
    record[at::CE_SETTING] = given(ce);
    record[at::OE_SETTING] = given(oe);
    record[at::CS1_SETTING] = given(cs1);
    put(&mut record[at::CS_SETTINGS], others.map(given));
}

fn put_multi(record: &mut [u8; LENGTH], multi: &Multi) {
    record[at::MULTI_GIVEN] = 1;
    record[at::MULTI_SELECT] = multi.select as u8;
    record[at::MULTI_COMMONED_COUNT] = count(&multi.commoned);
    record[at::MULTI_IGNORED_COUNT] = count(&multi.ignored);
    put(&mut record[at::MULTI_COMMONED], kinds(&multi.commoned));
    put(&mut record[at::MULTI_IGNORED], kinds(&multi.ignored));
}

fn kinds(kinds: &[Kind]) -> impl Iterator<Item = u8> + '_ {
    kinds.iter().map(|&kind| kind as u8)
}

fn chip(chip: &Chip) -> [u8; chip_at::RECORD_SIZE] {
    let mut bytes = [0; chip_at::RECORD_SIZE];
    put(&mut bytes[chip_at::BYTES], chip.size.to_le_bytes());
    bytes[chip_at::ADDRESS_COUNT] = count(&chip.address_pins);
    bytes[chip_at::DATA_COUNT] = count(&chip.data_pins);
    bytes[chip_at::CONTROL_COUNT] = count(&chip.control);
    put(
        &mut bytes[chip_at::ADDRESS],
        chip.address_pins.iter().copied(),
    );
    put(&mut bytes[chip_at::DATA], chip.data_pins.iter().copied());
    let lines = chip.control.iter();
    put(
        &mut bytes[chip_at::CONTROL],
        lines.flat_map(|&(kind, pin)| [kind as u8, pin, 0]),
    );
    bytes
}
