//! The select and data layout and its record.

use std::fmt;

use super::given;
use crate::bytes::{count, put};
use crate::interface::cs_data_layout as at;
use crate::interface::values::{self, NO_IGNORE_INDEX};

/// Bytes of the select layout record.
pub const LENGTH: usize = at::RECORD_SIZE;

/// What a select or commoned line is.
#[derive(Debug, Clone, Copy, PartialEq, Eq)]
pub enum Role {
    /// Chip enable.
    Ce,
    /// Output enable.
    Oe,
    /// Chip select 1.
    Cs1,
    /// Chip select 2.
    Cs2,
    /// Chip select 3.
    Cs3,
    /// Chip select 4.
    Cs4,
    /// X1, which selects the second chip of a Multi set.
    X1,
    /// X2, which selects the third chip of a Multi set.
    X2,
    /// An excess address line.
    HalfSelect,
    /// A number that no role has; the library writes none.
    Unknown(u8),
}

/// Each role with its number in the record and its name.
const ROLES: [(Role, u8, &str); 9] = [
    (Role::Ce, values::ROLE_CE, "ce"),
    (Role::Oe, values::ROLE_OE, "oe"),
    (Role::Cs1, values::ROLE_CS1, "cs1"),
    (Role::Cs2, values::ROLE_CS2, "cs2"),
    (Role::Cs3, values::ROLE_CS3, "cs3"),
    (Role::Cs4, values::ROLE_CS4, "cs4"),
    (Role::X1, values::ROLE_X1, "X1"),
    (Role::X2, values::ROLE_X2, "X2"),
    (Role::HalfSelect, values::ROLE_HALF_SELECT, "half select"),
];

impl Role {
    /// The role that has this number in the record.
    pub fn of(number: u8) -> Self {
        let row = ROLES.iter().find(|row| row.1 == number);
        row.map_or(Self::Unknown(number), |row| row.0)
    }

    /// Its number in the record.
    pub fn number(self) -> u8 {
        match self {
            Self::Unknown(number) => number,
            known => known.row().map_or(u8::MAX, |row| row.1),
        }
    }

    fn row(self) -> Option<&'static (Self, u8, &'static str)> {
        ROLES.iter().find(|row| row.0 == self)
    }
}

impl fmt::Display for Role {
    fn fmt(&self, f: &mut fmt::Formatter<'_>) -> fmt::Result {
        match self.row() {
            Some((_, _, name)) => f.write_str(name),
            None => write!(f, "role {}", self.number()),
        }
    }
}

/// A select or commoned line.
#[derive(Debug, Clone, Copy, PartialEq, Eq)]
pub struct Line {
    /// Which line it is.
    pub role: Role,
    /// The GPIO that serves it.
    pub gpio: u8,
}

/// The address lines that qualify the select.
#[derive(Debug, Clone, Copy, PartialEq, Eq)]
pub struct Qualifiers {
    /// The lowest of their GPIOs less the base.
    pub base_pin: u8,
    /// GPIOs from the lowest to the highest.
    pub pins: u8,
    /// A bit for each of their GPIOs, bit 0 the lowest.
    pub pattern: u8,
}

/// Which GPIOs select the chip and carry its data, and which line each serves. Base pins are
/// counted from the base.
#[derive(Debug, Clone, PartialEq, Eq)]
pub struct CsDataLayout {
    /// The first GPIO of the PIO window, 0 or 16.
    pub base: u8,
    /// The lowest data GPIO less the base.
    pub base_data_pin: u8,
    /// GPIOs of the data lines, lowest line first.
    pub data: Vec<u8>,
    /// The lowest GPIO of select and commoned lines less the base.
    pub base_cs_pin: u8,
    /// GPIOs from the lowest of these to the highest.
    pub cs_pins: u8,
    /// Which of them is no select line, from 0.
    pub ignore_index: Option<u8>,
    /// The address lines that qualify the select, if the description names some.
    pub qualifiers: Option<Qualifiers>,
    /// The lines that select, excess address lines last.
    pub select: Vec<Line>,
    /// Lines that all chips of a Multi set share.
    pub commoned: Vec<Line>,
}

impl CsDataLayout {
    /// The layout that a record has. Counts past the record's places are cut.
    pub fn read(record: &[u8; LENGTH]) -> Self {
        let data = record[at::DATA].iter().copied();
        Self {
            base: record[at::BASE],
            base_data_pin: record[at::BASE_DATA_PIN],
            data: data.take(usize::from(record[at::DATA_COUNT])).collect(),
            base_cs_pin: record[at::BASE_CS_PIN],
            cs_pins: record[at::CS_PINS],
            ignore_index: given(record[at::IGNORE_INDEX], NO_IGNORE_INDEX),
            qualifiers: (record[at::QUALIFIED] != 0).then_some(Qualifiers {
                base_pin: record[at::BASE_QUALIFIER_PIN],
                pins: record[at::QUALIFIER_PINS],
                pattern: record[at::QUALIFIER_PATTERN],
            }),
            select: lines(&record[at::SELECT], record[at::SELECT_COUNT]),
            commoned: lines(&record[at::COMMONED], record[at::COMMONED_COUNT]),
        }
    }

    /// The record, to be handed on to the build. Lists that are too long for its places keep their
    /// counts, cut at 255, so that the library refuses them.
    pub fn to_bytes(&self) -> [u8; LENGTH] {
        let mut record = [0; LENGTH];
        record[at::BASE] = self.base;
        record[at::BASE_DATA_PIN] = self.base_data_pin;
        record[at::DATA_COUNT] = count(&self.data);
        record[at::BASE_CS_PIN] = self.base_cs_pin;
        record[at::CS_PINS] = self.cs_pins;
        record[at::IGNORE_INDEX] = self.ignore_index.unwrap_or(NO_IGNORE_INDEX);
        record[at::SELECT_COUNT] = count(&self.select);
        record[at::COMMONED_COUNT] = count(&self.commoned);
        if let Some(given) = self.qualifiers {
            record[at::QUALIFIED] = 1;
            record[at::BASE_QUALIFIER_PIN] = given.base_pin;
            record[at::QUALIFIER_PINS] = given.pins;
            record[at::QUALIFIER_PATTERN] = given.pattern;
        }
        put(&mut record[at::DATA], self.data.iter().copied());
        put(&mut record[at::SELECT], pairs(&self.select));
        put(&mut record[at::COMMONED], pairs(&self.commoned));
        record
    }

    /// A GPIO's number from the base on.
    pub fn base_pin(&self, gpio: u8) -> Option<u8> {
        gpio.checked_sub(self.base)
    }

    /// The GPIO among the select pins that is no select line.
    pub fn ignored_gpio(&self) -> Option<u8> {
        self.gpio(self.base_cs_pin, self.ignore_index?)
    }

    /// GPIOs of the qualifiers, lowest first.
    pub fn qualifier_gpios(&self) -> Vec<u8> {
        let Some(qualifiers) = self.qualifiers else {
            return Vec::new();
        };
        let bits = (0..8).filter(|bit| qualifiers.pattern >> bit & 1 == 1);
        bits.filter_map(|bit| self.gpio(qualifiers.base_pin, bit))
            .collect()
    }

    fn gpio(&self, base_pin: u8, index: u8) -> Option<u8> {
        self.base.checked_add(base_pin)?.checked_add(index)
    }
}

/// Role and GPIO, two bytes a line.
fn lines(bytes: &[u8], count: u8) -> Vec<Line> {
    let pairs = bytes.chunks_exact(2).take(usize::from(count));
    let line = |pair: &[u8]| Line {
        role: Role::of(pair[0]),
        gpio: pair[1],
    };
    pairs.map(line).collect()
}

fn pairs(lines: &[Line]) -> impl Iterator<Item = u8> + '_ {
    lines
        .iter()
        .flat_map(|line| [line.role.number(), line.gpio])
}
