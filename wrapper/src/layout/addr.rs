//! The address layout and its record.

use super::given;
use crate::bytes::{count, gpio, put};
use crate::interface::addr_layout as at;
use crate::interface::values::GPIO_NONE;

/// Bytes of the address layout record.
pub const LENGTH: usize = at::RECORD_SIZE;

/// How many lines the record has places for, excess lines among them.
pub const MOST_LINES: usize = at::LINES.end - at::LINES.start;

/// Which GPIOs the address PIO reads, and which line each serves.
#[derive(Debug, Clone, PartialEq, Eq)]
pub struct AddrLayout {
    /// The lowest GPIO read: bit 0 of the table's index.
    pub base: u8,
    /// How many GPIOs are read: the bits of the table's index.
    pub pins: u8,
    /// The GPIO of X1, where it picks a bank or a chip.
    pub x1: Option<u8>,
    /// The GPIO of X2, where it picks a bank or a chip.
    pub x2: Option<u8>,
    /// GPIOs of the address lines in use, lowest line first.
    pub lines: Vec<u8>,
    /// GPIOs of the lines past the table's reach, which go on where the lines in use end.
    pub excess: Vec<u8>,
}

impl AddrLayout {
    /// The layout that a record has. Counts past the record's places are cut.
    pub fn read(record: &[u8; LENGTH]) -> Self {
        let used = usize::from(record[at::LINE_COUNT]);
        let excess = usize::from(record[at::EXCESS_COUNT]);
        let gpios = &record[at::LINES];
        Self {
            base: record[at::BASE],
            pins: record[at::PINS],
            x1: given(record[at::X1], GPIO_NONE),
            x2: given(record[at::X2], GPIO_NONE),
            lines: gpios.iter().copied().take(used).collect(),
            excess: gpios.iter().copied().skip(used).take(excess).collect(),
        }
    }

    /// The record, to be handed on to the select search and the build. Lists that are too long for
    /// its places keep their counts, cut at 255, so that the library refuses them.
    pub fn to_bytes(&self) -> [u8; LENGTH] {
        let mut record = [0; LENGTH];
        record[at::BASE] = self.base;
        record[at::PINS] = self.pins;
        record[at::X1] = self.x1.map_or(GPIO_NONE, gpio);
        record[at::X2] = self.x2.map_or(GPIO_NONE, gpio);
        record[at::LINE_COUNT] = count(&self.lines);
        record[at::EXCESS_COUNT] = count(&self.excess);
        let gpios = self.lines.iter().chain(&self.excess).copied();
        put(&mut record[at::LINES], gpios);
        record
    }

    /// The bit of the table's index that a GPIO is, if the address PIO reads it.
    pub fn table_bit(&self, gpio: u8) -> Option<u8> {
        gpio.checked_sub(self.base).filter(|&bit| bit < self.pins)
    }

    /// The table's length in bytes; none past what a number of 64 bits can say.
    pub fn table_bytes(&self, word_bytes: u8) -> Option<u64> {
        table_bytes(self.pins, word_bytes)
    }
}

pub(crate) fn table_bytes(pins: u8, word_bytes: u8) -> Option<u64> {
    let entries = 1u64.checked_shl(u32::from(pins))?;
    entries.checked_mul(u64::from(word_bytes))
}
