//! A chip type: its pins, lowest line first, its control lines and its size.

use std::fmt;
use std::sync::Mutex;

use crate::kept::{self, Kept};

/// How a control line's polarity came about; the cases fix none.
#[derive(Debug, Clone, Copy, PartialEq, Eq, Hash)]
pub struct LineType;

impl LineType {
    pub fn fixed_active_level(&self) -> Option<bool> {
        None
    }
}

#[derive(Debug, Clone, Copy, PartialEq, Eq, Hash)]
pub struct ControlLine {
    pub name: &'static str,
    pub pin: u8,
    pub line_type: LineType,
}

/// The names of control lines by kind; 6 is any line that the original does not name.
const NAMES: [&str; 7] = ["ce", "oe", "cs1", "cs2", "cs3", "cs4", "other"];

impl ControlLine {
    pub fn new(kind: u8, pin: u8) -> Self {
        Self {
            name: NAMES[usize::from(kind)],
            pin,
            line_type: LineType,
        }
    }
}

static LINES: Kept<ControlLine> = Mutex::new(None);

#[derive(Debug, Clone, Copy, PartialEq, Eq)]
pub struct ChipType {
    address_pins: &'static [u8],
    data_pins: &'static [u8],
    control_lines: &'static [ControlLine],
    qualifiers: &'static [u8],
    size: usize,
}

impl ChipType {
    pub fn new(
        address_pins: &[u8],
        data_pins: &[u8],
        control_lines: &[ControlLine],
        qualifiers: &[u8],
        size: usize,
    ) -> Self {
        Self {
            address_pins: kept::bytes(address_pins),
            data_pins: kept::bytes(data_pins),
            control_lines: kept::keep(&LINES, control_lines),
            qualifiers: kept::bytes(qualifiers),
            size,
        }
    }

    pub fn name(&self) -> &'static str {
        "chip"
    }

    pub fn address_pins(&self) -> &'static [u8] {
        self.address_pins
    }

    pub fn num_addr_lines(&self) -> usize {
        self.address_pins.len()
    }

    pub fn data_pins(&self) -> &'static [u8] {
        self.data_pins
    }

    pub fn control_lines(&self) -> &'static [ControlLine] {
        self.control_lines
    }

    pub fn size_bytes(&self) -> usize {
        self.size
    }

    /// The qualifiers: address lines whose all being high deselects the chip.
    pub fn deselect_when_address_all_high(&self) -> Option<&'static [u8]> {
        (!self.qualifiers.is_empty()).then_some(self.qualifiers)
    }
}

impl fmt::Display for ChipType {
    fn fmt(&self, f: &mut fmt::Formatter<'_>) -> fmt::Result {
        f.write_str(self.name())
    }
}
