//! The byte order of dumps.

use std::fmt;

use crate::interface::values::{ORDER_HIGH_FIRST, ORDER_LOW_FIRST};

/// Which byte of a word comes first in a chip's bytes, where words have two. Words of one byte and a
/// plugin's bytes are the same under both; a table's entries are low byte first under both.
#[derive(Debug, Clone, Copy, PartialEq, Eq, Default)]
pub enum ByteOrder {
    /// The low byte comes first, as most readers save it.
    #[default]
    LowFirst,
    /// The high byte comes first.
    HighFirst,
}

impl ByteOrder {
    /// Both, to try a call in each.
    pub const BOTH: [Self; 2] = [Self::LowFirst, Self::HighFirst];

    /// Its number in a call.
    pub fn number(self) -> u64 {
        u64::from(match self {
            Self::LowFirst => ORDER_LOW_FIRST,
            Self::HighFirst => ORDER_HIGH_FIRST,
        })
    }
}

impl fmt::Display for ByteOrder {
    fn fmt(&self, f: &mut fmt::Formatter<'_>) -> fmt::Result {
        f.write_str(match self {
            Self::LowFirst => "low byte first",
            Self::HighFirst => "high byte first",
        })
    }
}
