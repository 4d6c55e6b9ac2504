//! What the original finds at its crate's root, reduced to what its searches, build and read-back
//! lean on.

use std::cell::Cell;
use std::cmp::Ordering;
use std::ops::Div;

use onerom_config::chip::ChipType;
use onerom_config::hw::Board;

thread_local! {
    static LARGEST_TABLE: Cell<usize> = const { Cell::new(1 << 19) };
}

/// Sets the largest table in bytes for the cases that follow.
pub fn set_largest_table(bytes: usize) {
    LARGEST_TABLE.set(bytes);
}

/// The original's constant, as a number that each case can set.
#[derive(Debug, Clone, Copy)]
pub struct LargestTable;

impl LargestTable {
    fn bytes(self) -> usize {
        LARGEST_TABLE.get()
    }

    pub fn is_multiple_of(self, unit: usize) -> bool {
        self.bytes().is_multiple_of(unit)
    }
}

impl Div<usize> for LargestTable {
    type Output = usize;

    fn div(self, divisor: usize) -> usize {
        self.bytes() / divisor
    }
}

impl PartialEq<LargestTable> for usize {
    fn eq(&self, other: &LargestTable) -> bool {
        *self == other.bytes()
    }
}

impl PartialOrd<LargestTable> for usize {
    fn partial_cmp(&self, other: &LargestTable) -> Option<Ordering> {
        self.partial_cmp(&other.bytes())
    }
}

pub const MAX_IMAGE_SIZE: LargestTable = LargestTable;

#[derive(Debug)]
#[allow(
    dead_code,
    reason = "the original fills in fields that no answer shows"
)]
pub enum Error {
    UnsupportedBoardConfig { board: Board, reason: String },
    UnsupportedBoardChipType { board: Board, chip_type: ChipType },
    InvalidConfig { error: String },
    RomTableTooLarge { size: usize, max: LargestTable },
    MissingImageData { chip_type: ChipType, index: usize },
}

pub type Result<T> = core::result::Result<T, Error>;

/// A chip type as a user spelt it; here only the type itself.
#[derive(Debug, Clone)]
pub struct ChipTypeSpec(pub ChipType);

impl ChipTypeSpec {
    pub fn resolved_ref(&self) -> &ChipType {
        &self.0
    }
}

/// A place inside a larger image; no case has one.
#[derive(Debug, Clone)]
pub struct Location;
