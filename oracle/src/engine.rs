//! The calls that a case can make, as both the original and the model answer them.

use crate::case::MultiSelect;
use crate::description::{Description, Multi};
use crate::layout::{AddressLayout, SelectLayout};
use crate::slot::{ChipBytes, Slot};

#[derive(Debug, Clone, Copy, PartialEq, Eq)]
#[cfg_attr(not(original), allow(dead_code))]
pub enum Failure {
    Refused { number: u64, place: u64 },
    Panic,
}

pub type Told<T> = Result<T, Failure>;

pub fn refused<T>(number: u64, place: u64) -> Told<T> {
    Err(Failure::Refused { number, place })
}

/// What a read-back found: each ROM's bytes, and how many marks are set.
pub struct Recovered {
    pub roms: Vec<Vec<u8>>,
    pub marks: u64,
}

/// A build's arguments beside the description.
pub struct Job<'a> {
    pub address: &'a AddressLayout,
    pub select: &'a SelectLayout,
    pub images: &'a [ChipBytes; 4],
    pub table_length: usize,
}

/// The lengths of the buffers lent to a read-back.
#[derive(Clone, Copy)]
pub struct Lent {
    pub output: usize,
    pub marks: usize,
}

pub trait Engine {
    fn window_fits(&self, base: u8, span: u8) -> Told<bool>;
    fn socket_offset(&self, chip_pins: u8, board_pins: u8) -> Told<i16>;
    fn preference(&self, qualifiers: bool, ignore: bool) -> Told<u8>;
    fn multi_select(&self, case: &MultiSelect) -> Told<Multi>;
    fn address_search(&self, slot: &Description) -> Told<AddressLayout>;
    fn select_search(
        &self,
        slot: &Description,
        address: Option<&AddressLayout>,
    ) -> Told<SelectLayout>;
    fn build(&self, slot: &Description, job: &Job) -> Told<Vec<u8>>;
    fn read_back(&self, slot: &Slot, data: &[u8], lent: Lent) -> Told<Recovered>;
}
