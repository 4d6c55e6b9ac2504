//! The original Rust as the judge, as a library: cases, and who answers them. See README.md.

extern crate alloc;

pub mod answer;
#[cfg(all(test, original))]
mod bench_cases;
pub mod case;
pub mod description;
pub mod differences;
pub mod engine;
pub mod fields;
pub mod generate;
pub mod layout;
pub mod model;
pub mod random;
pub mod run;
pub mod slot;
pub mod tally;

#[cfg(original)]
pub mod compare;
#[cfg(original)]
pub mod list;
#[cfg(original)]
pub mod original;
#[cfg(original)]
pub mod smallest;
#[cfg(original)]
pub mod stand_in;

// The original's files look for these at their crate's root.
#[cfg(original)]
use image::PAD_NO_CHIP_BYTE;
#[cfg(original)]
use stand_in::{Error, MAX_IMAGE_SIZE, Result};

#[cfg(original)]
include!(concat!(env!("OUT_DIR"), "/original.rs"));

use description::Description;
use engine::{Engine, Job, Told};
use layout::{AddressLayout, SelectLayout};
use slot::Slot;

/// What is said where the original cannot answer.
pub const SKIPPED: &str = "original sources not found: skipped";

/// A search, build or read-back of the original on one slot, to be run any number of times.
pub type AddressSearch = Box<dyn Fn() -> Told<AddressLayout>>;
pub type SelectSearch = Box<dyn Fn() -> Told<SelectLayout>>;
pub type Build = Box<dyn Fn() -> Told<Vec<u8>>>;
pub type ReadBack = Box<dyn Fn() -> Told<Vec<Vec<u8>>>>;

/// The original, if its files were there at the build.
#[cfg(original)]
pub fn original() -> Option<&'static dyn Engine> {
    Some(&original::Original)
}

#[cfg(not(original))]
pub fn original() -> Option<&'static dyn Engine> {
    None
}

/// Whether the original's arithmetic faults on overflow in this build. Where it does not, a wrapped
/// number passes for an answer, and the original is no judge. Ask after `quiet_panics`.
#[cfg(original)]
pub fn checks_overflow() -> bool {
    original::checks_overflow()
}

#[cfg(not(original))]
pub fn checks_overflow() -> bool {
    false
}

/// The original's address search with its records made beforehand, so that a clock sees the
/// search alone.
#[cfg(original)]
pub fn prepared_address_search(slot: &Description) -> Option<AddressSearch> {
    Some(original::prepared_address_search(slot))
}

#[cfg(not(original))]
pub fn prepared_address_search(_slot: &Description) -> Option<AddressSearch> {
    None
}

/// The original's select search in the same way.
#[cfg(original)]
pub fn prepared_select_search(
    slot: &Description,
    address: Option<&AddressLayout>,
) -> Option<SelectSearch> {
    Some(original::prepared_select_search(slot, address))
}

#[cfg(not(original))]
pub fn prepared_select_search(
    _slot: &Description,
    _address: Option<&AddressLayout>,
) -> Option<SelectSearch> {
    None
}

/// The original's build in the same way, the chips' bytes made too.
#[cfg(original)]
pub fn prepared_build(slot: &Description, job: &Job) -> Option<Build> {
    Some(original::prepared_build(slot, job))
}

#[cfg(not(original))]
pub fn prepared_build(_slot: &Description, _job: &Job) -> Option<Build> {
    None
}

/// The original's read-back of these bytes in the same way.
#[cfg(original)]
pub fn prepared_read_back(slot: &Slot, data: &[u8]) -> Option<ReadBack> {
    Some(original::prepared_read_back(slot, data))
}

#[cfg(not(original))]
pub fn prepared_read_back(_slot: &Slot, _data: &[u8]) -> Option<ReadBack> {
    None
}

/// Keeps the original's panics from printing: they are answers.
pub fn quiet_panics() {
    #[cfg(original)]
    original::quiet_panics();
}
