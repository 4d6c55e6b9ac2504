//! The bench program: lays out boards, builds their tables and reads them back, compares and
//! measures.

mod byte_order;
mod commands;
mod compare;
mod ending;
mod hex_files;
mod hints;
mod inputs;
mod outputs;
mod pairings;
mod pairs;
mod plain;
mod progress;
mod reach;
mod replay;
mod speed;
mod wiring;

use std::ffi::OsString;
use std::process::ExitCode;

use onerom::{
    AddrLayout, CsDataLayout, Description, Refusal, derive_addr_layout, derive_cs_data_layout,
};

/// The sample's description, a 2764 on a 28-pin board.
const SAMPLE: &str = include_str!("../sample/2764.txt");

/// The same chip on a board with the smaller RP2350.
const SAMPLE_A: &str = include_str!("../sample/2764a.txt");

fn main() -> ExitCode {
    let words: Vec<OsString> = std::env::args_os().skip(1).collect();
    commands::run(&words)
}

/// Both layouts of a slot.
fn laid_out(slot: &Description) -> Result<(AddrLayout, CsDataLayout), Refusal> {
    let addr = derive_addr_layout(slot)?;
    let cs_data = derive_cs_data_layout(slot, Some(&addr))?;
    Ok((addr, cs_data))
}
