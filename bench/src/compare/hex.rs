//! `onerom-bench compare-hex`: texts of Intel HEX through the library, against the model.

use onerom::fence::Side;
use oracle::generate::{HexCase, hex_case};
use oracle::model::hex;

use super::hex_fenced::Hex;
use super::tried::Tried;
use crate::ending::{Done, say};

/// Reads each text of a seed, sound or damaged, and writes each chip that comes of one. Fails on any
/// difference.
pub fn compare_hex(seed: u64, count: u64) -> Done {
    let mut calls = Hex::default();
    let all = Tried::all("Intel HEX", count, |number| {
        let case = hex_case(seed, number);
        let side = Side::BOTH[(number % 2) as usize];
        let told = tried(&mut calls, &case, side);
        told.map_err(|why| {
            let (text, size) = (case.text.escape_ascii(), case.size);
            format!("{why}: {size} bytes of \"{text}\"")
        })
    });
    say(&all.told("Intel HEX", "read"))?;
    all.judged("texts")
}

/// The number that reading answers. What is read is written again, and that text read back; of large
/// chips only some, since that takes a thousand times as long as the rest.
fn tried(calls: &mut Hex, case: &HexCase, side: Side) -> Result<u64, String> {
    let number = calls.read(&case.text, case.size, side)?;
    let is_written = case.size <= LARGE || case.text.len().is_multiple_of(16);
    if number == 0 && is_written {
        let chip = hex::read(&case.text, case.size).unwrap_or_default();
        let text = calls.write(&chip, case.text.len() % 3, side)?;
        if calls.read(&text, case.size, side)? != 0 {
            return Err("its own text is refused".into());
        }
    }
    Ok(number)
}

const LARGE: usize = 1024;
