//! Chips' files that are texts of Intel HEX.

use std::path::Path;

use onerom::images::LARGEST_CHIP;
use onerom::{Refusal, hex_fault_line, read_hex};
use onerom_bench::hex_lines::{named, why};

use crate::commands::Flags;
use crate::ending::{Fault, counted};

/// The flag by which every chip's file is such a text, whatever its name.
pub const HEX: &str = "--hex";

/// How the names of these texts end, in letters of either case.
const ENDINGS: [&[u8]; 2] = [b".hex", b".ihx"];

/// More than any programmer writes: a record for each byte of the largest chip, with CR LF.
const LONGEST: usize = 1 << 28;

pub fn is_hex(file: &Path, flags: &Flags) -> bool {
    let name = file.as_os_str().as_encoded_bytes().to_ascii_lowercase();
    flags.has(HEX) || ENDINGS.iter().any(|ending| name.ends_with(ending))
}

/// How many bytes of a file are read: one more than a text may have tells that it is longer.
pub const READ_AT_MOST: usize = LONGEST + 1;

/// A chip's bytes from the text of a file, and what is to be said of those that the text leaves open.
pub fn chip_of(file: &Path, text: &[u8], size: usize) -> Result<(Vec<u8>, String), Fault> {
    if text.len() > LONGEST {
        let expected = format!("expected at most {LONGEST} bytes of Intel HEX");
        return Err(Fault::of_file(file, expected));
    }
    // The library refuses a chip that is larger, and one byte is enough for that.
    let mut chip = vec![0; size.min(LARGEST_CHIP + 1)];
    match read_hex(text, &mut chip) {
        Ok(()) => Ok((chip, left_open(file, text, size))),
        Err(refusal) => Err(refused(file, text, size, refusal)),
    }
}

/// The library's verdict with the line, and what a look at that line finds.
fn refused(file: &Path, text: &[u8], size: usize, refusal: Refusal) -> Fault {
    let line = hex_fault_line(text, size);
    let place = line.map_or(String::new(), |line| format!("line {line}: "));
    let found = line.and_then(|line| why(text, size, refusal.number, line));
    let why = found.unwrap_or_else(|| refusal.meaning().into());
    let (number, name) = (refusal.number, refusal.name);
    Fault::RefusedText(format!(
        "{}: {place}{number} {name} ({why})",
        file.display()
    ))
}

/// Bytes that no record names, and those that several do: what a mechanic may not expect.
fn left_open(file: &Path, text: &[u8], size: usize) -> String {
    let (once, again) = named(text, size);
    let name = file.display();
    let mut said = String::new();
    if once < size {
        said += &format!("{name}: records name {once} of {size} bytes; the others are FF\n");
    }
    if again > 0 {
        let bytes = counted(again, "byte");
        said += &format!("{name}: {bytes} named more than once; the last record counts\n");
    }
    said
}
