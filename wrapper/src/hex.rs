//! Intel HEX: a chip's bytes as the text in which programmers save them.

use crate::call::{hex_fault_line_result, read_hex_into, write_hex_into};
use crate::images::LARGEST_CHIP;
use crate::refusal::{Call, Refusal};

/// Reads a text into a chip, which is all of the slice: a byte that no record names is 0xFF, and of
/// several records that name one the last counts. A refusal leaves the slice as it was;
/// `hex_fault_line` has the line then.
pub fn read_hex(text: &[u8], chip: &mut [u8]) -> Result<(), Refusal> {
    match Refusal::of(Call::ReadHex, read_hex_into(text, chip)) {
        None => Ok(()),
        Some(refusal) => Err(refusal),
    }
}

/// Writes a chip's bytes as a text to the front of a slice, and says how long it is: `hex_length`
/// says so before. `read_hex` has the same bytes from it again.
pub fn write_hex(chip: &[u8], text: &mut [u8]) -> Result<usize, Refusal> {
    Refusal::or_length(Call::WriteHex, write_hex_into(chip, text))
}

/// The same into bytes of its own, as many as the text has.
pub fn hex_text(chip: &[u8]) -> Result<Vec<u8>, Refusal> {
    // A larger chip is refused whatever is lent.
    let is_chip = chip.len() <= LARGEST_CHIP;
    let mut text = vec![0; if is_chip { hex_length(chip.len()) } else { 0 }];
    write_hex(chip, &mut text)?;
    Ok(text)
}

/// How long the text of so many bytes is: 16 of them a record, a record more ahead of each 64 KiB
/// but the first, and the end record.
pub const fn hex_length(bytes: usize) -> usize {
    let blocks = bytes.div_ceil(1 << 16);
    12 * bytes.div_ceil(16) + 2 * bytes + 16 * blocks.saturating_sub(1) + 12
}

/// The first line at fault, from 1, where `read_hex` answers 26, 27 or 28 to this text and a chip of
/// this size; none where it does not.
pub fn hex_fault_line(text: &[u8], chip_size: usize) -> Option<u64> {
    let line = hex_fault_line_result(text, chip_size as u64);
    (line > 0).then_some(line)
}
