//! The calls on Intel HEX with every slice between guard pages, each held against the model.

use onerom::fence::{Lent, Shown, Side};
use onerom::interface::refusals;
use onerom::{hex_fault_line_result, read_hex_into, write_hex_into};
use oracle::model::hex;

/// A result has the refusal's number from this bit on.
const PLACES: u32 = 48;

const SHORT_BUFFER: u64 = (refusals::SHORT_BUFFER as u64) << PLACES;

/// Room for the slices of a call, used again for each.
#[derive(Default)]
pub struct Hex {
    shown: Shown,
    lent: Lent,
}

impl Hex {
    /// Reads a text into a chip of this size: the number that is told, or what is not the model's. A
    /// refusal leaves the chip as it was.
    pub fn read(&mut self, text: &[u8], size: usize, side: Side) -> Result<u64, String> {
        self.shown.put(text, side);
        let result = read_hex_into(self.shown.bytes(), self.lent.lend(size, side));
        let line = hex_fault_line_result(self.shown.bytes(), size as u64);
        let model = hex::read(text, size);
        let wanted = match &model {
            Ok(_) => (0, 0),
            Err(fault) => (fault.number << PLACES, fault.line),
        };
        if (result, line) != wanted {
            return Err(format!(
                "{result:X} in line {line}, and the model has {:X} in line {}",
                wanted.0, wanted.1
            ));
        }
        let chip = model.unwrap_or_default();
        self.stands(&chip, "the chip")?;
        Ok(result >> PLACES)
    }

    /// Writes a chip as a text, with so many bytes lent past it: the text, none where it is refused, or
    /// what is not the model's. With one byte less than the text needs nothing is written.
    pub fn write(&mut self, chip: &[u8], spare: usize, side: Side) -> Result<Vec<u8>, String> {
        self.shown.put(chip, side);
        let (wanted, text) = match hex::write(chip) {
            Ok(text) => (text.len() as u64, text),
            Err(number) => (number << PLACES, vec![]),
        };
        let result = write_hex_into(self.shown.bytes(), self.lent.lend(text.len() + spare, side));
        if result != wanted {
            return Err(format!("{result:X}, and the model has {wanted:X}"));
        }
        self.stands(&text, "the text")?;
        if !text.is_empty() {
            let short = self.lent.lend(text.len() - 1, side);
            let result = write_hex_into(self.shown.bytes(), short);
            if result != SHORT_BUFFER {
                return Err(format!("{result:X} to a buffer that is one byte short"));
            }
            self.stands(&[], "a buffer that is one byte short")?;
        }
        Ok(text)
    }

    /// Whether the lent bytes begin with these, and nothing else was written.
    fn stands(&self, front: &[u8], what: &str) -> Result<(), String> {
        let is_so = self.lent.has_only(front);
        is_so
            .then_some(())
            .ok_or(format!("{what} is not the model's"))
    }
}
