//! The call that writes the pin page, with every slice between guard pages.

use onerom::fence::{Lent, Shown, Side};
use onerom::write_page_into;

/// A result has the refusal's number from this bit on.
const PLACES: u32 = 48;

/// Room for the slices of a call, used again for each.
#[derive(Default)]
pub struct Pages {
    shown: [Shown; 2],
    lent: Lent,
}

impl Pages {
    /// Writes the page of an address layout record and a select layout record to a buffer of so many bytes:
    /// the refusal's number that is told, 0 for none, or what is not as wanted. A refusal leaves the buffer
    /// as it was.
    pub fn write(
        &mut self,
        records: [&[u8]; 2],
        lent: usize,
        wanted: Result<&[u8], u64>,
        side: Side,
    ) -> Result<u64, String> {
        for (shown, record) in self.shown.iter_mut().zip(records) {
            shown.put(record, side);
        }
        let [addr_layout, cs_data_layout] = self.shown.each_ref().map(Shown::bytes);
        let page = self.lent.lend(lent, side);
        let result = write_page_into(addr_layout, cs_data_layout, page);
        let (told, page) = match wanted {
            Ok(page) => (page.len() as u64, page),
            Err(number) => (number << PLACES, &[][..]),
        };
        if result != told {
            return Err(format!("{result:X} is told in place of {told:X}"));
        }
        if !self.lent.has_only(page) {
            return Err("the lent bytes are not as wanted".into());
        }
        Ok(result >> PLACES)
    }
}
