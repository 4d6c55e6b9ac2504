//! Whether the address lines in use reach all words of the chips. The library serves what they
//! reach and refuses nothing, so that a line left out of a description would cost half a ROM.

use onerom::description::Chip;
use onerom::slot::words;
use onerom::{AddrLayout, Description};

use crate::ending::Fault;

/// The flag by which a chip may be served in part.
pub const PART: &str = "--part";

/// What is to be said of chips that are served in part, a line each. A part that no excess line
/// explains is a fault, unless it is accepted.
pub fn parts_served(
    slot: &Description,
    addr: &AddrLayout,
    accepted: bool,
) -> Result<String, Fault> {
    let lost = words_lost(slot, addr);
    if lost.is_empty() || accepted {
        let served =
            |(number, part): (usize, Part)| format!("chip {number}: {}\n", part.served(addr));
        return Ok(parts(slot, addr).map(served).collect());
    }
    Err(Fault::Different(format!(
        "{}\n{PART} accepts it",
        lost.join("\n")
    )))
}

/// The chips of which words are not reached and no excess line explains it, a line each.
pub fn words_lost(slot: &Description, addr: &AddrLayout) -> Vec<String> {
    let lost = parts(slot, addr).filter(|(_, part)| !part.explained);
    lost.map(|(number, part)| format!("chip {number}: {}", part.lost()))
        .collect()
}

fn parts(slot: &Description, addr: &AddrLayout) -> impl Iterator<Item = (usize, Part)> {
    (slot.chips.iter().enumerate())
        .filter_map(|(number, chip)| Some((number, Part::of(slot, addr, chip)?)))
}

/// A chip that has more words than its lines in use reach.
struct Part {
    reached: usize,
    has: usize,
    /// The excess lines reach the others.
    explained: bool,
    /// In 16-bit mode there are as many address pins as the size needs lines.
    none_dropped: bool,
}

impl Part {
    fn of(slot: &Description, addr: &AddrLayout, chip: &Chip) -> Option<Self> {
        let word_bytes = usize::from(slot.word_bytes);
        let reach = |lines: usize| words(chip.size, word_bytes, lines);
        let (in_use, excess) = (addr.lines.len(), addr.excess.len());
        let has = reach(usize::BITS as usize);
        let pins = slot.chips.first().map_or(0, |chip| chip.address_pins.len());
        (reach(in_use) < has).then(|| Self {
            reached: reach(in_use),
            has,
            explained: excess > 0 && reach(in_use + excess) == has,
            none_dropped: word_bytes == 2 && reach(pins) == has,
        })
    }

    fn lost(&self) -> String {
        let (reached, has) = (self.reached, self.has);
        let rule = if self.none_dropped {
            "in 16-bit mode the first address pin is A-1 or a place holder, and no line"
        } else {
            "an address line is missing?"
        };
        format!("{reached} of {has} words reached; {rule}")
    }

    fn served(&self, addr: &AddrLayout) -> String {
        let (reached, has) = (self.reached, self.has);
        let by = match (self.explained, addr.excess.len(), addr.lines.len()) {
            (false, ..) => String::new(),
            (true, 1, line) => format!("; A{line} is past the largest table, and selects"),
            (true, more, line) => {
                let last = line + more - 1;
                format!("; A{line} to A{last} are past the largest table, and select")
            }
        };
        let last = reached.saturating_sub(1);
        format!("words 0 to {last} of {has} are served{by}")
    }
}
