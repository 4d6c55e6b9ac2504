//! The two halves of a description, each from a file of its own: a chip, and a board.

use super::TextError;
use super::described::DescriptionDraft;
use super::facts::{Draft, ORDER, missing};
use super::words::Words;
use onerom::description::{Candidates, Chip, Package, SOCKET_PINS, Settings};

/// What a chip's file tells. A byte order that it names is of dumps: it is read, and left out.
#[derive(Debug, Clone, PartialEq, Eq)]
pub struct ChipFacts {
    /// Its size and pins.
    pub chip: Chip,
    /// Pins of its package: 24, 28, 32 or 40.
    pub package: u8,
    /// Bytes in a word.
    pub word_bytes: u8,
    /// How its select lines are set.
    pub settings: Settings,
    /// Indices of address lines that qualify the select.
    pub qualifiers: Vec<u8>,
}

/// What a board's file tells. A set that it names is a description's: it is read, and left out.
#[derive(Debug, Clone, PartialEq, Eq)]
pub struct Board {
    /// Pins of its socket: 24, 28, 32 or 40.
    pub pins: u8,
    /// The package of its RP2350.
    pub package: Package,
    /// Socket pin less chip pin, if the file says so.
    pub offset: Option<i8>,
    /// The largest table in bytes.
    pub largest_table: u32,
    /// Socket pin n at place n - 1.
    pub socket: [Candidates; SOCKET_PINS],
    /// X1 and X2.
    pub x: [Candidates; 2],
}

const CHIP_LINES: [&str; 9] = [
    "word",
    ORDER,
    "chip",
    "package",
    "address",
    "data",
    "control",
    "settings",
    "qualifiers",
];

const BOARD_LINES: [&str; 9] = [
    "socket", "package", "pin", "x1", "x2", "offset", "limit", "set", "multi",
];

/// A line that is of this half.
fn expect(head: &str, lines: &[&str], half: &str, words: &Words) -> Result<(), TextError> {
    if lines.contains(&head) {
        return Ok(());
    }
    let (lines, last) = lines.split_at(lines.len() - 1);
    let (lines, last) = (lines.join(", "), last.concat());
    Err(words.error(format!(
        "expected a line of a {half} ({lines} or {last}), found `{head}`"
    )))
}

#[derive(Default)]
pub struct ChipDraft(DescriptionDraft);

impl Draft for ChipDraft {
    type Whole = ChipFacts;

    fn line(&mut self, head: &str, words: &mut Words) -> Result<(), TextError> {
        expect(head, &CHIP_LINES, "chip", words)?;
        match head {
            "chip" => self.0.told.once(head.into(), words)?,
            "package" => return self.0.chip_package(words),
            _ => {}
        }
        self.0.line(head, words)
    }

    fn finished(self, last: usize) -> Result<ChipFacts, TextError> {
        self.0.whole_chips(last)?;
        let mut slot = self.0.slot;
        let Some(&Some(package)) = self.0.packages.first() else {
            let place = self.0.told.place("chip");
            return missing(
                place.unwrap_or_else(|| last.into()),
                "a `package` line of this chip",
            );
        };
        Ok(ChipFacts {
            chip: slot.chips.swap_remove(0),
            package,
            word_bytes: slot.word_bytes,
            settings: slot.settings,
            qualifiers: slot.qualifiers,
        })
    }
}

#[derive(Default)]
pub struct BoardDraft(DescriptionDraft);

impl Draft for BoardDraft {
    type Whole = Board;

    fn line(&mut self, head: &str, words: &mut Words) -> Result<(), TextError> {
        expect(head, &BOARD_LINES, "board", words)?;
        match head {
            "package" => self.0.board_package("the RP2350's package", words),
            _ => self.0.line(head, words),
        }
    }

    fn finished(self, last: usize) -> Result<Board, TextError> {
        self.0.whole_socket(last)?;
        self.0.within_package()?;
        let DescriptionDraft { slot, told, .. } = self.0;
        Ok(Board {
            pins: slot.board_pins,
            package: slot.package,
            offset: told.place("offset").map(|_| slot.pin_offset),
            largest_table: slot.largest_table,
            socket: slot.socket,
            x: slot.x,
        })
    }
}
