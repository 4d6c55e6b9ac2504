//! Descriptions and stored slots as a person writes them: a line a fact, `#` before a remark.
//! README.md has the lists of lines.

mod described;
mod facts;
mod halves;
mod included;
mod stored;
mod words;
mod write;

use std::fmt;

use described::DescriptionDraft;
use facts::grown;
use halves::{BoardDraft, ChipDraft};
use included::grown_with;
use onerom::ByteOrder;
use onerom::description::Description;
use onerom::slot::StoredSlot;
use stored::StoredDraft;
use words::Words;

pub use described::seat;
pub use halves::{Board, ChipFacts};
pub use included::{Included, Open};

/// Why a text is no description or no stored slot. Displayed it reads `line 3: expected ..`; put
/// the file's name before it.
#[derive(Debug, Clone, PartialEq, Eq)]
pub struct TextError {
    /// The included file that it shows in; none in the text itself.
    pub file: Option<String>,
    /// Where it shows, from 1; the last line where something is missing in the whole.
    pub line: usize,
    /// What was expected there and what was found.
    pub what: String,
}

impl fmt::Display for TextError {
    fn fmt(&self, f: &mut fmt::Formatter<'_>) -> fmt::Result {
        write!(f, "line {}: {}", self.line, self.what)
    }
}

impl std::error::Error for TextError {}

/// What a text says: a slot, and the byte order of the chips' files if it names one.
#[derive(Debug, Clone, PartialEq, Eq)]
pub struct Ordered<T> {
    /// A description or a stored slot.
    pub slot: T,
    /// None is low byte first.
    pub order: Option<NamedOrder>,
}

/// The byte order that a text names, and where.
#[derive(Debug, Clone, PartialEq, Eq)]
pub struct NamedOrder {
    /// Which byte of a word comes first in the chips' files.
    pub order: ByteOrder,
    /// The included file that names it; none in the text itself.
    pub file: Option<String>,
    /// The line, from 1.
    pub line: usize,
}

/// Marks that editors put before a text, and what is to be said of each.
const MARKS: [(&[u8], &str); 3] = [
    (
        b"\xEF\xBB\xBF",
        "a byte order mark before it; save it without one",
    ),
    (b"\xFF\xFE", "UTF-16; save it as UTF-8"),
    (b"\xFE\xFF", "UTF-16; save it as UTF-8"),
];

/// A file's bytes as text. Where they are none the error names the line.
pub fn of_bytes(bytes: &[u8]) -> Result<&str, TextError> {
    if let Some((_, found)) = MARKS.iter().find(|(mark, _)| bytes.starts_with(mark)) {
        let what = format!("expected text in plain UTF-8, found {found}");
        return Err(TextError {
            file: None,
            line: 1,
            what,
        });
    }
    if let Some(line) = lone_return(bytes) {
        let what = "expected lines that end in LF or CR LF, found a CR alone".into();
        let file = None;
        return Err(TextError { file, line, what });
    }
    std::str::from_utf8(bytes).map_err(|why| {
        let good = &bytes[..why.valid_up_to()];
        TextError {
            file: None,
            line: 1 + good.iter().filter(|&&byte| byte == b'\n').count(),
            what: "expected text, found bytes that are none".into(),
        }
    })
}

/// The line with a CR that no LF follows: what stands behind would pass for a part of the line, and
/// behind a remark be lost.
fn lone_return(bytes: &[u8]) -> Option<usize> {
    let is_lone = |place: &usize| bytes[*place] == b'\r' && bytes.get(place + 1) != Some(&b'\n');
    let place = (0..bytes.len()).find(is_lone)?;
    let ends = bytes[..place].iter().filter(|&&byte| byte == b'\n');
    Some(1 + ends.count())
}

/// Reads the bytes of a description's file.
pub fn read_bytes(bytes: &[u8]) -> Result<Description, TextError> {
    read(of_bytes(bytes)?)
}

/// Reads a description. Facts that are not told are as usual; a number that no board or chip has
/// is an error, and so is a line that is missing or stands twice. What only shows in the whole is
/// left to the library, which refuses it.
pub fn read(text: &str) -> Result<Description, TextError> {
    read_with(text, &mut |name| {
        Err(format!("{name}: a text alone includes no file"))
    })
}

/// Reads a description that can include files.
pub fn read_with(text: &str, open: &mut Open) -> Result<Description, TextError> {
    read_ordered(text, open).map(|told| told.slot)
}

/// The same with the byte order.
pub fn read_ordered(text: &str, open: &mut Open) -> Result<Ordered<Description>, TextError> {
    grown_with::<DescriptionDraft>(text, open)
}

/// Reads the lines of a description that are a chip's, one chip with its package.
pub fn read_chip(text: &str, open: &mut Open) -> Result<ChipFacts, TextError> {
    grown_with::<ChipDraft>(text, open)
}

/// Reads the lines of a description that are a board's.
pub fn read_board(text: &str, open: &mut Open) -> Result<Board, TextError> {
    grown_with::<BoardDraft>(text, open)
}

/// Whether a text is to be read as a stored slot: only those begin with a `slot` line. Empty lines
/// and remarks may stand before it.
pub fn is_slot(text: &str) -> bool {
    let mut heads = text.lines().filter_map(|line| Words::of(1, line).head());
    heads.next() == Some("slot")
}

/// Reads a stored slot, as [`write_slot`] writes it or as a person does.
pub fn read_slot(text: &str) -> Result<StoredSlot, TextError> {
    read_ordered_slot(text).map(|told| told.slot)
}

/// The same with the byte order.
pub fn read_ordered_slot(text: &str) -> Result<Ordered<StoredSlot>, TextError> {
    grown::<StoredDraft>(text)
}

/// Writes a stored slot, a line a fact, and the byte order if it is not low byte first.
/// [`read_ordered_slot`] reads the same from it if the slot's numbers are in the domain: at most 64
/// overrides and 4 ROMs, ROMs of at most 2^24 bytes, and two different GPIOs of 0 to 47 at most for an
/// X pin.
pub fn write_slot(slot: &StoredSlot, order: ByteOrder) -> String {
    let mut text = write::lines(slot, order).join("\n");
    text.push('\n');
    text
}
