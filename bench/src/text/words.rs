//! The words of a line, taken one after the other; a word that does not fit names the line.

use std::ops::RangeInclusive;
use std::str::SplitWhitespace;

use super::TextError;
use super::included::{Part, Place};
use onerom::ByteOrder;
use onerom::description::{Candidates, Kind, Setting};
use onerom::slot::SlotKind;

pub const KINDS: [(&str, Kind); 7] = [
    ("ce", Kind::Ce),
    ("oe", Kind::Oe),
    ("cs1", Kind::Cs1),
    ("cs2", Kind::Cs2),
    ("cs3", Kind::Cs3),
    ("cs4", Kind::Cs4),
    ("other", Kind::Other),
];

const SETTINGS: [(&str, Setting); 3] = [
    ("low", Setting::ActiveLow),
    ("high", Setting::ActiveHigh),
    ("ignored", Setting::Ignored),
];

pub const SLOT_KINDS: [(&str, SlotKind); 7] = [
    ("single-rom", SlotKind::SingleRom),
    ("single-ram", SlotKind::SingleRam),
    ("banked", SlotKind::Banked),
    ("multi", SlotKind::Multi),
    ("system-plugin", SlotKind::SystemPlugin),
    ("user-plugin", SlotKind::UserPlugin),
    ("pio-plugin", SlotKind::PioPlugin),
];

/// Kinds of overrides, each in the top two bits.
pub const OVERRIDES: [(&str, u8); 4] = [
    ("normal", 0 << 6),
    ("invert", 1 << 6),
    ("low", 2 << 6),
    ("high", 3 << 6),
];

/// Byte orders of the chips' files.
pub const ORDERS: [(&str, ByteOrder); 2] =
    [("low", ByteOrder::LowFirst), ("high", ByteOrder::HighFirst)];

/// In place of a list that has no numbers.
pub const NO_NUMBERS: &str = "none";

/// How much of a word an error shows.
const SHOWN: usize = 40;

/// A word as an error shows it: cut if it is long, and signs that a terminal obeys or does not show
/// as numbers.
fn shown(word: &str) -> String {
    let plain = |sign: char| match sign.is_ascii_graphic() || sign.is_alphanumeric() {
        true => sign.to_string(),
        false => sign.escape_unicode().to_string(),
    };
    let front: String = word.chars().take(SHOWN).map(plain).collect();
    match word.chars().count() {
        ..=SHOWN => format!("`{front}`"),
        length => format!("`{front}..`, a word of {length} characters"),
    }
}

pub struct Words<'a> {
    pub line: usize,
    pub part: Part,
    rest: SplitWhitespace<'a>,
}

impl<'a> Words<'a> {
    pub fn of(line: usize, text: &'a str) -> Self {
        let told = text.split('#').next().unwrap_or_default();
        Self {
            line,
            part: Part::default(),
            rest: told.split_whitespace(),
        }
    }

    /// The same line in an included file.
    pub fn in_part(self, part: &Part) -> Self {
        let part = part.clone();
        Self { part, ..self }
    }

    pub fn place(&self) -> Place {
        let (part, line) = (self.part.clone(), self.line);
        Place { part, line }
    }

    /// The line's first word; none on an empty line.
    pub fn head(&mut self) -> Option<&'a str> {
        self.rest.next()
    }

    pub fn error(&self, what: impl Into<String>) -> TextError {
        TextError {
            file: self.part.file.as_deref().map(str::to_owned),
            line: self.line,
            what: what.into(),
        }
    }

    pub fn expected(&self, what: &str, found: Option<&str>) -> TextError {
        let found = found.map_or("the end of the line".into(), shown);
        self.error(format!("expected {what}, found {found}"))
    }

    fn peek(&self) -> Option<&'a str> {
        self.rest.clone().next()
    }

    pub fn is_empty(&self) -> bool {
        self.peek().is_none()
    }

    pub fn end(&self) -> Result<(), TextError> {
        match self.peek() {
            None => Ok(()),
            found => Err(self.expected("the end of the line", found)),
        }
    }

    pub fn is_next(&self, word: &str) -> bool {
        self.peek() == Some(word)
    }

    /// Takes the word if it comes next.
    pub fn takes(&mut self, word: &str) -> bool {
        let next = self.is_next(word);
        if next {
            self.rest.next();
        }
        next
    }

    pub fn word(&mut self, word: &str) -> Result<(), TextError> {
        match self.rest.next() {
            Some(found) if found == word => Ok(()),
            found => Err(self.expected(&format!("`{word}`"), found)),
        }
    }

    /// One of a list of words.
    pub fn one_of<T: Copy>(&mut self, what: &str, list: &[(&str, T)]) -> Result<T, TextError> {
        let found = self.rest.next();
        let fitting = list.iter().find(|(name, _)| Some(*name) == found);
        fitting.map(|(_, value)| *value).ok_or_else(|| {
            let names: Vec<&str> = list.iter().map(|(name, _)| *name).collect();
            self.expected(&format!("{what} ({})", names.join(", ")), found)
        })
    }

    pub fn number(&mut self, what: &str, range: RangeInclusive<i64>) -> Result<i64, TextError> {
        let found = self.rest.next();
        let number = found.and_then(|word| word.parse().ok());
        number
            .filter(|number| range.contains(number))
            .ok_or_else(|| {
                let (low, high) = (range.start(), range.end());
                self.expected(&format!("{what}, {low} to {high}"), found)
            })
    }

    /// A number of at most a byte; the caller's range sees to that.
    pub fn byte(&mut self, what: &str, range: RangeInclusive<u8>) -> Result<u8, TextError> {
        let wide = i64::from(*range.start())..=i64::from(*range.end());
        Ok(self.number(what, wide)? as u8)
    }

    /// Whether a number comes next.
    pub fn is_number(&self) -> bool {
        let digit = |word: &str| word.starts_with(|first: char| first.is_ascii_digit());
        self.peek().is_some_and(digit)
    }

    pub fn setting(&mut self) -> Result<Setting, TextError> {
        self.one_of("a setting", &SETTINGS)
    }

    /// `gpio` and one or two GPIOs.
    pub fn candidates(&mut self) -> Result<Candidates, TextError> {
        self.word("gpio")?;
        let one = self.byte("a GPIO", 0..=47)?;
        if self.is_empty() {
            return Ok(Candidates::One(one));
        }
        let two = self.byte("a GPIO", 0..=47)?;
        if one == two {
            return Err(self.error(format!("expected two different GPIOs, found {one} twice")));
        }
        Ok(Candidates::Two(one, two))
    }

    /// The byte order of the chips' files.
    pub fn byte_order(&mut self) -> Result<ByteOrder, TextError> {
        self.one_of("a byte order", &ORDERS)
    }

    /// All the numbers that are left: one at least, `most` at most.
    pub fn bytes(
        &mut self,
        what: &str,
        range: RangeInclusive<u8>,
        most: usize,
    ) -> Result<Vec<u8>, TextError> {
        let mut list = vec![self.byte(what, range.clone())?];
        while !self.is_empty() {
            list.push(self.byte(what, range.clone())?);
        }
        if list.len() > most {
            let found = list.len();
            return Err(self.error(format!("expected at most {most} numbers, found {found}")));
        }
        Ok(list)
    }
}
