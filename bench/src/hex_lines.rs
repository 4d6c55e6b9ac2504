//! A text of Intel HEX by its lines, for what the library's refusals leave open: what is wrong in the
//! line at fault, and which of a chip's bytes a sound text names. Nothing here decides whether a text
//! is read.

use onerom::interface::refusals::{BAD_CHECKSUM, BAD_RECORD, PAST_CHIP};

const DATA: u8 = 0;
const END: u8 = 1;
const BLOCK_OF_64_KIB: u8 = 4;

/// Bytes of a record that are no data: count, offset, type and checksum.
const FRAME: usize = 5;

/// Bytes that the offset of a record reaches.
const BLOCK: usize = 1 << 16;

/// The lines without their ends. Behind the last line feed there is one only if anything stands
/// there.
fn lines(text: &[u8]) -> impl Iterator<Item = &[u8]> {
    let lines = text.split_inclusive(|&letter| letter == b'\n');
    lines.map(|line| match line {
        [line @ .., b'\r', b'\n'] | [line @ .., b'\n'] => line,
        line => line,
    })
}

/// The bytes that a line's digits say, if there are enough for a record.
fn record(line: &[u8]) -> Option<Vec<u8>> {
    let digits = line.strip_prefix(b":")?;
    let bytes: Option<Vec<u8>> = digits.chunks(2).map(byte).collect();
    bytes.filter(|bytes| bytes.len() >= FRAME)
}

fn byte(digits: &[u8]) -> Option<u8> {
    let [high, low] = digits else {
        return None;
    };
    let digit = |letter: &u8| char::from(*letter).to_digit(16);
    Some((digit(high)? << 4 | digit(low)?) as u8)
}

fn offset(record: &[u8]) -> usize {
    usize::from(record[1]) << 8 | usize::from(record[2])
}

fn data(record: &[u8]) -> &[u8] {
    &record[FRAME - 1..record.len() - 1]
}

/// What the records before a line say of it.
#[derive(Default)]
struct Before {
    block: usize,
    /// The line of the end record.
    end: Option<u64>,
}

impl Before {
    fn add(&mut self, line: u64, record: &[u8]) {
        match record[3] {
            END => self.end = Some(line),
            BLOCK_OF_64_KIB => {
                if let &[high, low] = data(record) {
                    self.block = usize::from(u16::from_be_bytes([high, low])) * BLOCK;
                }
            }
            _ => {}
        }
    }
}

/// What is wrong in the line that a refusal of a text for a chip of this size is about, and what to do.
/// None where nothing of the sort is found there.
pub fn why(text: &[u8], size: usize, number: u16, at: u64) -> Option<String> {
    let mut before = Before::default();
    let mut last = 0;
    for (line, own) in (1..).zip(lines(text)) {
        if line == at {
            return in_line(own, line, &before, size, number);
        }
        before.add(line, &record(own)?);
        last = line;
    }
    let is_missing = number == BAD_RECORD && before.end.is_none() && at == last + 1;
    is_missing.then(|| {
        "the text stops without the end record `:00000001FF`; is the file whole?".to_string()
    })
}

fn in_line(line: &[u8], at: u64, before: &Before, size: usize, number: u16) -> Option<String> {
    match (number, before.end) {
        (BAD_RECORD, Some(end)) => Some(format!(
            "it stands behind the end record in line {end}, where the text ends; take it out"
        )),
        (BAD_RECORD, None) => misshapen(line, at),
        (BAD_CHECKSUM, _) => Some(unsummed(&record(line)?)),
        (PAST_CHIP, _) => past_chip(&record(line)?, before.block, size),
        _ => None,
    }
}

/// Why a line is no record that a reader takes.
fn misshapen(line: &[u8], at: u64) -> Option<String> {
    let digits = match line {
        [] => return Some("it is blank, and every line is a record; take it out".into()),
        [b':', digits @ ..] => digits,
        [0xEF, 0xBB, 0xBF, ..] => {
            return Some("it begins with a byte order mark; save it as plain ASCII".into());
        }
        [first, ..] => {
            let first = letter(*first);
            let hint = if at == 1 { "; is it Intel HEX?" } else { "" };
            return Some(format!("it begins with {first} in place of a colon{hint}"));
        }
    };
    let strange = digits.iter().position(|digit| !digit.is_ascii_hexdigit());
    if let Some(place) = strange {
        // Columns are counted from 1, and the first has the colon.
        let (column, letter) = (place + 2, letter(digits[place]));
        return Some(format!("{letter} in column {column} is no hex digit"));
    }
    miscounted(digits).or_else(|| misfit(&record(line)?))
}

/// A letter as a message shows it.
fn letter(letter: u8) -> String {
    match letter {
        b' ' => "a space".into(),
        b'\t' => "a tab".into(),
        b'\r' => "a carriage return".into(),
        letter if letter.is_ascii_graphic() => format!("`{}`", char::from(letter)),
        letter => format!("byte {letter:02X}"),
    }
}

/// Digits that are too few or too many for the count that they begin with.
fn miscounted(digits: &[u8]) -> Option<String> {
    let found = digits.len();
    if found < 2 * FRAME {
        let fewest = 2 * FRAME;
        return Some(format!(
            "it has {found} digits, and no record has fewer than {fewest}"
        ));
    }
    let count = usize::from(byte(&digits[..2])?);
    let wanted = 2 * (count + FRAME);
    (found != wanted).then(|| {
        format!("it has {found} digits, and one with a count of {count} has {wanted}; is it cut?")
    })
}

/// A record of a type that is not taken, or with what its type does not have.
fn misfit(record: &[u8]) -> Option<String> {
    let (kind, count, offset) = (record[3], data(record).len(), offset(record));
    let wrong = match kind {
        DATA if offset + count > BLOCK => format!(
            "{count} data bytes from offset {offset:04X} run past offset FFFF; the rest goes behind \
             a type 04 record"
        ),
        END if count > 0 => format!("an end record has no data bytes, and this one {count}"),
        BLOCK_OF_64_KIB if count != 2 => {
            format!("a type 04 record has 2 data bytes, and this one {count}")
        }
        END | BLOCK_OF_64_KIB if offset > 0 => {
            format!("a type {kind:02X} record has address 0000, and this one {offset:04X}")
        }
        DATA | END | BLOCK_OF_64_KIB => return None,
        2 => "type 02 has segment addresses; save again as a linear (type 04) file".into(),
        3 | 5 => format!("type {kind:02X} is a start address; save again without one"),
        _ => format!("type {kind:02X} is none of 00, 01 and 04"),
    };
    Some(wrong)
}

fn unsummed(record: &[u8]) -> String {
    let sum = |bytes: &[u8]| {
        bytes
            .iter()
            .fold(0, |sum: u8, byte| sum.wrapping_add(*byte))
    };
    let fit = sum(&record[..record.len() - 1]).wrapping_neg();
    format!("the record's bytes do not sum to zero; this line would end in {fit:02X}")
}

fn past_chip(record: &[u8], block: usize, size: usize) -> Option<String> {
    let start = block + offset(record);
    let past = start.max(size);
    (start + data(record).len() > past)
        .then(|| format!("address {past:04X} is past the chip of {size} bytes; is that its size?"))
}

/// How many of a chip's bytes the records of a sound text name, and how many of these more than once.
pub fn named(text: &[u8], size: usize) -> (usize, usize) {
    let mut times = vec![0u8; size];
    let mut before = Before::default();
    let mut rest = text;
    while let Some([count, high, low, kind]) = rest.get(1..9).map(head) {
        // A sound line is as long as its count says: no line feed is looked for.
        let (line, more) = rest.split_at(rest.len().min(1 + 2 * (usize::from(count) + FRAME)));
        if kind == DATA {
            let start = before.block + usize::from(u16::from_be_bytes([high, low]));
            let own = start.min(size)..(start + usize::from(count)).min(size);
            for times in &mut times[own] {
                *times = times.saturating_add(1);
            }
        } else if let Some(record) = record(line) {
            before.add(0, &record);
        }
        rest = behind_end(more);
    }
    let at_least = |least: u8| times.iter().filter(|times| **times >= least).count();
    (at_least(1), at_least(2))
}

/// What follows a line's end.
fn behind_end(text: &[u8]) -> &[u8] {
    match text {
        [b'\r', b'\n', rest @ ..] | [b'\n', rest @ ..] => rest,
        rest => rest,
    }
}

/// Count, offset and type: all that a data record's place hangs on. The text is sound, so that they are
/// digits.
fn head(digits: &[u8]) -> [u8; 4] {
    let value = |letter: u8| (letter & 0xF) + 9 * (letter >> 6);
    let byte = |at: usize| value(digits[at]) << 4 | value(digits[at + 1]);
    [0, 2, 4, 6].map(byte)
}
