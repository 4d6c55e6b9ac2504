//! Texts of Intel HEX: sound ones in every form that the slip allows, and what slips of a hand or of
//! a disk make of them.

use crate::model::hex::line;
use crate::random::Random;

/// A text, and the size of the chip that it is read into.
pub struct HexCase {
    pub text: Vec<u8>,
    pub size: usize,
}

const BLOCK: usize = 1 << 16;

/// What stands in damaged texts: what records are made of, and what people and editors put in.
const LETTERS: &[u8] = b":0123456789ABCDEFabcdefGg;S \t\r\n\x00\x1a\xbb\xff";

const DIGITS: &[u8] = b"0123456789ABCDEF";

/// Values that change what a record is.
const FIELDS: [u8; 10] = [0, 1, 2, 3, 4, 5, 16, 0x7F, 0x80, 0xFF];

/// The case of a number under a seed: one in four as it is, the others with up to three damages.
pub fn case(random: &mut Random) -> HexCase {
    let mut size = size(random);
    let mut text = text(random, size);
    for _ in 0..random.below(4) {
        text = damaged(random, text);
        if random.chance(40) {
            text = mended(&text);
        }
    }
    if random.chance(10) {
        size = size.saturating_sub(random.between(1, 20));
    }
    HexCase { text, size }
}

/// Small chips mostly; some of more than a block, and the sizes at a block's end.
fn size(random: &mut Random) -> usize {
    match random.below(60) {
        0 => random.between(0, 70_000),
        1 => random.between(BLOCK - 2, BLOCK + 2),
        2 => random.between(2 * BLOCK - 2, 2 * BLOCK + 2),
        3..20 => random.between(0, 1024),
        _ => random.between(0, 64),
    }
}

/// A sound text. Letters and line ends are of one kind or mixed, and the last end may be missing.
fn text(random: &mut Random, size: usize) -> Vec<u8> {
    let (small, returns) = (random.pick(&[0, 50, 100]), random.pick(&[0, 50, 100]));
    let mut text = Vec::new();
    for line in records(random, size) {
        let digits = line.trim_end().bytes();
        text.extend(digits.map(|digit| match random.chance(small) {
            true => digit.to_ascii_lowercase(),
            false => digit,
        }));
        let end: &[u8] = if random.chance(returns) {
            b"\r\n"
        } else {
            b"\n"
        };
        text.extend(end);
    }
    if random.chance(20) {
        let line = text.trim_ascii_end().len();
        text.truncate(line);
    }
    text
}

fn records(random: &mut Random, size: usize) -> Vec<String> {
    let mut block = 0;
    let mut records = Vec::new();
    for _ in 0..random.below(7) {
        if random.chance(25) {
            block = match random.below(10) {
                0 => random.below(BLOCK),
                _ => random.below(size.div_ceil(BLOCK).max(1)),
            };
            records.push(line(0, 4, &(block as u16).to_be_bytes()));
        } else {
            records.push(data(random, size, block));
        }
    }
    records.push(line(0, 1, &[]));
    records
}

/// A data record in a block of the chip; past the chip it has no bytes.
fn data(random: &mut Random, size: usize, block: usize) -> String {
    let room = size.saturating_sub(block * BLOCK).min(BLOCK);
    let most = match random.below(10) {
        0 => 0,
        1..4 => 255,
        _ => 20,
    };
    let count = random.between(0, most.min(room));
    let offset = match random.below(3) {
        _ if count == 0 => random.below(BLOCK),
        0 => room - count,
        _ => random.between(0, room - count),
    };
    let bytes: Vec<u8> = (0..count).map(|_| random.byte()).collect();
    line(offset as u16, 0, &bytes)
}

fn damaged(random: &mut Random, mut text: Vec<u8>) -> Vec<u8> {
    let place = random.below(text.len().max(1));
    let letter = match random.below(10) {
        0 => random.byte(),
        1..4 => random.pick(LETTERS),
        _ => random.pick(DIGITS),
    };
    match random.below(9) {
        0..3 => text.iter_mut().skip(place).take(1).for_each(|own| {
            *own = letter;
        }),
        3 => drop(text.drain(place..text.len().min(place + 1))),
        4 => text.insert(place, letter),
        5 | 6 => in_a_field(random, &mut text),
        _ => return with_other_lines(random, &text),
    }
    text
}

/// Another value in the first four bytes of a record.
fn in_a_field(random: &mut Random, text: &mut [u8]) {
    let starts: Vec<usize> = (0..text.len()).filter(|&at| text[at] == b':').collect();
    if starts.is_empty() {
        return;
    }
    let place = random.pick(&starts) + 1 + 2 * random.below(4);
    let value = match random.below(5) {
        0 => random.byte(),
        _ => random.pick(&FIELDS),
    };
    let digits = format!("{value:02X}");
    for (own, digit) in text.iter_mut().skip(place).zip(digits.bytes()) {
        *own = digit;
    }
}

/// Two lines change places, or one is doubled or dropped.
fn with_other_lines(random: &mut Random, text: &[u8]) -> Vec<u8> {
    let mut lines: Vec<&[u8]> = text.split_inclusive(|&letter| letter == b'\n').collect();
    if lines.is_empty() {
        return Vec::new();
    }
    let [one, other] = [random.below(lines.len()), random.below(lines.len())];
    match random.below(3) {
        0 => lines.swap(one, other),
        1 => lines.insert(other, lines[one]),
        _ => drop(lines.remove(one)),
    }
    lines.concat()
}

/// The text with a checksum that fits in every line that is a colon and pairs of digits.
fn mended(text: &[u8]) -> Vec<u8> {
    let lines = text.split_inclusive(|&letter| letter == b'\n');
    lines.flat_map(mended_line).collect()
}

fn mended_line(line: &[u8]) -> Vec<u8> {
    let whole = line.trim_ascii_end();
    let digits = whole.strip_prefix(b":").unwrap_or_default();
    let bytes: Option<Vec<u8>> = digits.chunks(2).map(byte).collect();
    let Some([bytes @ .., _]) = bytes.as_deref() else {
        return line.to_vec();
    };
    let sum = bytes
        .iter()
        .fold(0, |sum: u8, &byte| sum.wrapping_add(byte));
    let mended = format!("{:02X}", sum.wrapping_neg());
    [
        &whole[..whole.len() - 2],
        mended.as_bytes(),
        &line[whole.len()..],
    ]
    .concat()
}

fn byte(pair: &[u8]) -> Option<u8> {
    let text = std::str::from_utf8(pair).ok()?;
    let is_pair = pair.len() == 2 && pair.iter().all(u8::is_ascii_hexdigit);
    u8::from_str_radix(text, 16).ok().filter(|_| is_pair)
}
