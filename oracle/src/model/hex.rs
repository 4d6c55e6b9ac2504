//! Intel HEX, read from document 02's first slip: which bytes a text says, which fault answers and in
//! which line, and the text of a chip's bytes.

/// No chip has more bytes.
pub const LARGEST_CHIP: usize = 1 << 24;

const OUT_OF_DOMAIN: u64 = 1;
pub const BAD_RECORD: u64 = 26;
pub const BAD_CHECKSUM: u64 = 27;
pub const PAST_CHIP: u64 = 28;

const DATA: u8 = 0;
const END: u8 = 1;
const UPPER: u8 = 4;

/// Bytes that the low address of a record reaches.
const BLOCK: usize = 1 << 16;

/// Data bytes of a record that is written.
const ROW: usize = 16;

/// Why a text is turned away.
#[derive(Debug, Clone, Copy, PartialEq, Eq)]
pub struct Fault {
    pub number: u64,
    /// The first line at fault, from 1. Without an end record it is the one behind the last; 0 where
    /// no line was looked at.
    pub line: u64,
}

/// The bytes of a record, what its digits say in pairs.
struct Record(Vec<u8>);

impl Record {
    /// What a line says, if it has a record's shape.
    fn of(line: &[u8]) -> Option<Self> {
        let digits = line.strip_prefix(b":")?;
        if !digits.len().is_multiple_of(2) {
            return None;
        }
        let bytes: Option<Vec<u8>> = digits.chunks(2).map(byte).collect();
        let record = Self(bytes?);
        let is_whole = record.0.len() >= 5 && record.0.len() == usize::from(record.0[0]) + 5;
        (is_whole && record.is_of_a_type()).then_some(record)
    }

    fn is_of_a_type(&self) -> bool {
        match self.0[3] {
            DATA => self.offset() + self.data().len() <= BLOCK,
            END => self.data().is_empty() && self.offset() == 0,
            UPPER => self.data().len() == 2 && self.offset() == 0,
            _ => false,
        }
    }

    fn offset(&self) -> usize {
        usize::from(self.0[1]) << 8 | usize::from(self.0[2])
    }

    fn data(&self) -> &[u8] {
        &self.0[4..self.0.len() - 1]
    }

    fn is_summed(&self) -> bool {
        let sum: usize = self.0.iter().map(|&byte| usize::from(byte)).sum();
        sum.is_multiple_of(256)
    }
}

/// The byte that two digits say.
fn byte(digits: &[u8]) -> Option<u8> {
    let digit = |letter: u8| char::from(letter).to_digit(16);
    let [high, low] = digits else {
        return None;
    };
    Some((digit(*high)? * 16 + digit(*low)?) as u8)
}

/// The lines of a text without their ends. A carriage return belongs to an end only where a line feed
/// follows, and behind the last line feed there is a line only if anything stands there.
fn lines(text: &[u8]) -> Vec<&[u8]> {
    let mut lines: Vec<&[u8]> = text.split(|&letter| letter == b'\n').collect();
    let last = lines.pop().filter(|last| !last.is_empty());
    for line in &mut lines {
        *line = line.strip_suffix(b"\r").unwrap_or(line);
    }
    lines.extend(last);
    lines
}

/// The bytes of a chip of this size that a text says.
pub fn read(text: &[u8], size: usize) -> Result<Vec<u8>, Fault> {
    if size > LARGEST_CHIP {
        return Err(Fault {
            number: OUT_OF_DOMAIN,
            line: 0,
        });
    }
    let mut chip = vec![0xFF; size];
    let (mut block, mut is_ended) = (0, false);
    let mut next = 1;
    for line in lines(text) {
        let at = |number| Fault { number, line: next };
        let record = Record::of(line).filter(|_| !is_ended);
        let record = record.ok_or(at(BAD_RECORD))?;
        if !record.is_summed() {
            return Err(at(BAD_CHECKSUM));
        }
        match record.0[3] {
            UPPER => block = usize::from(record.0[4]) << 8 | usize::from(record.0[5]),
            END => is_ended = true,
            _ => {
                let start = block * BLOCK + record.offset();
                for (address, &byte) in (start..).zip(record.data()) {
                    *chip.get_mut(address).ok_or(at(PAST_CHIP))? = byte;
                }
            }
        }
        next += 1;
    }
    if !is_ended {
        return Err(Fault {
            number: BAD_RECORD,
            line: next,
        });
    }
    Ok(chip)
}

/// The text of a chip's bytes; a refusal's number where there is none.
pub fn write(chip: &[u8]) -> Result<Vec<u8>, u64> {
    if chip.len() > LARGEST_CHIP {
        return Err(OUT_OF_DOMAIN);
    }
    let mut text = String::new();
    for (number, block) in chip.chunks(BLOCK).enumerate() {
        if number > 0 {
            text += &line(0, UPPER, &(number as u16).to_be_bytes());
        }
        for (row, data) in block.chunks(ROW).enumerate() {
            text += &line((row * ROW) as u16, DATA, data);
        }
    }
    text += &line(0, END, &[]);
    Ok(text.into_bytes())
}

/// A record with its checksum, and a line feed.
pub fn line(offset: u16, kind: u8, data: &[u8]) -> String {
    let [high, low] = offset.to_be_bytes();
    let mut bytes = vec![data.len() as u8, high, low, kind];
    bytes.extend_from_slice(data);
    let sum: usize = bytes.iter().map(|&byte| usize::from(byte)).sum();
    bytes.push((256 - sum % 256) as u8);
    let digits = bytes.iter().flat_map(|byte| [byte / 16, byte % 16]);
    let digits = digits.filter_map(|digit| char::from_digit(digit.into(), 16));
    let digits: String = digits.map(|digit| digit.to_ascii_uppercase()).collect();
    format!(":{digits}\n")
}

#[cfg(test)]
mod tests {
    use super::*;

    /// A text's bytes, or number and line.
    fn told(text: &str, size: usize) -> Result<Vec<u8>, (u64, u64)> {
        read(text.as_bytes(), size).map_err(|fault| (fault.number, fault.line))
    }

    #[test]
    fn the_slips_own_records() {
        let text = ":0100000055AA\n:00000001FF\n";
        assert_eq!(told(text, 2), Ok(vec![0x55, 0xFF]));
        assert_eq!(write(&[0x55]), Ok(text.as_bytes().to_vec()));
        assert_eq!(told(":00000001FF", 0), Ok(vec![]));
        assert_eq!(told(text, 0), Err((PAST_CHIP, 1)));
        assert_eq!(told("", 0), Err((BAD_RECORD, 1)));
        assert_eq!(told(":0100000055AA\n", 1), Err((BAD_RECORD, 2)));
    }

    #[test]
    fn a_text_has_its_length() {
        for (bytes, length) in [(0, 12), (1, 26), (16, 56), (17, 70), (65536, 180_236)] {
            let text = write(&vec![0; bytes]).expect("a text");
            assert_eq!(text.len(), length, "{bytes}");
        }
        let more = write(&[0; 65537]).expect("a text");
        assert_eq!(more.len(), 180_236 + 16 + 14);
        let text = String::from_utf8(more).expect("letters");
        assert!(text.ends_with("\n:020000040001F9\n:0100000000FF\n:00000001FF\n"));
    }
}
