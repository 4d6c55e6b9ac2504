//! `onerom-bench to-hex` and `onerom-bench from-hex`: a chip's bytes into Intel HEX and back.

use std::ffi::OsStr;
use std::io::{self, Read};
use std::path::{Path, PathBuf};

use onerom::hex_text;
use onerom::images::LARGEST_CHIP;

use super::Command;
use crate::ending::{Done, Fault};
use crate::hex_files::{READ_AT_MOST, chip_of};
use crate::inputs::{NO_FILE, bytes_up_to};
use crate::outputs::{keep, written};

pub const TO_HEX: Command = Command {
    name: "to-hex",
    words: "BIN HEX",
    summary: "Writes a chip's bytes as Intel HEX",
    help: "\
Reads BIN, a chip's bytes, at most 16777216; `-` is the standard input. Writes
them to HEX as a text of Intel HEX: 16 bytes a record, the last what is left,
capitals, a type 04 record ahead of each 64 KiB but the first, the end record,
and LF behind each. HEX is written whole or not at all; `-` is the standard
output. It may replace a file that is there, but not BIN.

Exit codes: 0 written; 1 refused: more bytes than any chip has; 2 other words,
or a file that cannot be used.

Example:
    onerom-bench to-hex 2764.bin 2764.hex
",
    flags: &[],
    run: |words, _| match words {
        [bin, hex] => to_hex(Path::new(bin), Path::new(hex)),
        _ => Err(Fault::Words),
    },
};

pub const FROM_HEX: Command = Command {
    name: "from-hex",
    words: "HEX SIZE BIN",
    summary: "Writes the chip's bytes that a text of Intel HEX says",
    help: "\
Reads HEX, a text of Intel HEX with records of types 00, 01 and 04, letters of
either case and lines that end in LF or CR LF; `-` is the standard input. SIZE
is how many bytes the chip has, in decimal or behind 0x in hex. Writes as many
to BIN, whole or not at all; `-` is the standard output. A byte that no record
names is FF, and where several records name one the last counts; it says how
many there are. BIN may replace a file that is there, but not HEX.

A text at fault is told with the line, the number and name of the refusal and
what is wrong there: 26 BadRecord, 27 BadChecksum, 28 PastChip for a byte at an
address past the chip.

Exit codes: 0 written; 1 the text is refused; 2 other words, or a file that
cannot be used.

Example:
    onerom-bench from-hex 2764.hex 8192 2764.bin
",
    flags: &[],
    run: |words, _| match words {
        [hex, size, bin] => from_hex(Path::new(hex), size, Path::new(bin)),
        _ => Err(Fault::Words),
    },
};

fn to_hex(bin: &Path, hex: &Path) -> Done {
    let read = Source::of(bin);
    keep(&read.files, "text", hex)?;
    // One byte more than a chip has, by which the library can tell that there are more.
    let bytes = read.bytes(LARGEST_CHIP + 1)?;
    let text = hex_text(&bytes).map_err(|refusal| {
        let (name, number, called) = (read.name.display(), refusal.number, refusal.name);
        let why = refusal.meaning();
        Fault::RefusedText(format!(
            "{name}: {number} {called} ({why}, and there are more)"
        ))
    })?;
    let length = bytes.len();
    written(hex, &text, &format!("{length} bytes as Intel HEX"), "")
}

fn from_hex(hex: &Path, size: &OsStr, bin: &Path) -> Done {
    let size = expect_size(size)?;
    let read = Source::of(hex);
    keep(&read.files, "chip", bin)?;
    let text = read.bytes(READ_AT_MOST)?;
    let (chip, open) = chip_of(&read.name, &text, size)?;
    written(bin, &chip, &format!("{size} bytes"), &open)
}

/// A file that is read, or the standard input.
struct Source {
    /// As messages have it.
    name: PathBuf,
    files: Vec<PathBuf>,
}

impl Source {
    fn of(file: &Path) -> Self {
        if file == Path::new(NO_FILE) {
            return Self {
                name: "standard input".into(),
                files: vec![],
            };
        }
        Self {
            name: file.into(),
            files: vec![file.into()],
        }
    }

    fn bytes(&self, most: usize) -> Result<Vec<u8>, Fault> {
        if let [file] = &self.files[..] {
            return bytes_up_to(file, most);
        }
        let mut bytes = Vec::new();
        let read = io::stdin().take(most as u64).read_to_end(&mut bytes);
        read.map_err(|why| Fault::of_file(&self.name, why))?;
        Ok(bytes)
    }
}

/// A chip's size, in decimal or behind 0x in hex.
fn expect_size(word: &OsStr) -> Result<usize, Fault> {
    let found = || {
        let found = word.display();
        Fault::File(format!(
            "expected the chip's size in bytes, decimal or behind 0x in hex, found `{found}`"
        ))
    };
    let text = word.to_str().ok_or_else(found)?;
    let hex = text.strip_prefix("0x").or(text.strip_prefix("0X"));
    let (digits, radix) = hex.map_or((text, 10), |hex| (hex, 16));
    // A sign is no digit, though Rust takes it.
    let is_number = digits.bytes().all(|digit| digit.is_ascii_hexdigit());
    let size = usize::from_str_radix(digits, radix).ok();
    size.filter(|_| is_number).ok_or_else(found)
}
