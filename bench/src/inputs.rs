//! The files that the commands read.

use std::ffi::OsString;
use std::fs::File;
use std::io::{self, Read};
use std::path::{Path, PathBuf};

use onerom::images::LARGEST_CHIP;
use onerom::{ByteOrder, Description};
use onerom_bench::text;
use onerom_bench::text::{Included, Ordered, TextError};

use crate::byte_order::byte_order;
use crate::commands::Flags;
use crate::ending::Fault;
use crate::hex_files::{HEX, READ_AT_MOST, chip_of, is_hex};

/// A chip's file that is none: the chip has no bytes, or its bytes are not written.
pub const NO_FILE: &str = "-";

/// More than any description or stored slot needs.
const LONGEST_TEXT: usize = 1 << 20;

type Image = Option<Vec<u8>>;

/// A slot and its chips' bytes.
pub struct Inputs {
    pub slot: Description,
    /// That of the chips' bytes.
    pub order: ByteOrder,
    /// All that is read: the description, what it includes, and the chips' files.
    pub files: Vec<PathBuf>,
    /// What is to be said of texts of Intel HEX that leave bytes open.
    pub open: String,
    images: Vec<Image>,
}

/// The flag by which a chip's file may have any length.
pub const ANY_LENGTH: &str = "--any-length";

impl Inputs {
    /// From a description's file and one for each chip, which has just the chip's bytes unless any
    /// length will do, or is a text of Intel HEX.
    pub fn read(file: &Path, chips: &[OsString], flags: &Flags) -> Result<Self, Fault> {
        let (Ordered { slot, order }, mut files) = described(file)?;
        let order = byte_order(file, order.as_ref(), flags)?;
        expect_files(file, "chips", slot.chips.len(), chips)?;
        let (mut open, mut images) = (String::new(), Vec::new());
        for (chip, described) in chips.iter().zip(&slot.chips) {
            let size = described.size as usize;
            images.push(if chip == NO_FILE {
                None
            } else if is_hex(Path::new(chip), flags) {
                let (bytes, said) = from_text(Path::new(chip), size)?;
                open += &said;
                Some(bytes)
            } else {
                let expected = (!flags.has(ANY_LENGTH)).then_some(size);
                Some(image(Path::new(chip), expected)?)
            });
        }
        files.extend(chips.iter().map(PathBuf::from));
        Ok(Self {
            slot,
            order,
            files,
            open,
            images,
        })
    }

    pub fn images(&self) -> Vec<Option<&[u8]>> {
        self.images.iter().map(Option::as_deref).collect()
    }
}

/// The slot that a file describes with the byte order, and all files that it is read from.
pub fn described(file: &Path) -> Result<(Ordered<Description>, Vec<PathBuf>), Fault> {
    let (slot, files) = text_of(file, |text, files| {
        if text::is_slot(text) {
            return Ok(None);
        }
        text::read_ordered(text, &mut |name| files.open(name)).map(Some)
    })?;
    let slot = slot.ok_or_else(|| {
        let why =
            "expected a description, found a stored slot, which `onerom-bench read-back` takes";
        Fault::of_file(file, why)
    })?;
    Ok((slot, files))
}

/// The files that a text is read from.
pub struct Files(Vec<PathBuf>);

impl Files {
    /// A file that the first one includes, by its name from that one's folder.
    pub fn open(&mut self, name: &str) -> Result<Included, String> {
        let folder = self.0.first().and_then(|file| file.parent());
        let file = folder.unwrap_or(Path::new("")).join(name);
        let bytes = text_bytes(&file)?;
        let name = file.display().to_string();
        self.0.push(file);
        Ok(Included { name, bytes })
    }
}

/// What a text file says, and all files that it is read from.
pub fn text_of<T>(
    file: &Path,
    read: impl FnOnce(&str, &mut Files) -> Result<T, TextError>,
) -> Result<(T, Vec<PathBuf>), Fault> {
    let bytes = text_bytes(file).map_err(Fault::File)?;
    let mut files = Files(vec![file.into()]);
    match text::of_bytes(&bytes).and_then(|text| read(text, &mut files)) {
        Ok(told) => Ok((told, files.0)),
        Err(why) => {
            let own = || file.display().to_string();
            let name = why.file.clone().unwrap_or_else(own);
            Err(Fault::File(format!("{name}, {why}")))
        }
    }
}

/// The bytes of a text file; else why it is none, its name first.
fn text_bytes(file: &Path) -> Result<Vec<u8>, String> {
    let named = |why: String| format!("{}: {why}", file.display());
    let bytes = first_bytes(file, LONGEST_TEXT + 1).map_err(|why| named(why.to_string()))?;
    if bytes.len() > LONGEST_TEXT {
        let why = format!("expected at most {LONGEST_TEXT} bytes of text");
        return Err(named(why));
    }
    Ok(bytes)
}

/// A file for each chip or ROM of the slot that a file has.
pub fn expect_files(
    file: &Path,
    parts: &str,
    wanted: usize,
    files: &[OsString],
) -> Result<(), Fault> {
    let given = files.len();
    if wanted != given {
        let why = format!("expected as many chip files as {parts}, {wanted}, found {given}");
        return Err(Fault::of_file(file, why));
    }
    Ok(())
}

/// A chip's bytes from a text of Intel HEX, and what is to be said of those that it leaves open.
fn from_text(file: &Path, size: usize) -> Result<(Vec<u8>, String), Fault> {
    let text = bytes_up_to(file, READ_AT_MOST)?;
    chip_of(file, &text, size)
}

/// A chip's bytes, as many as expected where that is said; no chip has more than the largest.
fn image(file: &Path, expected: Option<usize>) -> Result<Vec<u8>, Fault> {
    let Some(size) = expected else {
        return bytes_up_to(file, LARGEST_CHIP);
    };
    let bytes = bytes_up_to(file, LARGEST_CHIP + 1)?;
    match not_a_dump(&bytes, size) {
        None => Ok(bytes),
        Some(why) => Err(Fault::of_file(file, why)),
    }
}

/// Why bytes are no dump of a chip of this size, and the flag that takes them all the same.
fn not_a_dump(bytes: &[u8], size: usize) -> Option<String> {
    let form = text_form(bytes);
    if form.is_none() && bytes.len() == size {
        return None;
    }
    let found = match bytes.len() {
        length if length > LARGEST_CHIP => format!("more than {LARGEST_CHIP}"),
        length => length.to_string(),
    };
    let taken = match form {
        Some(INTEL_HEX) => format!("{HEX} reads it, {ANY_LENGTH} takes it as it is"),
        _ => format!("{ANY_LENGTH} takes it"),
    };
    let form = form.map_or(String::new(), |form| {
        format!(", and they begin like a text of {form}")
    });
    Some(format!(
        "expected the chip's {size} bytes, found {found}{form}; {taken}"
    ))
}

const INTEL_HEX: &str = "Intel HEX";

/// The form of text in which dumps are exchanged that the first line has.
fn text_form(bytes: &[u8]) -> Option<&'static str> {
    let line = bytes.split(|&byte| byte == b'\n').next()?;
    let line = line.strip_suffix(b"\r").unwrap_or(line);
    let is_digits = |digits: &[u8], fewest: usize| {
        let even = digits.len().is_multiple_of(2) && digits.len() >= fewest;
        even && digits.iter().all(u8::is_ascii_hexdigit)
    };
    match line {
        [b':', digits @ ..] if is_digits(digits, 10) => Some(INTEL_HEX),
        [b'S', kind, digits @ ..] if kind.is_ascii_digit() && is_digits(digits, 6) => {
            Some("S-records")
        }
        _ => None,
    }
}

/// A file's first bytes. The rest is left in the file, which may have no end.
pub fn bytes_up_to(file: &Path, most: usize) -> Result<Vec<u8>, Fault> {
    first_bytes(file, most).map_err(|why| Fault::of_file(file, why))
}

fn first_bytes(file: &Path, most: usize) -> io::Result<Vec<u8>> {
    let mut bytes = Vec::new();
    let file = File::open(file)?;
    file.take(most as u64).read_to_end(&mut bytes)?;
    Ok(bytes)
}
