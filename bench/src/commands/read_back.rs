//! `onerom-bench read-back`: from a slot and its table's file to the ROMs' files.

use std::borrow::Cow;
use std::ffi::OsString;
use std::fs;
use std::path::{Path, PathBuf};
use std::process::ExitCode;

use onerom::interface::refusals::WRONG_SIZE;
use onerom::{ByteOrder, Description, StoredSlot, hex_text, unscramble_slot};
use onerom_bench::text::{self, Ordered, TextError};

use super::{Command, Flags};
use crate::byte_order::{Dumps, HIGH_FIRST, byte_order};
use crate::ending::{Done, Fault, complain, say};
use crate::hex_files::{HEX, is_hex};
use crate::hints::hinted;
use crate::inputs::{Files, NO_FILE, bytes_up_to, expect_files, text_of};
use crate::laid_out;
use crate::outputs::{Output, is_same, keep, write_out, write_whole};
use crate::reach::{PART, parts_served};

pub const READ_BACK: Command = Command {
    name: "read-back",
    words: "[FLAG..] FILE TABLE CHIP..",
    summary: "Reads a table back into a file for each ROM",
    help: "\
Reads FILE, a description or a stored slot of `layout`, and TABLE, the bytes
that are stored. From a description both searches run, and the table is taken
to be built by what they find. Writes each ROM's bytes to its CHIP file, in
order, a plugin's to the only one; as Intel HEX where the file's name ends in
.hex or .ihx, and with --hex to each. Of several, `-` is a ROM that is not
written; the only one goes to the standard output by it. The files are written
when all ROMs are read, each whole or not at all. They may replace files that
are there, but none that is read.

With --high-first, or with a line `order high` in FILE, the CHIP files are
written high byte first: of the two bytes of a word the first is the high one.
The table's entries are read low byte first all the same; words of one byte and
plugins have no order. A table does not say by which order it was built: name
the same one.

Where a ROM has more words than its address lines reach, and no excess line of
the description explains it, nothing is written; --part accepts it.

Exit codes: 0 read back; 1 a search or the read-back refuses, or a ROM comes
back in part; 2 other words, or a file that cannot be used.

Example:
    onerom-bench read-back slot.txt table.bin rom.bin
",
    flags: &[HEX, HIGH_FIRST, PART],
    run,
};

/// More bytes than the flash of any board has. A plugin can declare up to 4 GiB, but what no board
/// stores need not be held in memory.
const LARGEST_STORED: usize = 1 << 26;

fn run(words: &[OsString], flags: &Flags) -> Done {
    let [file, table, chips @ ..] = words else {
        return Err(Fault::Words);
    };
    let (file, table) = (Path::new(file), Path::new(table));
    let Found {
        slot,
        dumps,
        parts,
        mut files,
    } = stored_slot(file, flags)?;
    let wanted = slot.lengths(0).len();
    expect_files(file, "ROMs", wanted, chips)?;
    let chips: Vec<&Path> = chips.iter().map(Path::new).collect();
    expect_written(&chips)?;
    files.push(table.into());
    keep_apart(&files, &chips)?;
    let stored = stored_bytes(table, &slot)?;
    let roms = roms(table, &slot, &stored, dumps.order)?;
    if !flags.has(PART) && parts.is_none() {
        expect_whole(&slot, &roms)?;
    }
    let parts = parts.unwrap_or_default();
    let contents = contents(&chips, &roms, flags)?;
    if let ([chip], [content]) = (&chips[..], &contents[..])
        && !is_written(chip)
    {
        complain(&(parts + &dumps.note()));
        write_out(content)?;
        return Ok(ExitCode::SUCCESS);
    }
    write(&chips, &contents)?;
    say(&told_files(&slot, &chips, &roms, flags, dumps))?;
    say(&parts)?;
    complain(&dumps.note());
    Ok(ExitCode::SUCCESS)
}

/// The ROMs' bytes from those that are stored.
fn roms(
    table: &Path,
    slot: &StoredSlot,
    stored: &[u8],
    order: ByteOrder,
) -> Result<Vec<Vec<u8>>, Fault> {
    unscramble_slot(slot, stored, order).map_err(|refusal| match refusal.number {
        WRONG_SIZE => Fault::Hinted(refusal, lengths(table, slot, stored)),
        _ => refusal.into(),
    })
}

/// What the files are to have: the ROMs' bytes, or texts of them.
fn contents<'a>(
    chips: &[&Path],
    roms: &'a [Vec<u8>],
    flags: &Flags,
) -> Result<Vec<Cow<'a, [u8]>>, Fault> {
    let content = |(chip, rom): (&&Path, &'a Vec<u8>)| {
        Ok(if is_hex(chip, flags) {
            Cow::Owned(hex_text(rom)?)
        } else {
            Cow::Borrowed(&rom[..])
        })
    };
    chips.iter().zip(roms).map(content).collect()
}

/// A ROM at least is wanted: `-` for each of several would write none.
fn expect_written(chips: &[&Path]) -> Result<(), Fault> {
    if chips.len() > 1 && !chips.iter().any(|chip| is_written(chip)) {
        let why = "expected a file for one of the ROMs, found `-` for each";
        return Err(Fault::File(why.into()));
    }
    Ok(())
}

/// A stored slot has no excess lines that would explain why a ROM comes back in part.
fn expect_whole(slot: &StoredSlot, roms: &[Vec<u8>]) -> Result<(), Fault> {
    if slot.kind.is_plugin() {
        return Ok(());
    }
    let word_bytes = slot.word_bytes();
    let mut parts = Vec::new();
    for (number, (rom, read)) in slot.roms.iter().zip(roms).enumerate() {
        let has = rom.size as usize / word_bytes;
        let stored = read.len() / word_bytes;
        if stored < has {
            parts.push(format!(
                "ROM {number}: {stored} of {has} words are stored\n"
            ));
        }
    }
    if parts.is_empty() {
        return Ok(());
    }
    let parts = parts.concat();
    Err(Fault::Different(format!("{parts}{PART} accepts it")))
}

/// A file's text: the slot itself, or what it is found from.
enum Told {
    Slot(Ordered<StoredSlot>),
    Described(Box<Ordered<Description>>),
}

fn told(text: &str, files: &mut Files) -> Result<Told, TextError> {
    if text::is_slot(text) {
        return text::read_ordered_slot(text).map(Told::Slot);
    }
    let slot = text::read_ordered(text, &mut |name| files.open(name))?;
    Ok(Told::Described(Box::new(slot)))
}

/// What a file's text comes to.
struct Found {
    slot: StoredSlot,
    dumps: Dumps,
    /// Where it is found from a description, what is to be said of chips that it serves in part.
    parts: Option<String>,
    /// All files that it is read from.
    files: Vec<PathBuf>,
}

fn stored_slot(file: &Path, flags: &Flags) -> Result<Found, Fault> {
    let (told, files) = text_of(file, told)?;
    let order = match &told {
        Told::Slot(told) => &told.order,
        Told::Described(told) => &told.order,
    };
    let order = byte_order(file, order.as_ref(), flags)?;
    let (slot, parts) = match told {
        Told::Slot(told) => (told.slot, None),
        Told::Described(told) => {
            let slot = told.slot;
            let of_slot = |refusal| hinted(&slot, &[], refusal);
            let (addr, cs_data) = laid_out(&slot).map_err(of_slot)?;
            let parts = parts_served(&slot, &addr, flags.has(PART))?;
            let stored = StoredSlot::of_layouts(&slot, &addr, &cs_data);
            (stored, Some(parts))
        }
    };
    Ok(Found {
        dumps: Dumps::of_stored(&slot, order),
        slot,
        parts,
        files,
    })
}

/// The bytes that are stored: one more than declared at most, by which the library can tell that
/// the file is longer.
fn stored_bytes(table: &Path, slot: &StoredSlot) -> Result<Vec<u8>, Fault> {
    let declared = slot.size as usize;
    let bytes = bytes_up_to(table, declared.min(LARGEST_STORED) + 1)?;
    if bytes.len() > LARGEST_STORED && declared > LARGEST_STORED {
        let why = format!("expected at most {LARGEST_STORED} bytes, more than any board stores");
        return Err(Fault::of_file(table, why));
    }
    Ok(bytes)
}

/// The declared length beside the one that is found. Of a file that is longer no more is read than
/// shows it, but a plain file's length is known.
fn lengths(table: &Path, slot: &StoredSlot, stored: &[u8]) -> String {
    let declared = slot.size;
    let plain = fs::metadata(table).ok().filter(|found| found.is_file());
    let found = match plain {
        Some(plain) => plain.len().to_string(),
        None if stored.len() > declared as usize => "more".into(),
        None => stored.len().to_string(),
    };
    let name = table.display();
    format!("{declared} bytes are declared, and {name} has {found}")
}

/// No ROM's file takes the place of one that is read, nor of another ROM's.
fn keep_apart(read: &[PathBuf], chips: &[&Path]) -> Result<(), Fault> {
    let written = chips.iter().enumerate();
    for (number, chip) in written.filter(|(_, chip)| is_written(chip)) {
        keep(read, "ROM", chip)?;
        let mut before = chips[..number].iter().filter(|chip| is_written(chip));
        if before.any(|one| is_same(one, chip)) {
            return Err(Fault::of_file(chip, "expected another file for each ROM"));
        }
    }
    Ok(())
}

fn is_written(chip: &Path) -> bool {
    chip != Path::new(NO_FILE)
}

fn write(chips: &[&Path], contents: &[Cow<[u8]>]) -> Result<(), Fault> {
    let outputs = chips
        .iter()
        .copied()
        .zip(contents.iter().map(|own| &own[..]));
    let written: Vec<Output> = outputs.filter(|(chip, _)| is_written(chip)).collect();
    write_whole(&written)
}

/// A line for each ROM: where it is, how many bytes it has, and in which order if not as usual.
fn told_files(
    slot: &StoredSlot,
    chips: &[&Path],
    roms: &[Vec<u8>],
    flags: &Flags,
    dumps: Dumps,
) -> String {
    let line = |(number, (chip, rom)): (usize, (&&Path, &Vec<u8>))| {
        let what = if slot.kind.is_plugin() {
            "plugin".into()
        } else {
            format!("ROM {number}")
        };
        let (how, order) = match chip {
            chip if !is_written(chip) => (", not written", String::new()),
            chip if is_hex(chip, flags) => (" as Intel HEX", dumps.told(", ")),
            _ => ("", dumps.told(", ")),
        };
        let (name, length) = (chip.display(), rom.len());
        format!("{name}: {what}, {length} bytes{how}{order}\n")
    };
    chips.iter().zip(roms).enumerate().map(line).collect()
}
