//! The sample: run through from its description to a table that reads back, and `onerom-bench sample`, which
//! writes its files.

use std::ffi::OsString;
use std::path::Path;
use std::process::ExitCode;

use onerom::{ByteOrder, Description};
use onerom_bench::text;

use super::layout::print_layouts;
use super::verify::verified;
use super::{Command, Flags};
use crate::ending::{Done, Fault, say};
use crate::outputs::{make_folder, write_new};
use crate::{SAMPLE, SAMPLE_A};

/// What the program does without a command.
pub const SUMMARY: &str = "Runs the sample, a 2764, to a table that reads back";

pub const SAMPLE_FILES: Command = Command {
    name: "sample",
    words: "[FOLDER]",
    summary: "Writes the sample's files, to try the commands on",
    help: "\
Reads no file. Writes 2764.txt, the sample's description, 2764a.txt, the same
chip on a board with the smaller RP2350A, and 2764.bin, the 8192 bytes of the
ROM, to FOLDER, which is made if it is not there, or else to the folder that it
runs in. The byte at an address is the address's low byte plus 31 times its high
byte, modulo 256. No file is replaced: where one of the three is there already,
none is written.

Exit codes: 0 written; 2 other words, or a file that cannot be written.

Example:
    onerom-bench sample
",
    flags: &[],
    run,
};

const DESCRIPTION: &str = "2764.txt";
const DESCRIPTION_A: &str = "2764a.txt";
const ROM: &str = "2764.bin";
const ROM_BYTES: u32 = 8192;

/// No two address lines count for the same, so that lines which change places show.
fn rom_byte(address: u32) -> u8 {
    (address & 0xff).wrapping_add(31 * (address >> 8)) as u8
}

fn rom_bytes() -> Vec<u8> {
    (0..ROM_BYTES).map(rom_byte).collect()
}

fn sample() -> Result<Description, Fault> {
    text::read(SAMPLE).map_err(|why| Fault::File(format!("sample, {why}")))
}

/// Lays the sample out, builds its table and reads that back.
pub fn run_through() -> Done {
    let slot = sample()?;
    print_layouts(&slot)?;
    let rom = rom_bytes();
    let verified = verified(&slot, &[Some(&rom)], ByteOrder::default())?;
    say(&format!("\ntable of {} bytes\n", verified.table_bytes))?;
    say(&format!("{verified}\n"))?;
    Ok(ExitCode::SUCCESS)
}

fn run(words: &[OsString], _: &Flags) -> Done {
    let folder = match words {
        [] => Path::new(""),
        [folder] => Path::new(folder),
        _ => return Err(Fault::Words),
    };
    make_folder(folder)?;
    let files = [DESCRIPTION, DESCRIPTION_A, ROM].map(|name| folder.join(name));
    let [description, description_a, rom] = &files;
    write_new(&[
        (description, SAMPLE.as_bytes()),
        (description_a, SAMPLE_A.as_bytes()),
        (rom, &rom_bytes()),
    ])?;
    let [text, text_a, bytes] = files.each_ref().map(|file| file.display());
    say(&format!(
        "{text}: description of a 2764 on a 28-pin board\n\
         {text_a}: the same chip on a board with the smaller RP2350A\n\
         {bytes}: the ROM of both, {ROM_BYTES} bytes\n"
    ))?;
    say(&next_commands(folder))?;
    Ok(ExitCode::SUCCESS)
}

/// What can be typed then.
fn next_commands(folder: &Path) -> String {
    let file = |name: &str| quoted(&folder.join(name));
    let [description, description_a, rom] = [DESCRIPTION, DESCRIPTION_A, ROM].map(file);
    let [slot, table, back] = ["slot.txt", "table.bin", "back.bin"].map(file);
    format!(
        "
next:
    onerom-bench layout {description} {slot}
    onerom-bench page {description}
    onerom-bench build {description} {table} {rom}
    onerom-bench read-back {slot} {table} {back}
    onerom-bench verify {description} {rom}
    onerom-bench verify {description_a} {rom}
"
    )
}

/// A name as a shell takes it.
fn quoted(file: &Path) -> String {
    let name = file.to_string_lossy();
    let is_plain = |letter: char| letter.is_ascii_alphanumeric() || "/._-".contains(letter);
    if name.chars().all(is_plain) {
        name.into()
    } else {
        format!("'{}'", name.replace('\'', r"'\''"))
    }
}
