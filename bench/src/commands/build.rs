//! `onerom-bench build`: from a description and the chips' files to a table's file.

use std::ffi::OsString;
use std::path::Path;
use std::process::ExitCode;

use onerom::build_rom_image;

use super::verify::verified;
use super::{Command, Flags};
use crate::byte_order::{Dumps, HIGH_FIRST};
use crate::ending::{Done, Fault, complain, say};
use crate::hex_files::HEX;
use crate::hints::hinted;
use crate::inputs::{ANY_LENGTH, Inputs, NO_FILE};
use crate::laid_out;
use crate::outputs::{keep, write_out, write_whole};
use crate::reach::{PART, parts_served};
use crate::wiring::complaints;

/// The flag by which a table is written that does not read back.
const UNVERIFIED: &str = "--unverified";

pub const BUILD: Command = Command {
    name: "build",
    words: "[FLAG..] FILE TABLE CHIP..",
    summary: "Builds the slot's table from a file for each chip",
    help: "\
Reads FILE, a description, and a CHIP file for each of its chips, in order; `-`
is a chip without bytes. A chip's file has just the chip's bytes; with
--any-length it may be longer, and of a shorter one the build is refused. One
whose name ends in .hex or .ihx is read as Intel HEX into a chip of its size,
and with --hex they all are; --any-length says nothing of these.

With --high-first, or with a line `order high` in FILE, the chips' files are
high byte first: of the two bytes of a word the first is the high one. The
table's entries are low byte first all the same, and words of one byte have no
order.

Writes the table's bytes, and nothing else, to TABLE: when the table is built,
whole or not at all; `-` is the standard output. TABLE may replace a file that
is there, but none that is read and none that is read-only.

A table that does not read back as the chips, which can only be if the slot is
not well wired, is not written unless --unverified is given. Where the address
lines in use do not reach all words of a chip, and no excess line explains it,
nothing is written; --part accepts it.

Exit codes: 0 built; 1 a search, the build or a text of Intel HEX is refused,
the table does not read back, or words of a chip are not reached; 2 other words,
or a file that cannot be used.

Example:
    onerom-bench build 2764.txt table.bin 2764.bin
",
    flags: &[ANY_LENGTH, HEX, HIGH_FIRST, PART, UNVERIFIED],
    run,
};

/// Builds the table of the slot that the first file describes, by the layouts that are found and
/// the chips' files, and writes it to the second.
fn run(words: &[OsString], flags: &Flags) -> Done {
    let [file, table, chips @ ..] = words else {
        return Err(Fault::Words);
    };
    if chips.is_empty() {
        return Err(Fault::Words);
    }
    let (file, table) = (Path::new(file), Path::new(table));
    let inputs = Inputs::read(file, chips, flags)?;
    let dumps = Dumps::of(&inputs.slot, inputs.order);
    if table == Path::new(NO_FILE) {
        let (bytes, parts) = built(&inputs, flags)?;
        complain(&(parts + &dumps.note()));
        write_out(&bytes)?;
        return Ok(ExitCode::SUCCESS);
    }
    keep(&inputs.files, "table", table)?;
    let (bytes, parts) = built(&inputs, flags)?;
    write_whole(&[(table, &bytes)])?;
    let (name, length) = (table.display(), bytes.len());
    let order = dumps.told(", chips ");
    say(&format!("{name}: table of {length} bytes{order}\n{parts}"))?;
    complain(&dumps.note());
    Ok(ExitCode::SUCCESS)
}

/// The table, and what is to be said of the wiring, of chips that it serves in part and of texts that
/// leave bytes open.
fn built(inputs: &Inputs, flags: &Flags) -> Result<(Vec<u8>, String), Fault> {
    let (slot, images, order) = (&inputs.slot, inputs.images(), inputs.order);
    let of_slot = |refusal| hinted(slot, &images, refusal);
    let (addr, cs_data) = laid_out(slot).map_err(of_slot)?;
    let wrong = complaints(slot, &addr)?;
    let parts = wrong + &parts_served(slot, &addr, flags.has(PART))? + &inputs.open;
    if !flags.has(UNVERIFIED) {
        verified(slot, &images, order)?;
    }
    let table = build_rom_image(slot, &addr, &cs_data, &images, order).map_err(of_slot)?;
    Ok((table, parts))
}
