//! `onerom-bench verify`: whether the table of a description and its chips' files reads back as the chips.

use std::ffi::OsString;
use std::fmt;
use std::path::Path;
use std::process::ExitCode;

use onerom::slot::words;
use onerom::{
    ByteOrder, Call, Description, Refusal, RoundTrip, StoredSlot, build_rom_image,
    derive_addr_layout, round_trip, unscramble_slot,
};

use super::{Command, Flags};
use crate::byte_order::{Dumps, HIGH_FIRST};
use crate::ending::{Done, Fault, complain, counted, say};
use crate::hex_files::HEX;
use crate::hints::hinted;
use crate::inputs::{ANY_LENGTH, Inputs};
use crate::laid_out;
use crate::reach::{PART, parts_served};
use crate::wiring::complaints;

pub const VERIFY: Command = Command {
    name: "verify",
    words: "[FLAG..] FILE CHIP..",
    summary: "Tries whether the slot's table reads back as the chips",
    help: "\
Reads FILE, a description, and a CHIP file for each of its chips, in order; `-`
is a chip without bytes. A chip's file has just the chip's bytes; with
--any-length it may be longer. One whose name ends in .hex or .ihx is read as
Intel HEX into a chip of its size, and with --hex they all are. Builds the table
and reads it back, and holds what comes back against the files. Writes no file,
and the answer to the standard output.

With --high-first, or with a line `order high` in FILE, the chips' files are
high byte first: of the two bytes of a word the first is the high one. Words of
one byte have no order.

Where the slot is not well wired it says why: with other bytes it may not read
back, or the board may answer when it should not. Where the address lines in
use do not reach all words of a chip, and no excess line explains it, that is
told; --part accepts it.

Exit codes: 0 it reads back; 1 one of the four calls or a text of Intel HEX is
refused, a word comes back as another, or words of a chip are not reached; 2
other words, or a file that cannot be used.

Example:
    onerom-bench verify 2764.txt 2764.bin
",
    flags: &[ANY_LENGTH, HEX, HIGH_FIRST, PART],
    run,
};

/// Builds the table of the slot that the file describes, reads it back, and holds what comes back
/// against the chips' files.
fn run(words: &[OsString], flags: &Flags) -> Done {
    let [file, chips @ ..] = words else {
        return Err(Fault::Words);
    };
    if chips.is_empty() {
        return Err(Fault::Words);
    }
    let inputs = Inputs::read(Path::new(file), chips, flags)?;
    let verified = verified(&inputs.slot, &inputs.images(), inputs.order)?;
    let addr = derive_addr_layout(&inputs.slot)?;
    let wrong = complaints(&inputs.slot, &addr)?;
    let parts = parts_served(&inputs.slot, &addr, flags.has(PART))?;
    say(&format!("{verified}\n{wrong}{parts}{}", inputs.open))?;
    complain(&verified.dumps.note());
    Ok(ExitCode::SUCCESS)
}

/// What read back.
pub struct Verified {
    pub table_bytes: usize,
    words: usize,
    chips: usize,
    dumps: Dumps,
}

impl fmt::Display for Verified {
    fn fmt(&self, f: &mut fmt::Formatter<'_>) -> fmt::Result {
        let words = counted(self.words, "word");
        let chips = counted(self.chips, "chip");
        write!(f, "reads back: {words} of {chips}{}", self.dumps.told(", "))
    }
}

/// Builds a slot's table and reads it back: all that comes back, or the first word that comes back
/// as another.
pub fn verified(
    slot: &Description,
    images: &[Option<&[u8]>],
    order: ByteOrder,
) -> Result<Verified, Fault> {
    tried(slot, images, order).map_err(|fault| because(slot, fault))
}

/// What does not read back, with what is wrong with the wiring: a well wired slot does.
fn because(slot: &Description, fault: Fault) -> Fault {
    let addr = derive_addr_layout(slot).ok();
    let wrong = addr.and_then(|addr| complaints(slot, &addr).ok());
    let wrong = wrong.unwrap_or_default().trim_end().to_string();
    match fault {
        _ if wrong.is_empty() => fault,
        Fault::Refused(refusal) if refusal.call == Call::ReadBack => Fault::Hinted(refusal, wrong),
        Fault::Different(what) => Fault::Different(format!("{what}\n{wrong}")),
        fault => fault,
    }
}

fn tried(
    slot: &Description,
    images: &[Option<&[u8]>],
    order: ByteOrder,
) -> Result<Verified, Fault> {
    let of_slot = |refusal| hinted(slot, images, of_step(slot, images, order, refusal));
    let trip = round_trip(slot, images, order).map_err(of_slot)?;
    let addr = derive_addr_layout(slot)?;
    let words = compared(slot, addr.lines.len(), images, order, &trip)
        .map_err(|difference| Fault::Different(format!("does not read back: {difference}")))?;
    Ok(Verified {
        table_bytes: trip.table.len(),
        words,
        chips: images.len(),
        dumps: Dumps::of(slot, order),
    })
}

/// The refusal of a round trip as that of the call among the four that gave it.
fn of_step(
    slot: &Description,
    images: &[Option<&[u8]>],
    order: ByteOrder,
    refusal: Refusal,
) -> Refusal {
    let is_same = |step: &Refusal| (step.number, step.place) == (refusal.number, refusal.place);
    let step = in_turn(slot, images, order).err().filter(is_same);
    step.unwrap_or(refusal)
}

/// The calls of a round trip one by one.
fn in_turn(slot: &Description, images: &[Option<&[u8]>], order: ByteOrder) -> Result<(), Refusal> {
    let (addr, cs_data) = laid_out(slot)?;
    let table = build_rom_image(slot, &addr, &cs_data, images, order)?;
    let stored = StoredSlot::of_layouts(slot, &addr, &cs_data);
    unscramble_slot(&stored, &table, order).map(drop)
}

/// Holds each chip's words that so many address lines reach against those that came back.
fn compared(
    slot: &Description,
    lines: usize,
    images: &[Option<&[u8]>],
    order: ByteOrder,
    trip: &RoundTrip,
) -> Result<usize, String> {
    let word_bytes = usize::from(slot.word_bytes);
    let mut read = trip.output.chunks(word_bytes).zip(&trip.marks);
    let mut total = 0;
    for (number, (chip, image)) in slot.chips.iter().zip(images).enumerate() {
        let count = words(chip.size, word_bytes, lines);
        let own = image.unwrap_or_default().chunks(word_bytes);
        for (address, wanted) in own.take(count).enumerate() {
            let (word, &mark) = read.next().unwrap_or((&[], &0));
            if (word, mark) != (wanted, MARKED) {
                let why = difference([wanted, word], order, mark);
                return Err(format!("chip {number}, address {address}: {why}"));
            }
        }
        total += count;
    }
    Ok(total)
}

/// The mark of a word that was read.
const MARKED: u8 = 1;

fn difference(words: [&[u8]; 2], order: ByteOrder, mark: u8) -> String {
    let unmarked = if mark == MARKED { "" } else { ", unmarked" };
    let [wanted, word] = words.map(|word| hex(word, order));
    format!("{wanted} in the chip, {word} from the board{unmarked}")
}

/// The digits of a word, whose bytes stand in this order: those of the high one come first.
fn hex(word: &[u8], order: ByteOrder) -> String {
    let mut digits: Vec<String> = word.iter().map(|byte| format!("{byte:02X}")).collect();
    if order == ByteOrder::LowFirst {
        digits.reverse();
    }
    digits.concat()
}
