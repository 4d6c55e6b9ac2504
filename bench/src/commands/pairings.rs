//! `onerom-bench pairings`: every board of a folder with every chip of another.

use std::ffi::OsString;
use std::path::{Path, PathBuf};
use std::process::ExitCode;
use std::{fs, io};

use onerom::derive_addr_layout;
use onerom_bench::text::{self, Board, ChipFacts, TextError};

use super::{Command, Flags};
use crate::ending::{Done, Fault, counted, say};
use crate::inputs::{Files, NO_FILE, text_of};
use crate::outputs::{keep, write_whole};
use crate::pairings::table::tables;
use crate::pairings::{Named, Outcome, Pairing, SETS, csv, tried};
use crate::reach::words_lost;
use crate::wiring::complaints;

/// The flag by which sets are tried too.
const ALL_SETS: &str = "--sets";

/// The flag that names a file for a program to read.
const CSV: &str = "--csv FILE";

pub const PAIRINGS: Command = Command {
    name: "pairings",
    words: "[FLAG..] BOARDS CHIPS",
    summary: "Tries every board of a folder with every chip of another",
    help: "\
Reads every file *.txt of the folders BOARDS and CHIPS, in the order of their
names: lines of a description, a board's (socket, package a or b, pin, x1, x2,
offset, limit) and a chip's (word, chip, package with its pins, address, data,
control, settings, qualifiers). Lays out each chip on each board, builds a table
of made bytes and reads it back. A chip sits at the bottom of a larger socket,
unless the board has an `offset` line; one with more pins than the socket is not
tried, unless that line is below 0. A board's `set` and `multi` lines are not
looked at, and how its pins are wired is taken as told.

Writes a table to the standard output, boards down and chips across, and below
it what its marks mean: `ok` reads back whole, `a3` is refusal 3 of the address
search. --sets tries two and four of each chip as banks, and two and three as a
Multi set, whose select is the chip's first line that is not ignored. --csv
writes FILE too, a line for each pairing: board, chip, set, result, call, number
and place of a refusal. FILE may replace a file that is there, but none that is
read.

Exit codes: 0 tried; 1 a table is built that does not give the chip back, or a
slot that reads back is not well wired; 2 other words, or a file that cannot be
used.

Example:
    onerom-bench pairings boards chips
",
    flags: &[ALL_SETS, CSV],
    run,
};

fn run(words: &[OsString], flags: &Flags) -> Done {
    let [boards, chips] = words else {
        return Err(Fault::Words);
    };
    let mut files = Vec::new();
    let board =
        |text: &str, files: &mut Files| text::read_board(text, &mut |name| files.open(name));
    let chip = |text: &str, files: &mut Files| text::read_chip(text, &mut |name| files.open(name));
    let boards: Vec<Named<Board>> = all(Path::new(boards), &mut files, board)?;
    let chips: Vec<Named<ChipFacts>> = all(Path::new(chips), &mut files, chip)?;
    let list = flags.word(CSV).map(Path::new);
    if let Some(list) = list {
        expect_file(list)?;
        keep(&files, "list", list)?;
    }
    let sets = if flags.has(ALL_SETS) {
        &SETS
    } else {
        &SETS[..1]
    };
    let pairings = tried(&boards, &chips, sets);
    say(&tables(&pairings))?;
    if let Some(list) = list {
        write_whole(&[(list, csv::lines(&pairings).as_bytes())])?;
        let (name, count) = (list.display(), counted(pairings.len(), "pairing"));
        say(&format!("{name}: {count}\n"))?;
    }
    faults(&pairings)?;
    Ok(ExitCode::SUCCESS)
}

fn expect_file(list: &Path) -> Result<(), Fault> {
    if list == Path::new(NO_FILE) {
        let why = "expected a file's name: the table goes to the standard output";
        return Err(Fault::of_file(list, why));
    }
    Ok(())
}

/// What the texts of a folder tell, by their names; the files that are read go to the list.
fn all<T>(
    folder: &Path,
    files: &mut Vec<PathBuf>,
    read: impl Fn(&str, &mut Files) -> Result<T, TextError>,
) -> Result<Vec<Named<T>>, Fault> {
    let mut named = Vec::new();
    for file in texts(folder).map_err(|why| Fault::of_file(folder, why))? {
        let (told, from) = text_of(&file, &read)?;
        let name = file.file_stem().unwrap_or_default();
        let name = name.to_string_lossy().into_owned();
        named.push(Named { name, told });
        files.extend(from);
    }
    if named.is_empty() {
        let why = "expected files with names that end in .txt, found none";
        return Err(Fault::of_file(folder, why));
    }
    Ok(named)
}

/// The folder's files *.txt in the order of their names. As a shell has it, a name that begins with
/// a dot is none of them: editors keep their own there.
fn texts(folder: &Path) -> io::Result<Vec<PathBuf>> {
    let files = fs::read_dir(folder)?.map(|file| Ok(file?.path()));
    let mut files = files.collect::<io::Result<Vec<PathBuf>>>()?;
    files.retain(|file| {
        let name = file.file_name().unwrap_or_default().as_encoded_bytes();
        name.ends_with(b".txt") && !name.starts_with(b".")
    });
    files.sort();
    Ok(files)
}

/// How many pairings are told one by one.
const MOST_TOLD: usize = 10;

/// Tells which pairings should read back and do not, and why.
fn faults(pairings: &[Pairing]) -> Result<(), Fault> {
    let faults = || pairings.iter().filter(|one| one.outcome.is_fault());
    let count = faults().count();
    if count == 0 {
        return Ok(());
    }
    let mut lines: Vec<String> = faults().take(MOST_TOLD).map(fault).collect();
    if count > MOST_TOLD {
        lines.push(format!("and {} more", count - MOST_TOLD));
    }
    Err(Fault::Different(lines.join("\n")))
}

fn fault(pairing: &Pairing) -> String {
    let (board, chip, set) = (&pairing.board.name, &pairing.chip.name, pairing.set.name);
    let mut why = match &pairing.outcome {
        Outcome::Refused(refusal) => vec![format!("{} refused: {refusal}", refusal.call)],
        Outcome::Different => vec!["a word comes back as another".into()],
        _ => vec![],
    };
    why.extend(reasons(pairing).unwrap_or_default());
    format!("board {board}, chip {chip}, {set}: {}", why.join("; "))
}

/// What a look at the slot has to say of it.
fn reasons(pairing: &Pairing) -> Option<Vec<String>> {
    let slot = pairing.slot().ok()?;
    let addr = derive_addr_layout(&slot).ok()?;
    let wrong = complaints(&slot, &addr).ok()?;
    let wrong = wrong.lines().map(str::to_string);
    Some(wrong.chain(words_lost(&slot, &addr)).collect())
}
