//! `onerom-bench compare`, `onerom-bench compare-large`, `onerom-bench replay` and `onerom-bench speed`: the library beside the
//! original; `onerom-bench compare-hex` and `onerom-bench compare-page` beside the model, and `onerom-bench speed-hex` beside
//! other programs.

use std::ffi::{OsStr, OsString};
use std::path::Path;

use super::Command;
use crate::compare::hex::compare_hex;
use crate::compare::page::compare_page;
use crate::compare::{compare, compare_large};
use crate::ending::{Done, Fault};
use crate::replay::replay;
use crate::speed::hex::speed_hex;
use crate::speed::speed;

pub const COMPARE: Command = Command {
    name: "compare",
    words: "SEED COUNT",
    summary: "Holds the library against the original and the model",
    help: "\
Reads no file. Makes COUNT cases of each call from SEED, both numbers from 0,
and three more of each with wrong records, has those that take a byte order run
in both, every slice stand between guard pages, and writes what was seen to the
standard output. High byte first the original judges the same words with their
bytes swapped. Without the original's files the model alone judges.

Exit codes: 0 no difference that is not listed; 1 one that is not; 2 other
words.

Example, some four minutes:
    onerom-bench compare 1 100000
",
    flags: &[],
    run: |words, _| on_cases(words, compare),
};

pub const COMPARE_LARGE: Command = Command {
    name: "compare-large",
    words: "SEED COUNT",
    summary: "Holds builds and read-backs of 512 KiB against them",
    help: "\
The same with builds and read-backs of 512 KiB.

Exit codes: 0 no difference that is not listed; 1 one that is not; 2 other
words.

Example, a dozen seconds:
    onerom-bench compare-large 1 100
",
    flags: &[],
    run: |words, _| on_cases(words, compare_large),
};

pub const COMPARE_HEX: Command = Command {
    name: "compare-hex",
    words: "SEED COUNT",
    summary: "Holds reading and writing of Intel HEX against the model",
    help: "\
Reads no file. Makes COUNT texts of Intel HEX from SEED, both numbers from 0:
one in four is sound, the others have up to three damages, and in some of these
the checksums are mended. Reads each between guard pages, and holds the answer,
the chip's bytes and the line of the fault against the model. What is read is
written again, to a buffer of its length and to one that is too short, and read
back; of chips over 1024 bytes some. Writes how often each answer came to the
standard output.

Exit codes: 0 no difference; 1 one; 2 other words.

Example, half a minute:
    onerom-bench compare-hex 1 1000000
",
    flags: &[],
    run: |words, _| on_cases(words, compare_hex),
};

pub const COMPARE_PAGE: Command = Command {
    name: "compare-page",
    words: "SEED COUNT",
    summary: "Holds the pin page against the model",
    help: "\
Reads no file. Makes COUNT pairs of layouts from SEED, both numbers from 0: many
have lines that share GPIOs, every role stands in every list, some are what the
searches find, and some have a number past its bound, wrong records or any bytes
past the lines that count. Has the pin page of each written between guard pages,
to buffers that are long enough and too short, and holds the answer and all that
is lent against the model. Writes how often each answer came, and how many GPIOs
have two roles or more, to the standard output.

Exit codes: 0 no difference; 1 one; 2 other words.

Example, a dozen seconds:
    onerom-bench compare-page 1 1000000
",
    flags: &[],
    run: |words, _| on_cases(words, compare_page),
};

pub const REPLAY: Command = Command {
    name: "replay",
    words: "FILE",
    summary: "Runs a fixed list of cases, and compares with its answers",
    help: "\
Reads FILE, a case and its answer a line as docs/CASES.md has them. Runs those
that have an exported call and writes how many there are of each kind, how many
differ and the first of these to the standard output. It needs nothing of the
original.

Exit codes: 0 no difference; 1 one, or a line that is no case with its answer; 2
other words, or a file that cannot be used.

Example:
    onerom-bench replay crates/replay/stdin
",
    flags: &[],
    run: |words, _| match words {
        [file] => replay(Path::new(file)),
        _ => Err(Fault::Words),
    },
};

pub const SPEED: Command = Command {
    name: "speed",
    words: "[FILE]",
    summary: "Measures the library and the original",
    help: "\
Writes a table for each call to the standard output and, if FILE is given, into
FILE between the two lines of docs/PERFORMANCE.md that say where the tables go.
It takes a release build. Without the original's files it says so and succeeds.

Exit codes: 0 measured; 1 the two disagree, or no release build; 2 other words,
or a file that cannot be used.

Example, a minute or two:
    onerom-bench speed docs/PERFORMANCE.md
",
    flags: &[],
    run: |words, _| match words {
        [] => speed(None),
        [file] => speed(Some(Path::new(file))),
        _ => Err(Fault::Words),
    },
};

pub const SPEED_HEX: Command = Command {
    name: "speed-hex",
    words: "[FILE]",
    summary: "Measures Intel HEX of 1 MiB, beside objcopy and srec_cat",
    help: "\
Runs `to-hex` and `from-hex`, objcopy and srec_cat in turn on files of its own,
1 MiB of random bytes and its text, and the library's calls alone. Writes a
table of the best times to the standard output and, if FILE is given, into FILE
between the two lines that say where it goes. It takes a release build. A
program that is not there has no time.

Exit codes: 0 measured; 1 a program fails or makes other bytes, or no release
build; 2 other words, or a file that cannot be used.

Example, a few seconds:
    onerom-bench speed-hex
",
    flags: &[],
    run: |words, _| match words {
        [] => speed_hex(None),
        [file] => speed_hex(Some(Path::new(file))),
        _ => Err(Fault::Words),
    },
};

fn on_cases(words: &[OsString], compare: fn(u64, u64) -> Done) -> Done {
    let [seed, count] = words else {
        return Err(Fault::Words);
    };
    match (number(seed), number(count)) {
        (Some(seed), Some(count)) => compare(seed, count),
        _ => Err(Fault::Words),
    }
}

fn number(word: &OsStr) -> Option<u64> {
    word.to_str()?.parse().ok()
}
