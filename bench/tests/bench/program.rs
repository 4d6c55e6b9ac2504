//! The program: what it prints and how it ends.

use std::ffi::OsStr;
use std::fs::File;
use std::io::pipe;
use std::os::unix::ffi::OsStrExt;
use std::path::PathBuf;
use std::process::{Command, Output};

use super::slots::changed;

const COMMANDS: [&str; 16] = [
    "layout",
    "page",
    "build",
    "read-back",
    "verify",
    "to-hex",
    "from-hex",
    "pairings",
    "sample",
    "compare",
    "compare-large",
    "compare-hex",
    "compare-page",
    "replay",
    "speed",
    "speed-hex",
];

fn bench<W: AsRef<OsStr>>(words: &[W]) -> Output {
    let mut program = Command::new(env!("CARGO_BIN_EXE_onerom-bench"));
    program.args(words).output().expect("the program runs")
}

/// The sample, which is run without words.
fn alone() -> Output {
    bench::<&str>(&[])
}

/// Lays out a file with this text.
fn on_file(name: &str, text: &str) -> Output {
    let file = PathBuf::from(env!("CARGO_TARGET_TMPDIR")).join(name);
    std::fs::write(&file, text).expect("the file is written");
    bench(&[OsStr::new("layout"), file.as_os_str()])
}

fn text(bytes: &[u8]) -> String {
    String::from_utf8_lossy(bytes).into_owned()
}

#[test]
fn the_sample() {
    let told = alone();
    assert_eq!(
        (told.status.code(), text(&told.stderr)),
        (Some(0), String::new())
    );
    let told = text(&told.stdout);
    assert!(told.starts_with("RP2350B, base GPIO 9, 13 pins, table of 8192 bytes\n"));
    assert!(told.contains("\n   9  A10           0\n"));
    assert!(told.contains("\n  21  A0           12\n"));
    let select = "\n\nselect and data: base GPIO 0, 8 data lines from base pin 0, \
        2 select pins from base pin 22\n\nGPIO  role            base pin\n   0  D0                     0\n";
    assert!(told.contains(select));
    let select = "\n   7  D7                     7\n  22  ce, active low        22\n  23  oe, active low        23\n";
    let socket =
        "\nsocket of 28 pins from above, RP2350B\n\nrole     GPIO  +---\\__/---+  GPIO     role\n";
    assert!(told.contains(&(select.to_string() + socket)));
    assert!(told.contains("\n A12  11 (26)  |  2    27 |  -        -\n"));
    let verified = "\n\nX1  24  not used\nX2  25  not used\n\ntable of 8192 bytes\n\
        reads back: 8192 words of 1 chip\n";
    assert!(told.ends_with(verified));
}

fn changed_sample(name: &str, changes: &[(&str, &str)]) -> Output {
    on_file(name, &changed(changes))
}

#[test]
fn ignored_gpios_and_qualifiers() {
    let changes = [
        ("pin 22 gpio 23", "pin 22 gpio 24"),
        ("settings ce-oe", "qualifiers 0 2"),
    ];
    let told = changed_sample("qualifiers.txt", &changes);
    assert_eq!(told.status.code(), Some(0));
    let told = text(&told.stdout);
    assert!(told.contains(
        "3 select pins from base pin 22, ignore index 1, \
         3 qualifier pins from base pin 19, pattern 0b00000101\n"
    ));
    assert!(told.contains("\n  19  qualifier                 19\n"));
    assert!(told.contains("\n  23  no select, ignored        23\n"));
}

#[test]
fn commoned_lines() {
    let changes = [
        ("set single", "set multi\nmulti select ce commoned oe"),
        ("settings ce-oe", "settings ce-oe\nchip again"),
    ];
    let told = changed_sample("multi.txt", &changes);
    let told = text(&told.stdout);
    let wanted = "\n  22  ce, selects chip 0, active low        22\n  \
        23  oe, commoned, active low              23\n  \
        24  X1, selects chip 1                    24\n\nsocket of 28 pins";
    assert!(told.contains(wanted));
    assert!(told.ends_with("\nX1  24  selects chip 1\nX2  25  not used\n"));
}

#[test]
fn a_file_as_the_sample() {
    let told = on_file("sample.txt", include_str!("../../sample/2764.txt"));
    assert_eq!(told.status.code(), Some(0));
    let whole = text(&told.stdout) + "\ntable of 8192 bytes\nreads back: ";
    assert!(text(&alone().stdout).starts_with(&whole));
}

#[test]
fn x_pins_gaps_and_excess_lines() {
    let slot = "socket 24\nset banked\nlimit 256\nchip size 512\n\
        address 1 2 3 4 5 6 7 8 9\ndata 10\nchip again\nx1 gpio 20\n";
    let pins: String = (1..=9)
        .map(|n| format!("pin {n} gpio {}\n", n + 9))
        .collect();
    let told = on_file("banked.txt", &(slot.to_string() + &pins));
    let told = text(&told.stdout);
    assert!(told.starts_with(
        "RP2350B, base GPIO 10, 11 pins, table of 2048 bytes, past the limit of 256\n"
    ));
    assert!(told.contains("\n  18  A8, excess line          8\n"));
    assert!(told.contains("\n  19  no address line          9\n"));
    assert!(told.contains("\n  20  X1                      10\n"));
}

#[test]
fn a_refusal() {
    let told = on_file("refused.txt", "socket 24\nchip size 2\naddress 5\ndata 2\n");
    assert_eq!(told.status.code(), Some(1));
    let wanted = "address search refused: 3 UnmappedPin, place 5 (socket pin 5): \
        a needed pin has no GPIO\n";
    assert_eq!(
        (text(&told.stdout), text(&told.stderr)),
        (String::new(), wanted.into())
    );
}

#[test]
fn a_refusal_of_the_select_search() {
    let slot = "socket 24\noffset 2\nchip size 2\naddress 1\ndata 2\npin 3 gpio 5\n";
    let told = on_file("unselected.txt", slot);
    assert_eq!(told.status.code(), Some(1));
    // The address layout is of use without the other.
    assert!(text(&told.stdout).starts_with("RP2350B, base GPIO 5, 8 pins, table of 256 bytes\n"));
    let wanted = "select search refused: 3 UnmappedPin, place 2 (chip pin 2): \
        a needed pin is off the socket or has no GPIO\n";
    assert_eq!(text(&told.stderr), wanted);
}

#[test]
fn no_description() {
    let told = on_file("unread.txt", "socket 24\npin 1 gpio 60\n");
    assert_eq!(told.status.code(), Some(2));
    let told = text(&told.stderr);
    assert!(told.ends_with("unread.txt, line 2: expected a GPIO, 0 to 47, found `60`\n"));
}

#[test]
fn no_file_and_no_command() {
    assert_eq!(bench(&["no/such/file"]).status.code(), Some(2));
    assert_eq!(bench(&["layout", "no/such/file"]).status.code(), Some(2));
    for command in [
        "layout",
        "page",
        "build",
        "read-back",
        "verify",
        "to-hex",
        "from-hex",
        "pairings",
        "compare",
        "compare-large",
        "compare-hex",
        "compare-page",
        "replay",
    ] {
        let told = bench(&[command]);
        assert_eq!(
            (told.status.code(), text(&told.stdout)),
            (Some(2), String::new())
        );
        let said = text(&told.stderr);
        assert!(
            said.starts_with(&format!("onerom-bench {command}: expected ")),
            "{said}"
        );
        let help = format!(", found nothing; `onerom-bench {command} --help` says more\n");
        assert!(said.ends_with(&help), "{said}");
    }
    assert_eq!(bench(&["compare-large", "1", "x"]).status.code(), Some(2));
    assert_eq!(bench(&["one", "two"]).status.code(), Some(2));
}

#[test]
fn words_that_are_too_many_are_told() {
    let told = bench(&["speed", "a", "b"]);
    assert_eq!(told.status.code(), Some(2));
    let said =
        "onerom-bench speed: expected [FILE], found `a b`; `onerom-bench speed --help` says more\n";
    assert_eq!(text(&told.stderr), said);
    for words in [
        &["layout", "a", "b", "c"][..],
        &["page", "a", "b", "c"],
        &["sample", "a", "b"],
        &["compare", "1", "x"],
    ] {
        let told = bench(words);
        assert_eq!(told.status.code(), Some(2));
        let found = format!("found `{}`;", words[1..].join(" "));
        assert!(text(&told.stderr).contains(&found));
    }
}

#[test]
fn flags_that_are_none_are_told() {
    let said = |words: &[&str]| {
        let told = bench(words);
        assert_eq!(
            (told.status.code(), text(&told.stdout)),
            (Some(2), String::new())
        );
        text(&told.stderr)
    };
    let help = "`onerom-bench compare --help` says more";
    let wanted = format!("onerom-bench compare: expected no flag, found `-2`; {help}\n");
    assert_eq!(said(&["compare", "1", "-2"]), wanted);
    let wanted = "onerom-bench build: expected --any-length, --hex, --high-first, --part, --unverified, found `--any`; \
        `onerom-bench build --help` says more\n";
    assert_eq!(said(&["build", "a", "--any", "b", "c"]), wanted);
    // Behind `--` a word is a file's name.
    assert!(said(&["layout", "--", "--part"]).starts_with("--part: "));
}

#[test]
fn the_program_has_a_version() {
    for flag in ["--version", "-V"] {
        let told = bench(&[flag]);
        let version = concat!("onerom-bench ", env!("CARGO_PKG_VERSION"), "\n");
        assert_eq!(
            (told.status.code(), text(&told.stdout)),
            (Some(0), version.into())
        );
    }
}

#[test]
fn a_command_that_is_none_is_told() {
    for words in [&["laoyut", "a"][..], &["help", "laoyut"]] {
        let told = bench(words);
        assert_eq!(
            (told.status.code(), text(&told.stdout)),
            (Some(2), String::new())
        );
        let said = format!(
            "onerom-bench: expected a command ({}), found `laoyut`; `onerom-bench help` says what each does\n",
            COMMANDS.join(", ")
        );
        assert_eq!(text(&told.stderr), said);
    }
}

#[test]
fn every_command_has_help() {
    for command in COMMANDS {
        let told = bench(&[command, "--help"]);
        assert_eq!(
            (told.status.code(), text(&told.stderr)),
            (Some(0), String::new())
        );
        let said = text(&told.stdout);
        assert!(
            said.starts_with(&format!("onerom-bench {command}")),
            "{said}"
        );
        assert!(said.contains("\n\nExit codes: 0 "), "{said}");
        assert!(said.contains("\n\nExample"), "{said}");
        assert!(
            said.contains(&format!("\n    onerom-bench {command}")),
            "{said}"
        );
        assert!(said.lines().all(|line| line.len() <= 80), "{said}");
        for same in [
            &["help", command][..],
            &[command, "-h"],
            &[command, "a", "--help"],
        ] {
            assert_eq!(bench(same).stdout, told.stdout);
        }
    }
}

#[test]
fn the_program_has_help() {
    let told = bench(&["--help"]);
    assert_eq!(
        (told.status.code(), text(&told.stderr)),
        (Some(0), String::new())
    );
    let said = text(&told.stdout);
    for command in COMMANDS {
        let row = format!("\n  onerom-bench {command} ");
        assert_eq!(said.matches(&row).count(), 1, "{command}");
    }
    assert!(
        said.contains("\n  onerom-bench read-back [FLAG..] FILE TABLE CHIP..  Reads a table back")
    );
    assert!(said.contains("\nExit codes: 0 "));
    for same in ["help", "-h"] {
        assert_eq!(bench(&[same]).stdout, told.stdout);
    }
}

#[test]
fn words_that_are_no_text() {
    let other = OsStr::from_bytes(b"\xff\xfe");
    assert_eq!(bench(&[other]).status.code(), Some(2));
    // A folder may have such a name, and `sample` would make it.
    for command in COMMANDS.into_iter().filter(|&command| command != "sample") {
        for count in 1..=3 {
            let words = [[OsStr::new(command)].as_slice(), &vec![other; count]].concat();
            let told = bench(&words);
            assert_eq!(told.status.code(), Some(2), "{command}");
            assert!(!told.stderr.is_empty() && told.stdout.is_empty());
        }
    }
}

#[test]
fn folders_are_no_files() {
    for words in [
        &["layout", "."][..],
        &["page", "."],
        &["read-back", ".", "a", "b"],
        &["verify", ".", "a"],
    ] {
        let told = bench(words);
        assert_eq!(
            (told.status.code(), text(&told.stdout)),
            (Some(2), String::new())
        );
        assert!(text(&told.stderr).starts_with(".: "));
    }
}

#[test]
fn a_description_that_has_no_end() {
    let told = bench(&["layout", "/dev/zero"]);
    assert_eq!(told.status.code(), Some(2));
    let said = "/dev/zero: expected at most 1048576 bytes of text\n";
    assert_eq!(text(&told.stderr), said);
}

/// A pipe whose reader has gone away.
fn no_reader() -> std::io::PipeWriter {
    let (_, writer) = pipe().expect("a pipe");
    writer
}

#[test]
fn a_reader_who_has_gone_away_is_no_fault() {
    let cases = [(&[][..], 0), (&["help"], 0), (&["layout", "."], 2)];
    for (words, code) in cases {
        let mut program = Command::new(env!("CARGO_BIN_EXE_onerom-bench"));
        let program = program.args(words).stdout(no_reader()).stderr(no_reader());
        let status = program.status().expect("the program runs");
        assert_eq!(status.code(), Some(code));
    }
}

#[test]
fn an_output_that_is_full_is_a_fault() {
    for words in [&[][..], &["help"]] {
        let full = File::create("/dev/full").expect("a device");
        let mut program = Command::new(env!("CARGO_BIN_EXE_onerom-bench"));
        let told = program.args(words).stdout(full).output();
        let told = told.expect("the program runs");
        assert_eq!(told.status.code(), Some(2));
        assert!(text(&told.stderr).starts_with("standard output: "));
    }
}

#[test]
fn tables_of_the_clock_go_between_two_lines() {
    let file = PathBuf::from(env!("CARGO_TARGET_TMPDIR")).join("page.md");
    std::fs::write(&file, "a page\n").expect("the file is written");
    for (command, of) in [("speed", ""), ("speed-hex", ", Intel HEX")] {
        let told = bench(&[command, file.to_str().expect("a plain name")]);
        assert_eq!(told.status.code(), Some(2));
        let said = format!(
            "page.md: expected the lines `<!-- measured{of} -->` and \
             `<!-- end of what is measured{of} -->`, between which tables go\n"
        );
        assert!(text(&told.stderr).ends_with(&said));
    }
}

#[test]
fn the_first_page_shows_what_the_sample_prints() {
    let page = include_str!("../../../README.md");
    let (_, shown) = page.split_once("```text\n").expect("a block of text");
    let (shown, _) = shown.split_once("```").expect("its end");
    let told = text(&alone().stdout);
    let mut rest = &told[..];
    // Lines that are left out stand as `..`.
    for part in shown.split("..\n") {
        let at = rest.find(part).unwrap_or_else(|| panic!("{part}"));
        rest = &rest[at + part.len()..];
    }
    assert_eq!(rest, "");
    assert!(told.starts_with(shown.split("..\n").next().expect("a part")));
}
