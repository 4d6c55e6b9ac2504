//! The lines of a text that name a package of the RP2350, and what is said of a GPIO that it has not.

use std::fs;

use super::folder::{Folder, text};
use super::slots::{SAMPLE, SAMPLE_A, changed, opened};
use onerom::description::{Candidates, Package};
use onerom_bench::text::{TextError, read, read_board, read_chip, read_with};

const SHORT: &str = "socket 24\nchip size 2\naddress 1\ndata 2\n";

fn error(text: &str) -> String {
    read(text).expect_err("no description").to_string()
}

#[test]
fn a_package_is_named_or_b() {
    let package = |text: &str| read(text).expect("a description").package;
    assert_eq!(package(SHORT), Package::B);
    assert_eq!(package(SAMPLE), Package::B);
    assert_eq!(package(SAMPLE_A), Package::A);
    for (line, wanted) in [("package a\n", Package::A), ("package b\n", Package::B)] {
        assert_eq!(package(&format!("{line}{SHORT}")), wanted);
        assert_eq!(package(&format!("{SHORT}{line}")), wanted);
        // Between a chip's own lines, and with the pins of its package beside it.
        let inside = SHORT.replace("address", &format!("{line}package 24\naddress"));
        assert_eq!(package(&inside), wanted);
        let record = read(&inside).expect("a description").to_bytes();
        assert_eq!(record[1], wanted as u8);
    }
}

#[test]
fn a_package_stands_once() {
    for (one, two) in [("a", "a"), ("a", "b"), ("b", "a")] {
        let twice = format!("package {one}\n{SHORT}package {two}\n");
        let said = "line 6: `package of the RP2350` stands on line 1 already";
        assert_eq!(error(&twice), said);
    }
}

#[test]
fn another_word_is_told() {
    let expected = "expected the pins of a chip's package (24, 28, 32, 40) or the RP2350's \
        package (a, b), found";
    for (word, found) in [
        ("c", "`c`"),
        ("A", "`A`"),
        ("-1", "`-1`"),
        ("rp2350a", "`rp2350a`"),
        ("", "the end of the line"),
    ] {
        let said = format!("line 5: {expected} {found}");
        assert_eq!(error(&format!("{SHORT}package {word}\n")), said);
    }
    let said = "line 5: expected the package's pins (24, 28, 32, 40), found `29`";
    assert_eq!(error(&format!("{SHORT}package 29\n")), said);
    let said = "line 5: expected the end of the line, found `b`";
    assert_eq!(error(&format!("{SHORT}package a b\n")), said);
}

#[test]
fn a_gpio_past_the_package_is_told_at_its_line() {
    let lines = [
        ("pin 3 gpio 30", 30),
        ("pin 3 gpio 47 2", 47),
        ("pin 3 gpio 2 30", 30),
        ("x1 gpio 33", 33),
        ("x2 gpio 1 40", 40),
    ];
    for (line, gpio) in lines {
        let expected = format!("expected a GPIO of the RP2350A, 0 to 29, found `{gpio}`");
        let before = format!("{line}\n{SHORT}package a\n");
        let said = format!("line 1: {expected}; `package a` stands on line 6");
        assert_eq!(error(&before), said);
        let behind = format!("package a\n{SHORT}{line}\n");
        let said = format!("line 6: {expected}; `package a` stands on line 1");
        assert_eq!(error(&behind), said);
        for package in ["", "package b\n"] {
            assert!(read(&format!("{package}{SHORT}{line}\n")).is_ok());
        }
    }
    let last = read(&format!("package a\n{SHORT}pin 3 gpio 29\nx2 gpio 28 29\n"));
    let last = last.expect("a description");
    assert_eq!(last.socket[2], Candidates::One(29));
    assert_eq!(last.x[1], Candidates::Two(28, 29));
}

/// What no package has is told at once, as on the larger one.
#[test]
fn a_gpio_that_no_package_has() {
    let said = "line 6: expected a GPIO, 0 to 47, found `48`";
    assert_eq!(error(&format!("package a\n{SHORT}pin 3 gpio 48\n")), said);
    let said = "line 1: expected a GPIO, 0 to 47, found `48`";
    assert_eq!(error(&format!("pin 3 gpio 48\n{SHORT}package a\n")), said);
}

/// Reads a text that may include these files.
fn included(text: &str, files: &[(&str, &str)]) -> Result<onerom::Description, TextError> {
    read_with(text, &mut opened(files))
}

#[test]
fn the_two_lines_can_stand_in_different_files() {
    let files = [
        ("far", "\npin 3 gpio 30\n"),
        ("a", "# a board\npackage a\n"),
        ("both", "package a\n\nx2 gpio 4 31\n"),
        ("chip", "chip size 2\npackage 24\naddress 1\ndata 2\n"),
    ];
    let said = |text: &str| {
        let why = included(text, &files).expect_err("no description");
        (why.file.clone(), why.to_string())
    };
    let expected = "expected a GPIO of the RP2350A, 0 to 29, found";
    let line = format!("line 2: {expected} `30`; `package a` stands on line 2 of a");
    let far = (Some("far".to_string()), line);
    assert_eq!(
        said("socket 24\ninclude far\ninclude a\ninclude chip\n"),
        far
    );
    assert_eq!(
        said("socket 24\ninclude a\ninclude far\ninclude chip\n"),
        far
    );
    let line = format!(
        "line 2: {expected} `30`; `package a` stands on line 4 of the file that includes this one"
    );
    let far = (Some("far".to_string()), line);
    assert_eq!(
        said("socket 24\ninclude far\ninclude chip\npackage a\n"),
        far
    );
    let line = format!("line 3: {expected} `31`; `package a` stands on line 1");
    let both = (Some("both".to_string()), line);
    assert_eq!(said("socket 24\ninclude both\ninclude chip\n"), both);
    let line = format!("line 2: {expected} `40`; `package a` stands on line 2 of a");
    let text = "include a\nx1 gpio 40\nsocket 24\ninclude chip\n";
    assert_eq!(said(text), (None, line));
    let twice = "line 2: `package of the RP2350` stands on line 1 of both already";
    let text = "socket 24\ninclude both\ninclude a\ninclude chip\n";
    assert_eq!(said(text), (Some("a".to_string()), twice.into()));
}

#[test]
fn a_board_has_a_letter_and_a_chip_a_number() {
    let board = |text: &str| read_board(text, &mut opened(&[])).map_err(|why| why.to_string());
    let chip = |text: &str| read_chip(text, &mut opened(&[])).map_err(|why| why.to_string());
    let told = board("package a\nsocket 28\n").expect("a board");
    assert_eq!(told.package, Package::A);
    assert_eq!(board("socket 28\n").expect("a board").package, Package::B);
    for word in ["28", "c"] {
        let said = format!("line 1: expected the RP2350's package (a, b), found `{word}`");
        assert_eq!(board(&format!("package {word}\nsocket 28\n")), Err(said));
    }
    let far = "line 2: expected a GPIO of the RP2350A, 0 to 29, found `30`; `package a` stands \
        on line 3";
    assert_eq!(
        board("socket 28\nx2 gpio 3 30\npackage a\n"),
        Err(far.into())
    );
    let lines = "chip size 2\npackage 24\naddress 1\ndata 2\n";
    assert_eq!(chip(lines).expect("a chip").package, 24);
    for place in ["package a\nchip size", "chip size 2\npackage a\nchip size"] {
        let text = lines.replacen("chip size", place, 1);
        let line = 1 + text
            .lines()
            .position(|line| line == "package a")
            .expect("it");
        let said = format!("line {line}: expected the package's pins (24, 28, 32, 40), found `a`");
        assert_eq!(chip(&text), Err(said));
    }
}

#[test]
fn the_layout_and_the_drawing_name_the_package() {
    let folder = Folder::new("layout", "package");
    folder.write("a.txt", SAMPLE_A.as_bytes());
    let said = folder.done(&["a.txt", "stored.txt"]);
    let head = "RP2350A, base GPIO 3, 13 pins, table of 8192 bytes\n";
    assert!(said.starts_with(head), "{said}");
    let socket = "\nsocket of 28 pins from above, RP2350A\n\nrole    GPIO  ";
    assert!(said.contains(socket), "{said}");
    // A stored slot has no package.
    assert!(!text(&folder.read("stored.txt")).contains("package"));
    folder.write(
        "b.txt",
        SAMPLE_A.replace("package a", "package b").as_bytes(),
    );
    let other = folder.done(&["b.txt", "stored.txt"]);
    assert_eq!(other, said.replace("RP2350A", "RP2350B"));
}

#[test]
fn the_program_tells_the_file_and_the_line() {
    let far = changed(&[("socket 28", "socket 28\npackage a")]);
    let line = far.lines().position(|line| line.starts_with("pin 23 "));
    let line = 1 + line.expect("pin 23");
    let said = format!(
        "slot.txt, line {line}: expected a GPIO of the RP2350A, 0 to 29, found `34`; \
         `package a` stands on line 5\n"
    );
    for (command, words) in [
        ("layout", &["slot.txt"][..]),
        ("build", &["slot.txt", "table.bin", "chip.bin"]),
        ("verify", &["slot.txt", "chip.bin"]),
        ("read-back", &["slot.txt", "chip.bin", "back.bin"]),
    ] {
        let folder = Folder::new(command, "package-line");
        folder.write("slot.txt", far.as_bytes());
        assert_eq!(folder.unread(words), said, "{command}");
    }
}

#[test]
fn boards_of_either_package_are_paired() {
    let folder = Folder::new("pairings", "package");
    let board = |name: &str| include_str!("../../../boards/28a.txt").replace("package a", name);
    for kind in ["boards", "chips"] {
        fs::create_dir_all(folder.path.join(kind)).expect("a folder");
    }
    folder.write("boards/a.txt", board("package a").as_bytes());
    folder.write("boards/b.txt", board("package b").as_bytes());
    folder.write("chips/2764.txt", include_bytes!("../../../chips/2764.txt"));
    folder.done(&["boards", "chips", "--sets", "--csv", "list.csv"]);
    let list = text(&folder.read("list.csv"));
    let of = |board: &str| -> Vec<String> {
        let own = list.lines().filter_map(|line| line.strip_prefix(board));
        own.map(str::to_string).collect()
    };
    assert_eq!(of("a,").len(), 5);
    assert_eq!(of("a,"), of("b,"));
    let far = board("package a").replace("x2 gpio 21", "x2 gpio 21 30");
    folder.write("boards/a.txt", far.as_bytes());
    let said = folder.unread(&["boards", "chips"]);
    assert!(said.starts_with("boards/a.txt, line 37: expected a GPIO of the RP2350A, 0 to 29, "));
}
