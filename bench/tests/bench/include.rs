//! Descriptions that include files: what stands where, and what an error says.

use super::folder::{Folder, text};
use super::slots::{SAMPLE, opened};
use onerom_bench::text::{read, read_with};

const BOARD: &str = "socket 24\npin 1 gpio 0\n";
const CHIP: &str = "word 1\nchip size 2\npackage 24\naddress 1\ndata 2\nsettings ce-oe\n";

/// Reads a text that may include the files of a list.
fn told(
    text: &str,
    files: &[(&str, &str)],
) -> Result<onerom::Description, (Option<String>, String)> {
    let mut open = opened(files);
    read_with(text, &mut open).map_err(|why| (why.file.clone(), why.to_string()))
}

fn error(text: &str, files: &[(&str, &str)]) -> (Option<String>, String) {
    told(text, files).expect_err("no description")
}

fn of_file(name: &str, what: &str) -> (Option<String>, String) {
    (Some(name.into()), what.into())
}

fn of_text(what: &str) -> (Option<String>, String) {
    (None, what.into())
}

#[test]
fn the_lines_stand_where_the_file_is_named() {
    let whole = read(&format!("{BOARD}{CHIP}control ce 3\nchip again\n"));
    let files = [("a board", BOARD), ("chip", CHIP)];
    let lines = "include a board  # with a space\n  include chip\ncontrol ce 3\nchip again\n";
    assert_eq!(told(lines, &files), Ok(whole.expect("a description")));
    let whole = read(&format!("{BOARD}set banked\n{CHIP}chip again\n"));
    let lines = "include chip\r\ninclude a board\r\nset banked\r\ninclude chip\r\n";
    assert_eq!(told(lines, &files), Ok(whole.expect("a description")));
}

#[test]
fn errors_name_the_file_of_the_line() {
    let files = [("chip", CHIP), ("bad", "\npin 1 gpio 60\n")];
    let what = "line 2: expected a GPIO, 0 to 47, found `60`";
    assert_eq!(error("include bad\n", &files), of_file("bad", what));
    let what = "line 1: expected a `socket` line, found none";
    assert_eq!(error("include chip\n", &files), of_text(what));
    let files = [("bare", "# a chip\nchip size 2\naddress 1\n")];
    let what = "line 2: expected a `data` line of this chip, found none";
    let lines = "socket 24\ninclude bare\n";
    assert_eq!(error(lines, &files), of_file("bare", what));
    let what = "line 2: none: none";
    assert_eq!(error("socket 24\ninclude none\n", &files), of_text(what));
}

#[test]
fn a_fact_stands_once_in_all_files() {
    let files = [("board", BOARD), ("chip", CHIP)];
    let what = "line 1: `socket` stands on line 2 of the file that includes this one already";
    let lines = "\nsocket 24\ninclude board\n";
    assert_eq!(error(lines, &files), of_file("board", what));
    let what = "line 2: `pin 1` stands on line 2 of board already";
    let lines = "include board\npin 1 gpio 3\n";
    assert_eq!(error(lines, &files), of_text(what));
    let what = "line 2: `pin 1` stands on line 1 already";
    let twice = [("twice", "pin 1 gpio 3\npin 1 gpio 3\n")];
    assert_eq!(error("include twice\n", &twice), of_file("twice", what));
}

#[test]
fn the_chips_of_a_set_share_what_their_files_say() {
    let wide = CHIP.replace("word 1", "word 2");
    let selects = CHIP.replace("ce-oe", "chip-select cs1 low");
    let files = [("chip", CHIP), ("wide", &wide), ("selects", &selects)];
    let what = "line 1: expected `word` as on line 1 of chip: the chips of a set share it";
    let lines = "socket 24\ninclude chip\ninclude wide\n";
    assert_eq!(error(lines, &files), of_file("wide", what));
    let what = "line 6: expected `settings` as on line 6 of chip: the chips of a set share it";
    let lines = "socket 24\ninclude chip\ninclude selects\n";
    assert_eq!(error(lines, &files), of_file("selects", what));
    let what = "line 2: `word` stands on line 1 already";
    let twice = [("twice", "word 1\nword 1\n")];
    assert_eq!(error("include twice\n", &twice), of_file("twice", what));
}

#[test]
fn what_cannot_be_included() {
    let files = [
        ("chip", CHIP),
        ("again", "\ninclude chip\n"),
        ("remark", "#\n"),
    ];
    let what = "line 2: expected no `include` in a file that is included";
    assert_eq!(error("include again\n", &files), of_file("again", what));
    let what = "line 1: expected a file's name, found the end of the line";
    assert_eq!(error("include # chip\n", &files), of_text(what));
    let what = "line 9: expected at most 8 included files";
    assert_eq!(error(&"include remark\n".repeat(9), &files), of_text(what));
    let alone = read("include chip\n").expect_err("no description");
    let what = "line 1: chip: a text alone includes no file";
    assert_eq!(alone.to_string(), what);
}

#[test]
fn no_pin_is_above_the_package() {
    let chip = |lines: &str| {
        let why = read(&format!("socket 28\nchip size 2\n{lines}\n")).expect_err("no description");
        why.to_string()
    };
    for line in ["address 3 25", "data 25", "control ce 25"] {
        let what = "line 4: expected a chip pin, 1 to 24, found `25`";
        assert_eq!(chip(&format!("package 24\n{line}")), what);
        let what = "line 4: expected a package with pin 25, which a line of the chip is on, \
            found `24`";
        assert_eq!(chip(&format!("{line}\npackage 24")), what);
    }
    let what = "line 6: expected a chip pin, 1 to 24, found `28`";
    assert_eq!(chip("package 24\naddress 1\nchip again\ndata 28"), what);
    let what = "line 3: expected the package's pins (24, 28, 32, 40), found `26`";
    assert_eq!(chip("package 26"), what);
    assert_eq!(
        read("socket 28\npackage 28\n")
            .expect_err("no chip")
            .to_string(),
        "line 2: expected a `chip` line before `package`"
    );
    // Another chip has a package of its own, or none.
    let lines = "socket 28\nchip size 2\npackage 24\naddress 1\ndata 2\nchip size 2\naddress 28\n\
        data 2\n";
    assert!(read(lines).is_ok());
}

/// The sample in two files of another folder, its description beside the chip's bytes.
fn divided(command: &'static str, name: &str) -> Folder {
    let folder = Folder::new(command, &format!("include-{name}"));
    let (board, chip): (Vec<&str>, Vec<&str>) = SAMPLE.lines().partition(|line| {
        let head = line.split_whitespace().next();
        head.is_some_and(|head| ["socket", "pin", "x1", "x2"].contains(&head))
    });
    std::fs::create_dir_all(folder.path.join("parts")).expect("a folder");
    folder.write("parts/board.txt", board.join("\n").as_bytes());
    folder.write("parts/chip.txt", chip.join("\n").as_bytes());
    let lines = "include parts/board.txt\ninclude parts/chip.txt\n";
    folder.write("pair.txt", lines.as_bytes());
    folder
}

#[test]
fn every_command_takes_includes() {
    let layout = divided("layout", "taken");
    let whole = layout.done(&["slot.txt"]);
    assert_eq!(layout.done(&["pair.txt"]), whole);
    // From another folder too: the names are from the description's.
    let name = layout.path.join("pair.txt");
    let other = Folder::new("layout", "include-other");
    assert_eq!(other.done(&[name.to_str().expect("a plain name")]), whole);

    let build = divided("build", "taken");
    build.done(&["pair.txt", "table.bin", "chip.bin"]);
    let told = build.run_other("read-back", &["pair.txt", "table.bin", "back.bin"]);
    assert_eq!(told.status.code(), Some(0));
    assert_eq!(build.read("back.bin"), build.read("chip.bin"));
    let told = build.run_other("verify", &["pair.txt", "chip.bin"]);
    assert_eq!(text(&told.stdout), "reads back: 8192 words of 1 chip\n");
}

#[test]
fn files_that_cannot_be_included_are_named() {
    let folder = divided("layout", "named");
    folder.write("pair.txt", b"socket 28\ninclude parts/none.txt\n");
    let said = folder.unread(&["pair.txt"]);
    assert!(
        said.starts_with("pair.txt, line 2: parts/none.txt: "),
        "{said}"
    );
    folder.write("pair.txt", b"include parts/chip.txt\n");
    folder.write("parts/chip.txt", b"word 1\nword 3\n");
    let said = folder.unread(&["pair.txt"]);
    assert_eq!(
        said,
        "parts/chip.txt, line 2: `word` stands on line 1 already\n"
    );
    folder.write("parts/chip.txt", b"word 1\n\xff\n");
    let said = folder.unread(&["pair.txt"]);
    assert_eq!(
        said,
        "parts/chip.txt, line 2: expected text, found bytes that are none\n"
    );
    folder.write("pair.txt", b"include /dev/zero\n");
    let said = folder.unread(&["pair.txt"]);
    let what = "pair.txt, line 1: /dev/zero: expected at most 1048576 bytes of text\n";
    assert_eq!(said, what);
}

#[test]
fn no_included_file_is_replaced() {
    let lost = |folder: &Folder, words: &[&str], what: &str| {
        let said = folder.unread(words);
        let wanted =
            format!("parts/chip.txt: the {what} would replace a file that it is made from\n");
        assert_eq!(said, wanted);
    };
    lost(
        &divided("layout", "kept"),
        &["pair.txt", "parts/chip.txt"],
        "slot",
    );
    lost(
        &divided("build", "kept"),
        &["pair.txt", "parts/chip.txt", "chip.bin"],
        "table",
    );
    lost(
        &divided("read-back", "kept"),
        &["pair.txt", "chip.bin", "parts/chip.txt"],
        "ROM",
    );
}
