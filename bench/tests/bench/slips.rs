//! Slips of the hand that would cost bytes: they are told, and the program does not end with 0.

use std::fs::{self, File, Permissions};
use std::os::unix::fs::{PermissionsExt, symlink};
use std::process::{Command, Stdio};

use super::folder::{Folder, text};
use super::slots::{banked, changed, multi, random, wired};

/// The sample without A12.
pub fn without_a12() -> String {
    changed(&[("25 24 21 23 2 ", "25 24 21 23 ")])
}

#[test]
fn a_line_that_is_left_out_is_told() {
    let lost = "chip 0: 4096 of 8192 words reached; an address line is missing?\n\
        --part accepts it\n";
    let verify = Folder::new("verify", "line");
    verify.write("slot.txt", without_a12().as_bytes());
    assert_eq!(verify.refused(&["slot.txt", "chip.bin"]), lost);
    let served = "chip 0: words 0 to 4095 of 8192 are served\n";
    let said = verify.done(&["--part", "slot.txt", "chip.bin"]);
    assert_eq!(said, format!("reads back: 4096 words of 1 chip\n{served}"));

    let build = Folder::new("build", "line");
    build.write("slot.txt", without_a12().as_bytes());
    assert_eq!(build.refused(&["slot.txt", "table.bin", "chip.bin"]), lost);
    assert_eq!(build.names(), ["chip.bin", "slot.txt"]);
    let said = build.done(&["slot.txt", "table.bin", "chip.bin", "--part"]);
    assert_eq!(said, format!("table.bin: table of 8192 bytes\n{served}"));

    let layout = Folder::new("layout", "line");
    layout.write("slot.txt", without_a12().as_bytes());
    assert_eq!(layout.refused(&["slot.txt", "stored.txt"]), lost);
    assert_eq!(layout.refused(&["slot.txt"]), lost);
    assert_eq!(layout.names(), ["chip.bin", "slot.txt"]);
    let said = layout.done(&["slot.txt", "stored.txt", "--part"]);
    assert!(
        said.ends_with(&format!("\n{served}\nstored.txt: stored slot\n")),
        "{said}"
    );
}

#[test]
fn a_rom_that_is_stored_in_part_is_told() {
    let folder = Folder::new("read-back", "line");
    folder.write("slot.txt", without_a12().as_bytes());
    folder.run_other("build", &["--part", "slot.txt", "table.bin", "chip.bin"]);
    folder.run_other("layout", &["--part", "slot.txt", "stored.txt"]);
    let names = folder.names();
    let words = ["slot.txt", "table.bin", "back.bin"];
    let lost = "chip 0: 4096 of 8192 words reached; an address line is missing?\n\
        --part accepts it\n";
    assert_eq!(folder.refused(&words), lost);
    let words = ["stored.txt", "table.bin", "back.bin"];
    let lost = "ROM 0: 4096 of 8192 words are stored\n--part accepts it\n";
    assert_eq!(folder.refused(&words), lost);
    assert_eq!(folder.names(), names);
    let said = folder.done(&["--part", "stored.txt", "table.bin", "back.bin"]);
    assert_eq!(said, "back.bin: ROM 0, 4096 bytes\n");
}

#[test]
fn sixteen_bit_pins_copied_from_a_data_sheet_are_told() {
    // 512 words take nine lines, and so ten pins: the first is no line.
    let head = "socket 40\nword 2\nchip size 1024\naddress 1 2 3 4 5 6 7 8 9\n\
        data 10 11 12 13 14 15 16 17 18 19 20 21 22 23 24 25\ncontrol ce 26\n";
    let folder = Folder::new("verify", "wide");
    let gpios = (0..9).chain(16..33);
    folder.write("slot.txt", wired(head, gpios).as_bytes());
    folder.write("chip.bin", &random(5, 1024));
    let lost = "chip 0: 256 of 512 words reached; in 16-bit mode the first address pin is A-1 \
        or a place holder, and no line\n--part accepts it\n";
    assert_eq!(folder.refused(&["slot.txt", "chip.bin"]), lost);
}

/// What is found in files that are no dump, and what takes them.
const NO_DUMPS: [(&str, &str, &str); 5] = [
    ("short.bin", "8191", TAKEN),
    ("long.bin", "65536", TAKEN),
    (
        "chip.txt",
        "58, and they begin like a text of Intel HEX",
        READ,
    ),
    (
        "chip.s19",
        "54, and they begin like a text of S-records",
        TAKEN,
    ),
    (
        "even.bin",
        "8192, and they begin like a text of Intel HEX",
        READ,
    ),
];

const TAKEN: &str = "--any-length takes it";
const READ: &str = "--hex reads it, --any-length takes it as it is";

#[test]
fn files_that_are_no_dump_are_told() {
    let hex = b":10000000214601360121470136007EFE09D2190140\r\n:00000001FF\r\n";
    let records = b"S1137AF00A0A0D0000000000000000000000000061\nS9030000FC\n";
    for command in ["build", "verify"] {
        let folder = Folder::new(command, "dump");
        folder.write("short.bin", &[0; 8191]);
        folder.write("long.bin", &[0; 65536]);
        folder.write("chip.txt", hex);
        folder.write("chip.s19", records);
        let mut text = hex.to_vec();
        text.resize(8192, b'\n');
        folder.write("even.bin", &text);
        let words = |chip: &'static str| -> Vec<&'static str> {
            let before = ["slot.txt", "table.bin"];
            let before = &before[..if command == "build" { 2 } else { 1 }];
            before.iter().copied().chain([chip]).collect()
        };
        let names = folder.names();
        for (chip, found, taken) in NO_DUMPS {
            let expected = "expected the chip's 8192 bytes, found";
            let said = format!("{chip}: {expected} {found}; {taken}\n");
            assert_eq!(folder.unread(&words(chip)), said);
        }
        assert_eq!(folder.names(), names);
        let mut long = words("long.bin");
        long.push("--any-length");
        folder.done(&long);
    }
}

#[test]
fn links_are_followed_and_modes_kept() {
    let folder = Folder::new("build", "links");
    let at = |name: &str| folder.path.join(name);
    fs::create_dir_all(at("there")).expect("a folder");
    folder.write("there/table.bin", b"old");
    fs::set_permissions(at("there/table.bin"), Permissions::from_mode(0o640)).expect("a mode");
    symlink("there/table.bin", at("link")).expect("a link");
    symlink("there/new.bin", at("no-file")).expect("a link");
    for (link, file) in [("link", "there/table.bin"), ("no-file", "there/new.bin")] {
        folder.done(&["slot.txt", link, "chip.bin"]);
        assert_eq!(folder.read(file), [0x5A; 8192]);
        let link = fs::symlink_metadata(at(link)).expect("the link is there");
        assert!(link.is_symlink());
    }
    let kept = fs::metadata(at("there/table.bin")).expect("the file is there");
    assert_eq!(kept.permissions().mode() & 0o777, 0o640);
    // A chip's file by another name is still the chip's.
    symlink("chip.bin", at("other")).expect("a link");
    let said = folder.unread(&["slot.txt", "other", "chip.bin"]);
    assert!(said.ends_with("the table would replace a file that it is made from\n"));
}

#[test]
fn what_is_not_to_be_replaced_is_not() {
    let folder = Folder::new("build", "kept");
    let at = |name: &str| folder.path.join(name);
    folder.write("table.bin", b"old");
    fs::set_permissions(at("table.bin"), Permissions::from_mode(0o444)).expect("a mode");
    let said = folder.unread(&["slot.txt", "table.bin", "chip.bin"]);
    assert_eq!(said, "table.bin: is read-only, and is not replaced\n");
    assert_eq!(folder.read("table.bin"), b"old");

    let made = Command::new("mkfifo").arg(at("pipe")).status();
    assert!(made.is_ok_and(|made| made.success()));
    let said = folder.unread(&["slot.txt", "pipe", "chip.bin"]);
    assert_eq!(said, "pipe: is no plain file\n");

    // The program's own output, under another name.
    symlink("/proc/self/fd/1", at("out")).expect("a link");
    let told = File::create(at("told.txt")).expect("a file");
    let mut program = Command::new(env!("CARGO_BIN_EXE_onerom-bench"));
    program.args(["build", "slot.txt", "out", "chip.bin"]);
    program.current_dir(&folder.path).stdout(Stdio::from(told));
    let ended = program.output().expect("the program runs");
    assert_eq!(ended.status.code(), Some(2));
    assert!(text(&ended.stderr).starts_with("out: is where this program's own output goes"));
    assert_eq!(folder.read("told.txt"), b"");
    assert!(fs::symlink_metadata(at("out")).is_ok_and(|out| out.is_symlink()));
}

#[test]
fn a_table_on_the_standard_output() {
    let folder = Folder::new("build", "out");
    let names = folder.names();
    let told = folder.run(&["slot.txt", "-", "chip.bin"]);
    assert_eq!(told.status.code(), Some(0));
    assert_eq!((told.stdout, told.stderr), (vec![0x5A; 8192], vec![]));
    let said = "-: expected a file's name: the layouts go to the standard output\n";
    let told = folder.run_other("layout", &["slot.txt", "-"]);
    assert_eq!(
        (told.status.code(), text(&told.stderr)),
        (Some(2), said.into())
    );
    assert_eq!(folder.names(), names);
}

#[test]
fn bad_wiring_is_told() {
    // A6 and A7 on one GPIO.
    let shared = changed(&[("pin 3 gpio 14", "pin 3 gpio 15")]);
    let why = "not well wired: GPIO 15 is a candidate of socket pin 3 and socket pin 4\n";
    let layout = Folder::new("layout", "wiring");
    layout.write("slot.txt", shared.as_bytes());
    assert!(layout.done(&["slot.txt"]).ends_with(&format!("\n\n{why}")));

    let build = Folder::new("build", "wiring");
    build.write("slot.txt", shared.as_bytes());
    build.write("chip.bin", &random(6, 8192));
    let words = ["slot.txt", "table.bin", "chip.bin"];
    assert!(
        build
            .refused(&words)
            .starts_with("read-back refused: 24 Unserved")
    );
    assert_eq!(build.names(), ["chip.bin", "slot.txt"]);
    let words = ["--unverified", "slot.txt", "table.bin", "chip.bin"];
    let said = format!("table.bin: table of 8192 bytes\n{why}");
    assert_eq!(build.done(&words), said);

    // Ce on the GPIO of A0: the table reads back, and the board answers for half of it.
    let enable = changed(&[("pin 20 gpio 22", "pin 20 gpio 21")]);
    let verify = Folder::new("verify", "wiring");
    verify.write("slot.txt", enable.as_bytes());
    let said = verify.done(&["slot.txt", "chip.bin"]);
    let why = "not well wired: GPIO 21 is a candidate of socket pin 10 and socket pin 20\n";
    assert_eq!(said, format!("reads back: 8192 words of 1 chip\n{why}"));
}

#[test]
fn each_fault_of_the_wiring_is_named() {
    let folder = Folder::new("layout", "reasons");
    let told = |name: &str, slot: String| {
        folder.write(name, slot.as_bytes());
        let said = text(&folder.run(&[name]).stdout);
        let wrong = said
            .lines()
            .filter(|line| line.starts_with("not well wired"));
        wrong.map(|line| format!("{line}\n")).collect::<String>()
    };
    let seven = changed(&[("data 11 12 13 15 16 17 18 19", "data 11 12 13 15 16 17 18")]);
    assert_eq!(
        told("seven.txt", seven),
        "not well wired: a word has 8 bits, and there are 7 data lines\n"
    );
    // X1 has both its candidates among the GPIOs of the address lines, which are other pins' too.
    let x1 = banked().replace("x1 gpio 8", "x1 gpio 9 12");
    let said = told("x1.txt", x1);
    assert!(said.contains("not well wired: GPIO 9 is a candidate of socket pin 21 and X1\n"));
    assert!(
        said.contains("not well wired: X1 has 2 candidates among GPIOs 9 to 22"),
        "{said}"
    );
    let select = multi().replace("pin 20 gpio 22", "pin 20 gpio 22 40");
    let said = told("select.txt", select);
    assert_eq!(
        said,
        "not well wired: socket pin 20, the select's, has two GPIOs\n"
    );
    assert_eq!(told("good.txt", banked()), "");
    assert_eq!(told("multi.txt", multi()), "");
}

/// Half the ROM would be gone with ce on the pin of A0.
#[test]
fn two_lines_on_a_chip_pin_are_told() {
    let folder = Folder::new("verify", "pins");
    let told = |from: &str, to: &str| {
        folder.write("slot.txt", changed(&[(from, to)]).as_bytes());
        folder.unread(&["slot.txt", "chip.bin"])
    };
    let line = changed(&[])
        .lines()
        .position(|line| line.starts_with("chip size"));
    let line = 1 + line.expect("a chip");
    let said = |lines: &str| {
        format!("slot.txt, line {line}: expected each line on a pin of its own, found {lines}\n")
    };
    assert_eq!(
        told("control ce 20", "control ce 10"),
        said("A0 and ce on chip pin 10")
    );
    assert_eq!(
        told("control oe 22", "control oe 20"),
        said("ce and oe on chip pin 20")
    );
    let (data, other) = (
        "data 11 12 13 15 16 17 18 19",
        "data 11 12 13 15 16 17 18 18",
    );
    assert_eq!(told(data, other), said("D6 and D7 on chip pin 18"));
    let two = told("25 24 21 23 2 ", "25 24 21 2 2 ");
    assert_eq!(two, said("A11 and A12 on chip pin 2"));
}

#[test]
fn a_chip_of_half_a_word_is_told() {
    let folder = Folder::new("verify", "half");
    for (size, word) in [("8191", "2"), ("0", "1")] {
        let size = format!("chip size {size}");
        let odd = changed(&[
            ("chip size 8192", &size),
            ("word 1 ", &format!("word {word} ")),
        ]);
        folder.write("slot.txt", odd.as_bytes());
        let told = folder.unread(&["slot.txt", "chip.bin"]);
        assert!(
            told.contains(": expected a chip of whole words, found "),
            "{told}"
        );
    }
}

#[test]
fn a_slot_that_is_not_well_wired_is_told_by_build_too() {
    let folder = Folder::new("build", "told");
    let enable = changed(&[("pin 20 gpio 22", "pin 20 gpio 21")]);
    folder.write("slot.txt", enable.as_bytes());
    let why = "not well wired: GPIO 21 is a candidate of socket pin 10 and socket pin 20\n";
    let said = folder.done(&["slot.txt", "table.bin", "chip.bin"]);
    assert_eq!(said, format!("table.bin: table of 8192 bytes\n{why}"));
    // Two address lines on one GPIO: half of the words have no entry, and the reason is told.
    let lines = changed(&[("pin 3 gpio 14", "pin 3 gpio 15")]);
    folder.write("slot.txt", lines.as_bytes());
    for (command, words) in [
        ("verify", &["slot.txt", "chip.bin"][..]),
        ("build", &["slot.txt", "other.bin", "chip.bin"]),
    ] {
        let told = folder.run_other(command, words);
        assert_eq!(told.status.code(), Some(1));
        let told = text(&told.stderr);
        let why = "not well wired: GPIO 15 is a candidate of socket pin 3 and socket pin 4\n";
        assert!(told.starts_with("read-back refused: 24 Unserved"), "{told}");
        assert!(told.ends_with(&format!("; {why}")), "{told}");
    }
}

#[test]
fn chips_with_other_pins_are_told() {
    let folder = Folder::new("verify", "others");
    let other = banked() + "chip size 8192\naddress 10 9\ndata 11\ncontrol cs1 3\n";
    folder.write("slot.txt", other.as_bytes());
    let chips = ["slot.txt", "chip.bin", "chip.bin", "chip.bin", "chip.bin"];
    let said = folder.done(&chips);
    assert!(
        said.ends_with("chip 3: its lines lie on other pins than chip 0's, which count for all\n")
    );
}

#[test]
fn one_rom_goes_to_the_standard_output() {
    let folder = Folder::new("read-back", "out");
    folder.run_other("layout", &["slot.txt", "stored.txt"]);
    folder.run_other("build", &["slot.txt", "table.bin", "chip.bin"]);
    let told = folder.run(&["stored.txt", "table.bin", "-"]);
    assert_eq!(
        (told.status.code(), text(&told.stderr)),
        (Some(0), String::new())
    );
    assert!(told.stdout == folder.read("chip.bin"));
}

#[test]
fn a_stored_slot_is_no_description() {
    let folder = Folder::new("layout", "stored");
    folder.done(&["slot.txt", "stored.txt"]);
    let said = "stored.txt: expected a description, found a stored slot, \
        which `onerom-bench read-back` takes\n";
    for words in [
        &["layout", "stored.txt"][..],
        &["page", "stored.txt"],
        &["build", "stored.txt", "table.bin", "chip.bin"],
        &["verify", "stored.txt", "chip.bin"],
    ] {
        let told = folder.run_other(words[0], &words[1..]);
        assert_eq!(
            (told.status.code(), text(&told.stderr)),
            (Some(2), said.into())
        );
    }
}
