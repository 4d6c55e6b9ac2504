//! Chips' files high byte first, in `build`, `read-back` and `verify`: what is written, what is said,
//! and that programs which nobody here wrote swap the bytes of each word to the same files.

use std::process::Output;

use super::folder::{Folder, text};
use super::judges::made;
use super::slots::{banked, random, wide};

/// A 16-bit EPROM on the board for it, of the folders that the repository has.
const CHIP: &str = include_str!("../../../chips/27C400.txt");
const BOARD: &str = include_str!("../../../boards/40.txt");
const BYTES: usize = 524_288;

fn folder(name: &str) -> Folder {
    let folder = Folder::new("order", name);
    folder.write("slot.txt", format!("{BOARD}{CHIP}").as_bytes());
    folder.write("chip.bin", &random(5, BYTES));
    folder
}

fn said(told: &Output) -> (Option<i32>, String, String) {
    (told.status.code(), text(&told.stdout), text(&told.stderr))
}

fn done(folder: &Folder, command: &str, words: &[&str], wanted: &str) {
    let told = said(&folder.run_other(command, words));
    assert_eq!(told, (Some(0), wanted.into(), String::new()), "{command}");
}

/// A dump with the bytes of each word swapped.
fn swapped(dump: &[u8]) -> Vec<u8> {
    let mut other = dump.to_vec();
    other.chunks_exact_mut(2).for_each(|word| word.swap(0, 1));
    other
}

#[test]
fn a_dump_goes_there_and_back() {
    let folder = folder("round");
    folder.write("swapped.bin", &swapped(&random(5, BYTES)));
    let built = format!("low.bin: table of {BYTES} bytes\n");
    done(
        &folder,
        "build",
        &["slot.txt", "low.bin", "chip.bin"],
        &built,
    );
    let built = format!("high.bin: table of {BYTES} bytes, chips high byte first\n");
    let words = ["--high-first", "slot.txt", "high.bin", "swapped.bin"];
    done(&folder, "build", &words, &built);
    assert!(folder.read("low.bin") == folder.read("high.bin"));
    let words = ["slot.txt", "high.bin", "back.bin", "--high-first"];
    let read = format!("back.bin: ROM 0, {BYTES} bytes, high byte first\n");
    done(&folder, "read-back", &words, &read);
    assert!(folder.read("back.bin") == folder.read("swapped.bin"));
    let read = format!("back.bin: ROM 0, {BYTES} bytes\n");
    done(
        &folder,
        "read-back",
        &["slot.txt", "high.bin", "back.bin"],
        &read,
    );
    assert!(folder.read("back.bin") == folder.read("chip.bin"));
    let words = ["--high-first", "slot.txt", "swapped.bin"];
    let read = "reads back: 262144 words of 1 chip, high byte first\n";
    done(&folder, "verify", &words, read);
}

/// The order of the line is that of the flag, and `layout` hands it on.
#[test]
fn a_line_says_the_same() {
    let folder = folder("line");
    folder.write("high.txt", format!("order high\n{BOARD}{CHIP}").as_bytes());
    for words in [&[][..], &["--high-first"]] {
        let with = |own: &[&'static str]| [own, words].concat();
        let built = format!("table.bin: table of {BYTES} bytes, chips high byte first\n");
        let own = with(&["high.txt", "table.bin", "chip.bin"]);
        done(&folder, "build", &own, &built);
        let words = ["--high-first", "slot.txt", "other.bin", "chip.bin"];
        folder.run_other("build", &words);
        assert!(folder.read("table.bin") == folder.read("other.bin"));
        let told = folder.run_other("layout", &["high.txt", "stored.txt"]);
        assert_eq!(told.status.code(), Some(0));
        for slot in ["high.txt", "stored.txt"] {
            let read = format!("back.bin: ROM 0, {BYTES} bytes, high byte first\n");
            let own = with(&[slot, "table.bin", "back.bin"]);
            done(&folder, "read-back", &own, &read);
            assert!(folder.read("back.bin") == folder.read("chip.bin"));
        }
        let read = "reads back: 262144 words of 1 chip, high byte first\n";
        done(&folder, "verify", &with(&["high.txt", "chip.bin"]), read);
    }
}

#[test]
fn a_flag_and_a_line_cannot_differ() {
    let folder = folder("differ");
    let what = "expected `order high` beside --high-first, found `order low`; \
        change the line or leave the flag out\n";
    folder.write("low.txt", format!("{BOARD}\norder low\n{CHIP}").as_bytes());
    let line = BOARD.lines().count() + 2;
    folder.write("in.txt", b"# as another reader has it\norder low\n");
    folder.write(
        "out.txt",
        format!("include in.txt\n{BOARD}{CHIP}").as_bytes(),
    );
    folder.write("stored.txt", b"slot user-plugin\nsize 4\norder low\n");
    for (command, words) in [
        ("build", &["new.bin", "chip.bin"][..]),
        ("verify", &["chip.bin"]),
        ("read-back", &["chip.bin", "new.bin"]),
    ] {
        let unread = |slot: &'static str| {
            let words = [&["--high-first", slot], words].concat();
            said(&folder.run_other(command, &words))
        };
        let wanted = |place: &str| (Some(2), String::new(), format!("{place}: {what}"));
        assert_eq!(unread("low.txt"), wanted(&format!("low.txt, line {line}")));
        assert_eq!(unread("out.txt"), wanted("in.txt, line 2"));
        let told = folder.run_other(command, &[&["low.txt"], words].concat());
        assert_eq!(told.status.code(), Some(0), "{command}");
        let _ = std::fs::remove_file(folder.path.join("new.bin"));
    }
    let words = ["--high-first", "stored.txt", "slot.txt", "new.bin"];
    let told = said(&folder.run_other("read-back", &words));
    assert_eq!(told.2, format!("stored.txt, line 3: {what}"));
    assert!(!folder.names().contains(&"new.bin".into()));
}

/// Nobody is left to think that the order counted.
#[test]
fn it_is_told_where_the_order_changes_nothing() {
    let folder = Folder::new("order", "nothing");
    let note = "high byte first changes nothing here: words have one byte\n";
    let wanted = |out: &str, note: &str| (Some(0), out.to_string(), note.to_string());
    let sample = text(&folder.read("slot.txt"));
    folder.write("high.txt", format!("order high\n{sample}").as_bytes());
    folder.write("chip.bin", &random(1, 8192));
    for slot in [["--high-first", "slot.txt"], ["--", "high.txt"]] {
        let run = |command: &str, words: &[&str]| said(&folder.run_other(command, words));
        let told = run("build", &[slot[0], slot[1], "table.bin", "chip.bin"]);
        assert_eq!(told, wanted("table.bin: table of 8192 bytes\n", note));
        let told = run("read-back", &[slot[0], slot[1], "table.bin", "back.bin"]);
        assert_eq!(told, wanted("back.bin: ROM 0, 8192 bytes\n", note));
        assert_eq!(folder.read("back.bin"), random(1, 8192));
        let told = run("verify", &[slot[0], slot[1], "chip.bin"]);
        assert_eq!(told, wanted("reads back: 8192 words of 1 chip\n", note));
    }
    let words = ["--high-first", "slot.txt", "-", "chip.bin"];
    let told = folder.run_other("build", &words);
    assert_eq!(told.stdout, folder.read("table.bin"));
    assert_eq!(text(&told.stderr), note);
    let words = ["--high-first", "slot.txt", "table.bin", "-"];
    let told = folder.run_other("read-back", &words);
    assert_eq!(told.stdout, folder.read("chip.bin"));
    assert_eq!(text(&told.stderr), note);
    folder.write("plugin.txt", b"slot pio-plugin\nsize 8192\norder high\n");
    let told = said(&folder.run_other("read-back", &["plugin.txt", "chip.bin", "back.bin"]));
    let note = "high byte first changes nothing here: a plugin is copied as it is\n";
    assert_eq!(told, wanted("back.bin: plugin, 8192 bytes\n", note));
    assert_eq!(folder.read("back.bin"), folder.read("chip.bin"));
    // Low byte first is as usual.
    folder.write("low.txt", format!("order low\n{sample}").as_bytes());
    let told = said(&folder.run_other("verify", &["low.txt", "chip.bin"]));
    assert_eq!(told, wanted("reads back: 8192 words of 1 chip\n", ""));
}

/// A word is shown as a number, whichever byte of it came first.
#[test]
fn a_word_that_comes_back_as_another_is_told() {
    let folder = Folder::new("order", "different");
    // D14 and D15 on one GPIO are joined.
    folder.write("slot.txt", wide([30, 30]).as_bytes());
    let mut chip = vec![0; 1024];
    (chip[16], chip[17]) = (0x80, 0x01);
    folder.write("chip.bin", &chip);
    let wanted = "does not read back: chip 0, address 8: 8001 in the chip, C001 from the board\n\
        not well wired: GPIO 30 is a candidate of socket pin 24 and socket pin 25\n";
    let told = said(&folder.run_other("verify", &["--high-first", "slot.txt", "chip.bin"]));
    assert_eq!(told, (Some(1), String::new(), wanted.into()));
    let words = ["--high-first", "slot.txt", "table.bin", "chip.bin"];
    let told = said(&folder.run_other("build", &words));
    assert_eq!(told, (Some(1), String::new(), wanted.into()));
    assert!(!folder.names().contains(&"table.bin".into()));
    let words = [
        "--unverified",
        "--high-first",
        "slot.txt",
        "table.bin",
        "chip.bin",
    ];
    assert_eq!(folder.run_other("build", &words).status.code(), Some(0));
    // Both lines are at bit 14 of the entry, which is low byte first as ever.
    assert_eq!(folder.read("table.bin")[16..18], [0x01, 0x40]);
}

#[test]
fn texts_of_intel_hex_have_an_order_too() {
    let folder = folder("hex");
    let words = ["--high-first", "slot.txt", "table.bin", "chip.bin"];
    assert_eq!(folder.run_other("build", &words).status.code(), Some(0));
    let words = ["--high-first", "slot.txt", "table.bin", "back.hex"];
    let read = format!("back.hex: ROM 0, {BYTES} bytes as Intel HEX, high byte first\n");
    done(&folder, "read-back", &words, &read);
    let words = ["--high-first", "slot.txt", "other.bin", "back.hex"];
    assert_eq!(folder.run_other("build", &words).status.code(), Some(0));
    assert!(folder.read("table.bin") == folder.read("other.bin"));
}

/// One order for all chips, of words of two bytes, and a ROM that is not written has none.
#[test]
fn a_set_has_one_order() {
    let folder = Folder::new("order", "set");
    let head = "x1 gpio 9\nset banked\n";
    let wide = wide([30, 31]).replace("control ce 26\n", "control ce 26\nchip again\n");
    folder.write("slot.txt", format!("{head}{wide}").as_bytes());
    for (seed, name) in [(1, "a.bin"), (2, "b.bin")] {
        folder.write(name, &random(seed, 1024));
    }
    let words = ["--high-first", "slot.txt", "table.bin", "a.bin", "b.bin"];
    let built = "table.bin: table of 2048 bytes, chips high byte first\n";
    done(&folder, "build", &words, built);
    let words = ["--high-first", "slot.txt", "table.bin", "-", "1.bin"];
    let read = "-: ROM 0, 1024 bytes, not written\n1.bin: ROM 1, 1024 bytes, high byte first\n";
    done(&folder, "read-back", &words, read);
    assert_eq!(folder.read("1.bin"), random(2, 1024));
    let words = ["slot.txt", "table.bin", "0.bin", "1.bin"];
    let read = "0.bin: ROM 0, 1024 bytes\n1.bin: ROM 1, 1024 bytes\n";
    done(&folder, "read-back", &words, read);
    assert_eq!(folder.read("0.bin"), swapped(&random(1, 1024)));
    assert_eq!(folder.read("1.bin"), swapped(&random(2, 1024)));
    let eight = Folder::new("order", "set of 8 bits");
    eight.write("slot.txt", banked().as_bytes());
    let words = [
        "--high-first",
        "slot.txt",
        "chip.bin",
        "chip.bin",
        "chip.bin",
    ];
    assert_eq!(eight.run_other("verify", &words).status.code(), Some(0));
}

/// Programs that swap the bytes of each pair.
const JUDGES: [(&str, &[&str]); 2] = [
    ("dd", &["conv=swab", "if=chip.bin", "of=made"]),
    (
        "objcopy",
        &[
            "-I",
            "binary",
            "-O",
            "binary",
            "--reverse-bytes=2",
            "chip.bin",
            "made",
        ],
    ),
];

#[test]
fn others_swap_the_same_bytes() {
    let folder = folder("judges");
    let built = |words: &[&str]| {
        let told = folder.run_other("build", words);
        assert_eq!(told.status.code(), Some(0), "{}", text(&told.stderr));
    };
    built(&["slot.txt", "low.bin", "chip.bin"]);
    built(&["--high-first", "slot.txt", "high.bin", "chip.bin"]);
    let words = ["--high-first", "slot.txt", "low.bin", "back.bin"];
    assert_eq!(folder.run_other("read-back", &words).status.code(), Some(0));
    for (program, words) in JUDGES {
        let Some(other) = made(&folder, program, words) else {
            continue;
        };
        folder.write("other.bin", &other);
        built(&["--high-first", "slot.txt", "table.bin", "other.bin"]);
        assert!(
            folder.read("table.bin") == folder.read("low.bin"),
            "{program}"
        );
        built(&["slot.txt", "table.bin", "other.bin"]);
        assert!(
            folder.read("table.bin") == folder.read("high.bin"),
            "{program}"
        );
        assert!(folder.read("back.bin") == other, "{program}");
    }
}

/// A dump of an odd number of bytes: the last one is in no word, and `dd` leaves it too.
#[test]
fn an_odd_last_byte_stays() {
    let folder = Folder::new("order", "odd");
    folder.write("slot.txt", wide([30, 31]).as_bytes());
    folder.write("chip.bin", &random(3, 1025));
    let (program, words) = JUDGES[0];
    let other = made(&folder, program, words);
    folder.write(
        "other.bin",
        &other.unwrap_or_else(|| swapped(&random(3, 1025))),
    );
    assert_eq!(folder.read("other.bin"), swapped(&random(3, 1025)));
    let words = ["--any-length", "slot.txt", "low.bin", "chip.bin"];
    assert_eq!(folder.run_other("build", &words).status.code(), Some(0));
    let words = [
        "--any-length",
        "--high-first",
        "slot.txt",
        "high.bin",
        "other.bin",
    ];
    assert_eq!(folder.run_other("build", &words).status.code(), Some(0));
    assert_eq!(folder.read("low.bin"), folder.read("high.bin"));
}
