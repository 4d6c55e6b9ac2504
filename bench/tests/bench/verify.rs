//! `onerom-bench verify`: what it reads, what it prints and how it ends.

use super::folder::{Folder, text};
use super::slots::{banked, changed, multi, random, wide, wired};

fn folder(name: &str) -> Folder {
    Folder::new("verify", name)
}

fn reads_back(folder: &Folder, words: &[&str], said: &str) {
    let told = folder.run(words);
    let (code, told) = (told.status.code(), text(&told.stdout));
    assert_eq!((code, told), (Some(0), format!("reads back: {said}\n")));
}

#[test]
fn the_sample_reads_back() {
    let folder = folder("sample");
    folder.write("chip.bin", &random(1, 8192));
    let said = "8192 words of 1 chip";
    reads_back(&folder, &["slot.txt", "chip.bin"], said);
    // What is past the chip is no part of it.
    folder.write("chip.bin", &random(2, 10000));
    reads_back(&folder, &["slot.txt", "chip.bin", "--any-length"], said);
    assert_eq!(folder.names(), ["chip.bin", "slot.txt"]);
}

#[test]
fn sets_and_words_read_back() {
    let folder = folder("sets");
    folder.write("banked.txt", banked().as_bytes());
    folder.write("multi.txt", multi().as_bytes());
    folder.write("wide.txt", wide([30, 31]).as_bytes());
    for (seed, name) in (1..).zip(["a.bin", "b.bin", "c.bin"]) {
        folder.write(name, &random(seed, 8192));
    }
    for slot in ["banked.txt", "multi.txt"] {
        let words = [slot, "a.bin", "b.bin", "c.bin"];
        reads_back(&folder, &words, "24576 words of 3 chips");
    }
    folder.write("wide.bin", &random(4, 1024));
    reads_back(&folder, &["wide.txt", "wide.bin"], "512 words of 1 chip");
}

#[test]
fn one_is_counted_as_one() {
    let folder = folder("one");
    let head = "socket 24\nchip size 1\naddress 1\ndata 9 10 11 12 13 14 15 16\ncontrol ce 18\n";
    folder.write("slot.txt", wired(head, 0..18).as_bytes());
    folder.write("chip.bin", &[0x96]);
    reads_back(&folder, &["slot.txt", "chip.bin"], "1 word of 1 chip");
}

#[test]
fn only_what_the_lines_reach_comes_back() {
    let folder = folder("reach");
    folder.write("chip.bin", &random(3, 512));
    // The ninth line is past the limit, and so a select.
    let head = "socket 24\nlimit 256\nchip size 512\naddress 1 2 3 4 5 6 7 8 17\n\
        data 9 10 11 12 13 14 15 16\ncontrol cs1 18\nsettings chip-select cs1 low\n";
    folder.write("slot.txt", wired(head, 0..18).as_bytes());
    let said = "256 words of 1 chip\nchip 0: words 0 to 255 of 512 are served; \
        A8 is past the largest table, and selects";
    reads_back(&folder, &["slot.txt", "chip.bin"], said);
}

#[test]
fn refusals_name_the_call() {
    let folder = folder("refused");
    let on = |changes: &[(&str, &str)], chip: &str| {
        folder.write("other.txt", changed(changes).as_bytes());
        folder.refused(&["other.txt", chip])
    };
    let told = on(&[("pin 10 gpio 21", "")], "chip.bin");
    assert!(told.starts_with("address search refused: 3 UnmappedPin, place 10 (socket pin 10): "));
    let told = on(&[("pin 11 gpio 0", "")], "chip.bin");
    assert!(told.starts_with("select search refused: 3 UnmappedPin, place 11 (chip pin 11): "));
    let told = on(&[], "-");
    let none = "build refused: 14 MissingImageData, place 0 (chip 0): a chip has no bytes\n";
    assert_eq!(told, none);
    folder.write("short.bin", &[0; 8191]);
    folder.write("other.txt", changed(&[]).as_bytes());
    let told = folder.refused(&["--any-length", "other.txt", "short.bin"]);
    assert!(told.starts_with("build refused: 15 ShortImageData, place 0 (chip 0)"));
    // A11 and A12 on one GPIO: no entry has the first without the second.
    let shared = [
        ("pin 2 gpio 11 26", "pin 2 gpio 11"),
        ("pin 23 gpio 34 10", "pin 23 gpio 11"),
    ];
    let unserved = "read-back refused: 24 Unserved, place 2048 (ROM 0, address 2048): \
        no entry gives a word; \
        not well wired: GPIO 11 is a candidate of socket pin 2 and socket pin 23\n";
    assert_eq!(on(&shared, "chip.bin"), unserved);
}

#[test]
fn a_word_that_comes_back_as_another_is_told() {
    let folder = folder("different");
    // D6 and D7 on one GPIO are joined.
    let shared = changed(&[("pin 19 gpio 7", "pin 19 gpio 6")]);
    folder.write("slot.txt", shared.as_bytes());
    let mut chip = vec![0; 8192];
    (chip[5], chip[6]) = (0x80, 0x40);
    folder.write("chip.bin", &chip);
    let said = "does not read back: chip 0, address 5: 80 in the chip, C0 from the board\n\
        not well wired: GPIO 6 is a candidate of socket pin 18 and socket pin 19\n";
    assert_eq!(folder.refused(&["slot.txt", "chip.bin"]), said);

    folder.write("slot.txt", wide([30, 30]).as_bytes());
    (chip[5], chip[6]) = (0, 0);
    (chip[16], chip[17]) = (0x01, 0x80);
    folder.write("chip.bin", &chip[..1024]);
    let said = "does not read back: chip 0, address 8: 8001 in the chip, C001 from the board\n\
        not well wired: GPIO 30 is a candidate of socket pin 24 and socket pin 25\n";
    assert_eq!(folder.refused(&["slot.txt", "chip.bin"]), said);
}

#[test]
fn files_that_cannot_be_read_are_named() {
    let folder = folder("unread");
    assert!(
        folder
            .unread(&["none.txt", "chip.bin"])
            .starts_with("none.txt: ")
    );
    assert!(
        folder
            .unread(&["slot.txt", "none.bin"])
            .starts_with("none.bin: ")
    );
    let told = folder.unread(&["slot.txt", "chip.bin", "-"]);
    let said = "slot.txt: expected as many chip files as chips, 1, found 2\n";
    assert_eq!(told, said);
    for words in [&[][..], &["slot.txt"]] {
        assert!(folder.unread(words).starts_with("onerom-bench "));
    }
}
