//! `onerom-bench build`: which files it reads and writes, what it prints and how it ends.

use super::folder::{Folder, SAMPLE, text};

fn folder(name: &str) -> Folder {
    Folder::new("build", name)
}

#[test]
fn a_table_is_written() {
    let folder = folder("written");
    let mut chip = vec![0; 8192];
    chip[1] = 7;
    folder.write("chip.bin", &chip);
    let told = folder.run(&["slot.txt", "table.bin", "chip.bin"]);
    assert_eq!(told.status.code(), Some(0));
    assert_eq!(text(&told.stdout), "table.bin: table of 8192 bytes\n");
    // A0 is at bit 12 of the index.
    let mut table = vec![0; 8192];
    table[1 << 12] = 7;
    assert_eq!(folder.read("table.bin"), table);
    assert_eq!(folder.names(), ["chip.bin", "slot.txt", "table.bin"]);
}

#[test]
fn a_table_takes_the_place_of_an_old_one() {
    let folder = folder("replaced");
    folder.write("table.bin", b"old");
    let told = folder.run(&["slot.txt", "table.bin", "chip.bin"]);
    assert_eq!(told.status.code(), Some(0));
    assert_eq!(folder.read("table.bin"), [0x5A; 8192]);
}

#[test]
fn a_file_for_each_chip() {
    let folder = folder("banked");
    let banked = SAMPLE.replace("set single", "set banked") + "chip again\n";
    folder.write(
        "banked.txt",
        banked.replace("x1 gpio 24", "x1 gpio 8").as_bytes(),
    );
    folder.write("other.bin", &[0xA5; 8192]);
    let told = folder.run(&["banked.txt", "table.bin", "chip.bin", "other.bin"]);
    assert_eq!(text(&told.stdout), "table.bin: table of 16384 bytes\n");
    // X1 is the lowest GPIO.
    assert_eq!(folder.read("table.bin"), [0x5A, 0xA5].repeat(8192));
}

#[test]
fn refusals_name_the_call() {
    let folder = folder("refused");
    folder.write("table.bin", b"old");
    folder.write("short.bin", &[0; 8191]);
    let names = folder.names();
    let short = "build refused: 15 ShortImageData, place 0 (chip 0): \
        a chip has fewer bytes than its size; its size is 8192, and there are 8191 bytes\n";
    assert_eq!(
        folder.refused(&["--any-length", "slot.txt", "table.bin", "short.bin"]),
        short
    );
    let none = "build refused: 14 MissingImageData, place 0 (chip 0): a chip has no bytes\n";
    assert_eq!(folder.refused(&["slot.txt", "table.bin", "-"]), none);

    let unmapped = SAMPLE.replace("pin 11 gpio 0", "");
    folder.write("slot.txt", unmapped.as_bytes());
    let told = folder.refused(&["slot.txt", "table.bin", "chip.bin"]);
    assert!(told.starts_with("select search refused: 3 UnmappedPin, place 11 (chip pin 11): "));
    let unmapped = SAMPLE.replace("pin 10 gpio 21", "");
    folder.write("slot.txt", unmapped.as_bytes());
    let told = folder.refused(&["slot.txt", "table.bin", "chip.bin"]);
    assert!(told.starts_with("address search refused: 3 UnmappedPin, place 10 (socket pin 10): "));

    assert_eq!(folder.read("table.bin"), b"old");
    assert_eq!(folder.names(), names);
}

#[test]
fn files_that_cannot_be_read_are_named() {
    let folder = folder("unread");
    let told = folder.unread(&["none.txt", "table.bin", "chip.bin"]);
    assert!(told.starts_with("none.txt: "));
    let told = folder.unread(&["slot.txt", "table.bin", "none.bin"]);
    assert!(told.starts_with("none.bin: "));
    let told = folder.unread(&["slot.txt", "table.bin", "."]);
    assert!(told.starts_with(".: "));
    let told = folder.unread(&["chip.bin", "table.bin", "chip.bin"]);
    assert!(told.starts_with("chip.bin, line 1: "));
    let told = folder.unread(&["slot.txt", "table.bin", "chip.bin", "chip.bin"]);
    assert_eq!(
        told,
        "slot.txt: expected as many chip files as chips, 1, found 2\n"
    );
    assert_eq!(folder.names(), ["chip.bin", "slot.txt"]);
}

#[test]
fn files_that_cannot_be_written_are_named() {
    let folder = folder("unwritten");
    let told = folder.unread(&["slot.txt", "none/table.bin", "chip.bin"]);
    assert!(told.starts_with("none/table.bin: "));
    assert_eq!(
        folder.unread(&["slot.txt", ".", "chip.bin"]),
        ".: is no plain file\n"
    );
    for read in ["chip.bin", "./slot.txt"] {
        let told = folder.unread(&["slot.txt", read, "chip.bin"]);
        let why = "the table would replace a file that it is made from";
        assert_eq!(told, format!("{read}: {why}\n"));
    }
    assert_eq!(folder.read("chip.bin"), [0x5A; 8192]);
    assert_eq!(folder.names(), ["chip.bin", "slot.txt"]);
}

#[test]
fn too_few_words() {
    let folder = folder("words");
    for words in [&[][..], &["slot.txt"], &["slot.txt", "table.bin"]] {
        assert!(folder.unread(words).starts_with("onerom-bench "));
    }
    assert_eq!(folder.names(), ["chip.bin", "slot.txt"]);
}
