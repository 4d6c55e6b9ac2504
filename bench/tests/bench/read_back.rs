//! `onerom-bench read-back`: which files it reads and writes, what it prints and how it ends.

use super::folder::{Folder, text};
use super::slots::{banked, changed, multi, random, wide};

/// With the table of the sample and the random bytes of its ROM.
fn folder(name: &str) -> Folder {
    let folder = Folder::new("read-back", name);
    folder.write("chip.bin", &random(1, 8192));
    built(&folder, "slot.txt", &["chip.bin"]);
    folder
}

/// Writes table.bin.
fn built(folder: &Folder, slot: &str, chips: &[&str]) {
    let words = [&[slot, "table.bin"], chips].concat();
    let told = folder.run_other("build", &words);
    assert_eq!(told.status.code(), Some(0), "{}", text(&told.stdout));
}

/// Writes stored.txt.
fn stored(folder: &Folder, slot: &str) -> String {
    let told = folder.run_other("layout", &[slot, "stored.txt"]);
    assert_eq!(told.status.code(), Some(0), "{}", text(&told.stdout));
    text(&folder.read("stored.txt"))
}

#[test]
fn a_table_reads_back_from_its_description() {
    let folder = folder("described");
    let said = folder.done(&["slot.txt", "table.bin", "back.bin"]);
    assert_eq!(said, "back.bin: ROM 0, 8192 bytes\n");
    assert_eq!(folder.read("back.bin"), random(1, 8192));
    let names = ["back.bin", "chip.bin", "slot.txt", "table.bin"];
    assert_eq!(folder.names(), names);
}

#[test]
fn a_table_reads_back_from_its_stored_slot() {
    let folder = folder("stored");
    stored(&folder, "slot.txt");
    folder.write("back.bin", b"old");
    let said = folder.done(&["stored.txt", "table.bin", "back.bin"]);
    assert_eq!(said, "back.bin: ROM 0, 8192 bytes\n");
    assert_eq!(folder.read("back.bin"), random(1, 8192));
}

#[test]
fn a_file_for_each_rom() {
    let folder = folder("sets");
    let chips = ["a.bin", "b.bin", "c.bin"];
    for (seed, name) in (1..).zip(chips) {
        folder.write(name, &random(seed, 8192));
    }
    for slot in [banked(), multi()] {
        folder.write("set.txt", slot.as_bytes());
        built(&folder, "set.txt", &chips);
        stored(&folder, "set.txt");
        for file in ["set.txt", "stored.txt"] {
            let said = folder.done(&[file, "table.bin", "0.bin", "-", "2.bin"]);
            let wanted = "0.bin: ROM 0, 8192 bytes\n-: ROM 1, 8192 bytes, not written\n\
                2.bin: ROM 2, 8192 bytes\n";
            assert_eq!(said, wanted);
            assert_eq!(folder.read("0.bin"), random(1, 8192));
            assert_eq!(folder.read("2.bin"), random(3, 8192));
            assert!(!folder.names().contains(&"-".into()));
        }
    }
}

#[test]
fn words_of_two_bytes() {
    let folder = folder("wide");
    folder.write("wide.txt", wide([30, 31]).as_bytes());
    folder.write("chip.bin", &random(1, 1024));
    built(&folder, "wide.txt", &["chip.bin"]);
    let said = folder.done(&["wide.txt", "table.bin", "back.bin"]);
    assert_eq!(said, "back.bin: ROM 0, 1024 bytes\n");
    assert_eq!(folder.read("back.bin"), random(1, 1024));
}

#[test]
fn a_plugin_is_one_file() {
    let folder = folder("plugin");
    folder.write(
        "plugin.txt",
        b"slot user-plugin\nsize 8192\nrom size 3\nrom again\n",
    );
    let said = folder.done(&["plugin.txt", "table.bin", "back.bin"]);
    assert_eq!(said, "back.bin: plugin, 8192 bytes\n");
    assert_eq!(folder.read("back.bin"), folder.read("table.bin"));
    let said = folder.unread(&["plugin.txt", "table.bin", "back.bin", "-"]);
    let wanted = "plugin.txt: expected as many chip files as ROMs, 1, found 2\n";
    assert_eq!(said, wanted);
}

#[test]
fn refusals_write_nothing() {
    let folder = folder("refused");
    folder.write("back.bin", b"old");
    let slot = stored(&folder, "slot.txt");
    let names = folder.names();
    let said = |slot: &str| {
        folder.write("stored.txt", slot.as_bytes());
        folder.refused(&["stored.txt", "table.bin", "back.bin"])
    };
    let size = said(&slot.replace("size 8192\naddress a", "size 8193\naddress a"));
    let wrong_size = "read-back refused: 17 WrongSize, place 0: \
        the data's length is not the declared size; 8193 bytes are declared, and table.bin has 8192\n";
    assert_eq!(size, wrong_size);
    let kind = said(&slot.replace("single-rom", "9"));
    assert!(kind.starts_with("read-back refused: 18 UnknownSlotType, place 0: "));
    let forced = said(&(slot.clone() + "override gpio 20 low\n"));
    let unserved = "read-back refused: 24 Unserved, place 2 (ROM 0, address 2): \
        no entry gives a word\n";
    assert_eq!(forced, unserved);

    let unmapped = changed(&[("pin 10 gpio 21", "")]);
    assert!(said(&unmapped).starts_with("address search refused: 3 UnmappedPin, place 10 "));
    let unmapped = changed(&[("pin 11 gpio 0", "")]);
    assert!(said(&unmapped).starts_with("select search refused: 3 UnmappedPin, place 11 "));
    assert_eq!(folder.read("back.bin"), b"old");
    assert_eq!(folder.names(), names);
}

#[test]
fn a_table_of_another_length_is_refused() {
    let folder = folder("length");
    let refused = |table: &str, slot: &str| {
        let told = folder.refused(&[slot, table, "back.bin"]);
        assert!(
            told.starts_with("read-back refused: 17 WrongSize, place 0: "),
            "{told}"
        );
    };
    folder.write("empty.bin", b"");
    folder.write("short.bin", &[0; 8191]);
    folder.write("long.bin", &[0; 8193]);
    folder.write("none.txt", b"slot pio-plugin\nsize 0\n");
    folder.write("largest.txt", b"slot pio-plugin\nsize 4294967295\n");
    folder.write("edge.txt", b"slot pio-plugin\nsize 67108864\n");
    for table in ["empty.bin", "short.bin", "long.bin", "/dev/zero"] {
        refused(table, "slot.txt");
    }
    refused("/dev/zero", "none.txt");
    refused("/dev/zero", "edge.txt");
    refused("long.bin", "largest.txt");
    let said = folder.unread(&["largest.txt", "/dev/zero", "back.bin"]);
    let wanted = "/dev/zero: expected at most 67108864 bytes, more than any board stores\n";
    assert_eq!(said, wanted);
    assert_eq!(folder.done(&["none.txt", "empty.bin", "-"]), "");
    assert!(!folder.names().contains(&"back.bin".into()));
}

#[test]
fn files_that_cannot_be_read_are_named() {
    let folder = folder("unread");
    let names = folder.names();
    let said = |words: &[&str]| folder.unread(words);
    assert!(said(&["none.txt", "table.bin", "back.bin"]).starts_with("none.txt: "));
    assert!(said(&["slot.txt", "none.bin", "back.bin"]).starts_with("none.bin: "));
    assert!(said(&["slot.txt", ".", "back.bin"]).starts_with(".: "));
    assert!(said(&[".", "table.bin", "back.bin"]).starts_with(".: "));
    assert!(said(&["chip.bin", "table.bin", "back.bin"]).starts_with("chip.bin, line "));
    let count = "slot.txt: expected as many chip files as ROMs, 1, found";
    assert_eq!(said(&["slot.txt", "table.bin"]), format!("{count} 0\n"));
    assert_eq!(
        said(&["slot.txt", "table.bin", "a", "b"]),
        format!("{count} 2\n")
    );
    for words in [&[][..], &["slot.txt"]] {
        let expected = "onerom-bench read-back: expected [FLAG..] FILE TABLE CHIP.., found ";
        assert!(said(words).starts_with(expected));
    }
    assert_eq!(folder.names(), names);

    let slot = stored(&folder, "slot.txt").replace("dma 0", "dma x");
    folder.write("stored.txt", slot.as_bytes());
    let line = "stored.txt, line 5: expected a number, 0 to 255, found `x`\n";
    assert_eq!(said(&["stored.txt", "table.bin", "back.bin"]), line);
}

/// Writes two.txt and its table.
fn two_banks(folder: &Folder) {
    let slot = changed(&[("x1 gpio 24", "x1 gpio 8"), ("set single", "set banked")]);
    folder.write("two.txt", (slot + "chip again\n").as_bytes());
    built(folder, "two.txt", &["chip.bin", "chip.bin"]);
}

#[test]
fn no_file_takes_the_place_of_another() {
    let folder = folder("kept");
    two_banks(&folder);
    let names = folder.names();
    let table = folder.read("table.bin");
    for read in ["./table.bin", "two.txt"] {
        let said = folder.unread(&["two.txt", "table.bin", "back.bin", read]);
        let why = "the ROM would replace a file that it is made from";
        assert_eq!(said, format!("{read}: {why}\n"));
    }
    let said = folder.unread(&["two.txt", "table.bin", "back.bin", "./back.bin"]);
    assert_eq!(said, "./back.bin: expected another file for each ROM\n");
    assert_eq!(folder.read("table.bin"), table);
    assert_eq!(folder.names(), names);
    let said = folder.done(&["two.txt", "table.bin", "-", "back.bin"]);
    assert!(
        said.starts_with("-: ROM 0, 8192 bytes, not written\n"),
        "{said}"
    );
    let said = folder.unread(&["two.txt", "table.bin", "-", "-"]);
    assert_eq!(
        said,
        "expected a file for one of the ROMs, found `-` for each\n"
    );
}

#[test]
fn all_files_are_written_or_none() {
    let folder = folder("unwritten");
    two_banks(&folder);
    let names = folder.names();
    let said = folder.unread(&["two.txt", "table.bin", "back.bin", "none/back.bin"]);
    assert!(said.starts_with("none/back.bin: "));
    let said = folder.unread(&["two.txt", "table.bin", "back.bin", "."]);
    assert_eq!(said, ".: is no plain file\n");
    let said = folder.unread(&["two.txt", "table.bin", "/dev/null", "back.bin"]);
    assert_eq!(said, "/dev/null: is no plain file\n");
    assert_eq!(folder.names(), names);
}
