//! `onerom-bench layout` with a stored slot's file; tests/program.rs has what it prints.

use super::folder::{Folder, text};
use super::slots::multi;

fn folder(name: &str) -> Folder {
    Folder::new("layout", name)
}

#[test]
fn the_stored_slot_is_written() {
    let folder = folder("written");
    let alone = folder.done(&["slot.txt"]);
    let said = folder.done(&["slot.txt", "stored.txt"]);
    assert_eq!(said, alone + "\nstored.txt: stored slot\n");
    let wanted = "slot single-rom
size 8192
address algorithm 0 base 9 pin 0 pins 13
data algorithm 0 base 0 pin 0
dma 0
bit-mode 0
select algorithm 0 base 22 pin 0
x1 gpio 24
x2 gpio 25
rom size 8192
address 21 20 19 18 17 16 15 14 13 12 9 10 11
data 0 1 2 3 4 5 6 7
";
    assert_eq!(text(&folder.read("stored.txt")), wanted);
    assert_eq!(folder.names(), ["chip.bin", "slot.txt", "stored.txt"]);
}

#[test]
fn roms_that_are_alike_are_said_once() {
    let folder = folder("multi");
    folder.write("multi.txt", multi().as_bytes());
    folder.write("stored.txt", b"old");
    folder.done(&["multi.txt", "stored.txt"]);
    let slot = text(&folder.read("stored.txt"));
    assert!(slot.starts_with("slot multi\nsize 131072\n"));
    assert!(slot.contains("\nselect algorithm 0 base 22 pin 0\n"));
    assert!(slot.ends_with("\ndata 0 1 2 3 4 5 6 7\nrom again\nrom again\n"));
}

#[test]
fn a_refusal_writes_nothing() {
    let folder = folder("refused");
    folder.write("stored.txt", b"old");
    let names = folder.names();
    folder.write(
        "slot.txt",
        super::slots::changed(&[("pin 11 gpio 0", "")]).as_bytes(),
    );
    let told = folder.refused(&["slot.txt", "stored.txt"]);
    assert!(told.starts_with("select search refused: 3 UnmappedPin, place 11 (chip pin 11): "));
    assert_eq!(folder.read("stored.txt"), b"old");
    assert_eq!(folder.names(), names);
}

#[test]
fn files_that_cannot_be_used_are_named() {
    let folder = folder("unread");
    let names = folder.names();
    let said = folder.unread(&["slot.txt", "./slot.txt"]);
    assert_eq!(
        said,
        "./slot.txt: the slot would replace a file that it is made from\n"
    );
    assert!(
        folder
            .unread(&["none.txt", "stored.txt"])
            .starts_with("none.txt: ")
    );
    assert!(folder.unread(&["none.txt"]).starts_with("none.txt: "));
    assert!(
        folder
            .unread(&["chip.bin"])
            .starts_with("chip.bin, line 1: ")
    );
    let told = folder.run(&["slot.txt", "none/stored.txt"]);
    assert_eq!(told.status.code(), Some(2));
    assert!(text(&told.stderr).starts_with("none/stored.txt: "));
    assert_eq!(folder.names(), names);
}
