//! `onerom-bench sample`: which files it writes, and that what it says to type then works.

use std::fs;
use std::process::Output;

use super::folder::{Folder, SAMPLE, text};
use super::slots::SAMPLE_A;

fn folder(name: &str) -> Folder {
    Folder::new("sample", name)
}

fn rom() -> Vec<u8> {
    let byte = |address: u32| (address % 256 + 31 * (address / 256)) % 256;
    (0..8192).map(|address| byte(address) as u8).collect()
}

/// Types a line that the program said.
fn typed(folder: &Folder, line: &str) -> Output {
    let words: Vec<&str> = line.split_whitespace().collect();
    assert_eq!(words[0], "onerom-bench");
    folder.run_other(words[1], &words[2..])
}

#[test]
fn the_files_are_written() {
    let folder = folder("written");
    let wanted = "2764.txt: description of a 2764 on a 28-pin board
2764a.txt: the same chip on a board with the smaller RP2350A
2764.bin: the ROM of both, 8192 bytes

next:
    onerom-bench layout 2764.txt slot.txt
    onerom-bench page 2764.txt
    onerom-bench build 2764.txt table.bin 2764.bin
    onerom-bench read-back slot.txt table.bin back.bin
    onerom-bench verify 2764.txt 2764.bin
    onerom-bench verify 2764a.txt 2764.bin
";
    assert_eq!(folder.done(&[]), wanted);
    assert_eq!(text(&folder.read("2764.txt")), SAMPLE);
    assert_eq!(text(&folder.read("2764a.txt")), SAMPLE_A);
    assert_eq!(folder.read("2764.bin"), rom());
    let names = ["2764.bin", "2764.txt", "2764a.txt", "chip.bin", "slot.txt"];
    assert_eq!(folder.names(), names);
}

#[test]
fn the_next_commands_work() {
    let folder = folder("next");
    let said = folder.done(&["some"]);
    assert!(said.starts_with("some/2764.txt: "));
    let next = said.lines().filter(|line| line.starts_with("    "));
    for line in next {
        let told = typed(&folder, line);
        assert_eq!(told.status.code(), Some(0), "{line}");
    }
    assert_eq!(folder.read("some/back.bin"), rom());
}

#[test]
fn names_are_said_as_a_shell_takes_them() {
    let folder = folder("quoted");
    fs::create_dir(folder.path.join("it's")).expect("a folder");
    let said = folder.done(&["it's"]);
    assert!(said.contains(r"    onerom-bench verify 'it'\''s/2764.txt' 'it'\''s/2764.bin'"));
}

#[test]
fn no_file_is_replaced() {
    let folder = folder("kept");
    for name in ["2764.bin", "2764a.txt", "2764.txt"] {
        folder.write(name, b"old");
        let names = folder.names();
        let said = folder.unread(&[]);
        assert_eq!(
            said,
            format!("{name}: is there already, and is not replaced\n")
        );
        assert_eq!(folder.read(name), b"old");
        assert_eq!(folder.names(), names);
    }
}

#[test]
fn a_folder_that_is_none_is_named() {
    let folder = folder("none");
    let names = folder.names();
    assert!(folder.unread(&["chip.bin"]).starts_with("chip.bin: "));
    assert!(folder.unread(&["chip.bin/a"]).starts_with("chip.bin/a: "));
    assert_eq!(folder.names(), names);
}
