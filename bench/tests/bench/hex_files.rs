//! Chips' files of Intel HEX: jobs from such texts and to them, the two commands that turn them into
//! bytes and back, and what is said of a text that is refused.

use std::fs::File;
use std::process::{Command, Output, Stdio};

use super::folder::{Folder, text};
use super::slots::{banked, random};
use onerom::hex_text;
use oracle::model::hex::line;

const END: &str = ":00000001FF\n";

fn folder(name: &str) -> Folder {
    Folder::new("hex_files", name)
}

/// A command that succeeds and complains of nothing: what it says.
fn done(folder: &Folder, command: &str, words: &[&str]) -> String {
    let told = folder.run_other(command, words);
    let ended = (told.status.code(), text(&told.stderr));
    assert_eq!(ended, (Some(0), String::new()), "{command} {words:?}");
    text(&told.stdout)
}

/// One that fails with this code and says nothing else: why.
fn failed(folder: &Folder, code: i32, command: &str, words: &[&str]) -> String {
    let told = folder.run_other(command, words);
    let ended = (told.status.code(), text(&told.stdout));
    assert_eq!(ended, (Some(code), String::new()), "{command} {words:?}");
    text(&told.stderr)
}

/// A command on what stands in a file.
fn on_input(folder: &Folder, words: &[&str], input: &str) -> Output {
    let input = File::open(folder.path.join(input)).expect("the file is there");
    let mut program = Command::new(env!("CARGO_BIN_EXE_onerom-bench"));
    let program = program.args(words).current_dir(&folder.path);
    program
        .stdin(Stdio::from(input))
        .output()
        .expect("the program runs")
}

#[test]
fn a_job_from_texts_and_to_texts() {
    let folder = folder("job");
    let chip = random(11, 8192);
    let small = text(&hex_text(&chip).expect("a text")).to_lowercase();
    let returns = small.replace('\n', "\r\n");
    folder.write("plain.bin", &chip);
    folder.write("dump.hex", small.as_bytes());
    folder.write("dump.IHX", returns.as_bytes());
    folder.write("dump.txt", returns.trim_end().as_bytes());
    done(&folder, "build", &["slot.txt", "plain.table", "plain.bin"]);
    for (name, flag) in [
        ("dump.hex", ""),
        ("dump.IHX", "--any-length"),
        ("dump.txt", "--hex"),
    ] {
        let flags: &[&str] = if flag.is_empty() { &[] } else { &[flag] };
        let words = |words: &[&'static str]| [words, &[name], flags].concat();
        let said = done(&folder, "build", &words(&["slot.txt", "table.bin"]));
        assert_eq!(said, "table.bin: table of 8192 bytes\n");
        assert!(
            folder.read("table.bin") == folder.read("plain.table"),
            "{name}"
        );
        let said = done(&folder, "verify", &words(&["slot.txt"]));
        assert_eq!(said, "reads back: 8192 words of 1 chip\n");
    }
    let own = hex_text(&chip).expect("a text");
    for (name, flag) in [
        ("back.hex", "--part"),
        ("back.IhX", "--part"),
        ("back.bin", "--hex"),
    ] {
        let said = done(&folder, "read-back", &["slot.txt", "table.bin", name, flag]);
        assert_eq!(said, format!("{name}: ROM 0, 8192 bytes as Intel HEX\n"));
        assert!(folder.read(name) == own, "{name}");
    }
    let told = folder.run_other("read-back", &["--hex", "slot.txt", "table.bin", "-"]);
    assert!(told.status.success() && told.stdout == own);
}

#[test]
fn chips_of_both_kinds_in_one_set() {
    let folder = folder("set");
    folder.write("slot.txt", banked().as_bytes());
    let chips: Vec<Vec<u8>> = (1..4).map(|seed| random(seed, 8192)).collect();
    folder.write("0.bin", &chips[0]);
    folder.write("1.hex", &hex_text(&chips[1]).expect("a text"));
    folder.write("2.bin", &chips[2]);
    done(
        &folder,
        "build",
        &["slot.txt", "table", "0.bin", "1.hex", "2.bin"],
    );
    let said = done(
        &folder,
        "read-back",
        &["slot.txt", "table", "-", "b1.hex", "b2.bin"],
    );
    let wanted = "-: ROM 0, 8192 bytes, not written\nb1.hex: ROM 1, 8192 bytes as Intel HEX\n\
        b2.bin: ROM 2, 8192 bytes\n";
    assert_eq!(said, wanted);
    assert!(folder.read("b1.hex") == folder.read("1.hex"));
    assert!(folder.read("b2.bin") == folder.read("2.bin"));
}

#[test]
fn a_text_that_leaves_bytes_open_is_told() {
    let folder = folder("open");
    let part = [line(0, 0, &[1, 2, 3]), line(2, 0, &[4]), END.into()].concat();
    folder.write("part.hex", part.as_bytes());
    let open = "part.hex: records name 3 of 8192 bytes; the others are FF\n\
        part.hex: 1 byte named more than once; the last record counts\n";
    let said = done(&folder, "build", &["slot.txt", "table.bin", "part.hex"]);
    assert_eq!(said, format!("table.bin: table of 8192 bytes\n{open}"));
    let said = done(&folder, "verify", &["slot.txt", "part.hex"]);
    assert_eq!(said, format!("reads back: 8192 words of 1 chip\n{open}"));
    let said = done(&folder, "from-hex", &["part.hex", "5", "five.bin"]);
    let open = open.replace("8192", "5");
    assert_eq!(said, format!("five.bin: 5 bytes\n{open}"));
    assert_eq!(folder.read("five.bin"), [1, 2, 4, 0xFF, 0xFF]);
    let told = folder.run_other("from-hex", &["part.hex", "5", "-"]);
    assert_eq!(
        (&told.stdout[..], text(&told.stderr)),
        (&[1, 2, 4, 255, 255][..], open)
    );
}

#[test]
fn bytes_to_text_and_back() {
    let folder = folder("there");
    for size in [0, 1, 16, 17, 65536, 65537] {
        let chip = random(5, size);
        folder.write("a.bin", &chip);
        let said = done(&folder, "to-hex", &["a.bin", "a.hex"]);
        assert_eq!(said, format!("a.hex: {size} bytes as Intel HEX\n"));
        assert!(folder.read("a.hex") == hex_text(&chip).expect("a text"));
        for told in [
            size.to_string(),
            format!("0x{size:x}"),
            format!("0X{size:X}"),
        ] {
            let said = done(&folder, "from-hex", &["a.hex", &told, "b.bin"]);
            assert_eq!(said, format!("b.bin: {size} bytes\n"));
            assert!(folder.read("b.bin") == chip);
        }
        // Through standard input and output, where nothing else stands.
        let there = on_input(&folder, &["to-hex", "-", "-"], "a.bin");
        assert!(there.stdout == folder.read("a.hex") && there.stderr.is_empty());
        let back = on_input(&folder, &["from-hex", "-", &size.to_string(), "-"], "a.hex");
        assert!(back.stdout == chip && back.stderr.is_empty());
    }
}

/// Texts at fault for a chip of 8192 bytes, and what is said of each.
const AT_FAULT: [(&str, &str, &str); 4] = [
    (
        "dump.hex",
        ":0100000055AA\n:0100010055A9\n:0100020055A9\n:00000001FF\n",
        "line 3: 27 BadChecksum (the record's bytes do not sum to zero; this line would end in A8)",
    ),
    (
        "segment.hex",
        ":0100000055AA\n:020000021000EC\n:00000001FF\n",
        "line 2: 26 BadRecord (type 02 has segment addresses; save again as a linear (type 04) file)",
    ),
    (
        "past.ihx",
        ":01200000558A\n:00000001FF\n",
        "line 1: 28 PastChip (address 2000 is past the chip of 8192 bytes; is that its size?)",
    ),
    (
        "bytes.hex",
        "\x7f\0\0",
        "line 1: 26 BadRecord (it begins with byte 7F in place of a colon; is it Intel HEX?)",
    ),
];

#[test]
fn a_text_at_fault_is_told_with_its_line() {
    let folder = folder("faults");
    for (file, text, _) in AT_FAULT {
        folder.write(file, text.as_bytes());
    }
    let names = folder.names();
    for (file, _, wanted) in AT_FAULT {
        let said = format!("{file}: {wanted}\n");
        let why = |command: &str, words: &[&str]| failed(&folder, 1, command, words);
        assert_eq!(why("build", &["slot.txt", "table.bin", file]), said);
        assert_eq!(why("verify", &["slot.txt", file]), said);
        assert_eq!(why("from-hex", &[file, "8192", "out.bin"]), said);
        let told = on_input(&folder, &["from-hex", "-", "8192", "-"], file);
        assert_eq!(text(&told.stderr), format!("standard input: {wanted}\n"));
    }
    assert_eq!(folder.names(), names);
}

#[test]
fn sizes_that_are_none_are_told() {
    let folder = folder("sizes");
    folder.write("a.hex", END.as_bytes());
    for size in [
        "",
        "x",
        "-1",
        "+1",
        "0x",
        "0x+1",
        "1k",
        "8192.0",
        "FF",
        "99999999999999999999",
    ] {
        let said = failed(&folder, 2, "from-hex", &["a.hex", "--", size, "b.bin"]);
        let wanted = "expected the chip's size in bytes, decimal or behind 0x in hex, found";
        assert_eq!(said, format!("{wanted} `{size}`\n"));
    }
    for size in ["16777217", "0xFFFFFFFFFFFF"] {
        let said = failed(&folder, 1, "from-hex", &["a.hex", size, "b.bin"]);
        assert_eq!(
            said,
            "a.hex: 1 OutOfDomain (a chip has at most 16777216 bytes)\n"
        );
    }
    folder.write("large.bin", &vec![0; 16_777_217]);
    let said = failed(&folder, 1, "to-hex", &["large.bin", "b.hex"]);
    let wanted = "1 OutOfDomain (a chip has at most 16777216 bytes, and there are more)";
    assert_eq!(said, format!("large.bin: {wanted}\n"));
    assert!(!folder.names().iter().any(|name| name.starts_with("b.")));
}

#[test]
fn no_file_is_replaced_by_what_is_made_of_it() {
    let folder = folder("kept");
    folder.write("a.hex", END.as_bytes());
    let said = failed(&folder, 2, "to-hex", &["chip.bin", "./chip.bin"]);
    assert_eq!(
        said,
        "./chip.bin: the text would replace a file that it is made from\n"
    );
    let said = failed(&folder, 2, "from-hex", &["a.hex", "1", "a.hex"]);
    assert_eq!(
        said,
        "a.hex: the chip would replace a file that it is made from\n"
    );
    assert_eq!(folder.read("a.hex"), END.as_bytes());
    for words in [
        &["to-hex", "no.bin", "x.hex"][..],
        &["from-hex", "no.hex", "1", "x.bin"],
    ] {
        assert!(failed(&folder, 2, words[0], &words[1..]).starts_with("no."));
    }
    assert_eq!(folder.names(), ["a.hex", "chip.bin", "slot.txt"]);
}
