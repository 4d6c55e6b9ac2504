//! Intel HEX beside programs that nobody here wrote, objcopy and srec_cat, where they are installed:
//! each reads what the library writes, and the library reads what each writes, as far as the slip
//! takes it. docs/DIFFERENCES.md has what it does not.

use super::folder::Folder;
use super::judges::{made, run};
use super::slots::random;
use onerom::{hex_text, read_hex};

const BLOCK: usize = 1 << 16;

const OBJCOPY_WRITES: [&str; 6] = ["-I", "binary", "-O", "ihex", "chip.bin", "made"];
const OBJCOPY_READS: [&str; 6] = ["-I", "ihex", "-O", "binary", "chip.hex", "made"];
const SREC_CAT_WRITES: [&str; 5] = ["chip.bin", "-Binary", "-o", "made", "-Intel"];
const SREC_CAT_READS: [&str; 5] = ["chip.hex", "-Intel", "-o", "made", "-Binary"];
/// With our number of bytes a record.
const ROWS_OF_16: [&str; 2] = ["-Output_Block_Size", "16"];

/// The chip that a text says, or the refusal's number.
fn read(text: &[u8], size: usize) -> Result<Vec<u8>, u16> {
    let mut chip = vec![0; size];
    let told = read_hex(text, &mut chip);
    told.map(|()| chip).map_err(|refusal| refusal.number)
}

/// A chip's bytes through the text of each, with the same bytes at the end.
fn judged(folder: &Folder, chip: &[u8]) {
    let (size, ours) = (chip.len(), hex_text(chip).expect("a text"));
    folder.write("chip.bin", chip);
    folder.write("chip.hex", &ours);
    for (program, words) in [
        ("objcopy", &OBJCOPY_READS[..]),
        ("srec_cat", &SREC_CAT_READS),
    ] {
        if let Some(back) = made(folder, program, words) {
            assert!(back == chip, "{program}, {size} bytes");
        }
    }
    if let Some(theirs) = made(folder, "srec_cat", &SREC_CAT_WRITES) {
        assert!(read(&theirs, size).as_deref() == Ok(chip), "{size} bytes");
    }
    let rows = [&SREC_CAT_WRITES[..], &ROWS_OF_16].concat();
    if let Some(theirs) = made(folder, "srec_cat", &rows) {
        // But for a type 04 record that it puts before the first block too, the texts are the same.
        let first = b":020000040000FA\n";
        assert!(
            theirs.strip_prefix(first) == Some(&ours[..]),
            "{size} bytes"
        );
    }
    if let Some(theirs) = made(folder, "objcopy", &OBJCOPY_WRITES) {
        if size > BLOCK {
            assert_eq!(read(&theirs, size), Err(26), "a segment address");
            return;
        }
        assert!(read(&theirs, size).as_deref() == Ok(chip), "{size} bytes");
        // But for CR LF the texts are the same.
        let lines: Vec<u8> = theirs
            .into_iter()
            .filter(|&letter| letter != b'\r')
            .collect();
        assert!(lines == ours, "{size} bytes");
    }
}

/// Sizes at which a record, a page or a block ends, and others.
fn sizes(count: usize) -> impl Iterator<Item = usize> {
    let ends = [1, 16, 32, 256, 4096, BLOCK, 70_000];
    let ends = ends.into_iter().flat_map(|end| [end, end - 1, end + 1]);
    // Neither program takes a chip of no bytes.
    let ends = ends.filter(|&size| size > 0);
    let others = (0..count).map(|number| {
        let bytes = random(number as u64 + 99, 3);
        let number = bytes
            .iter()
            .fold(0, |sum, &byte| sum << 8 | usize::from(byte));
        1 + number % 70_000
    });
    ends.chain(others)
}

fn all_judged(name: &str, count: usize) {
    let folder = Folder::new("hex_judges", name);
    for (seed, size) in (1..).zip(sizes(count)) {
        judged(&folder, &random(seed, size));
    }
    judged(&folder, &[0xFF; 100]);
}

#[test]
fn others_read_and_write_the_same_bytes() {
    all_judged("few", 20);
}

#[test]
#[ignore = "some minutes: thousands of chips"]
fn others_read_and_write_thousands_of_chips() {
    all_judged("many", 3000);
}

#[test]
fn an_empty_chip_is_none_to_others() {
    let folder = Folder::new("hex_judges", "empty");
    folder.write("chip.bin", b"");
    folder.write("chip.hex", b":00000001FF\n");
    let fails = |program: &str, words: &[&str]| {
        let told = run(program, words, &folder);
        assert!(told.is_none_or(|told| !told.status.success()), "{program}");
    };
    fails("objcopy", &OBJCOPY_WRITES);
    fails("objcopy", &OBJCOPY_READS);
    fails("srec_cat", &SREC_CAT_READS);
    if let Some(theirs) = made(&folder, "srec_cat", &SREC_CAT_WRITES) {
        assert_eq!(read(&theirs, 0), Ok(vec![]));
        assert_eq!(theirs, hex_text(&[]).expect("a text"));
    }
}

/// A start address, as a linker writes it, is a record that the slip does not take.
#[test]
fn a_start_address_is_refused() {
    let folder = Folder::new("hex_judges", "start");
    folder.write("chip.bin", &random(7, 64));
    for (option, address, kind) in [
        ("--set-start", "0x10", "03"),
        ("--set-start", "0x123456", "05"),
    ] {
        let start = [option, address];
        let words = [&OBJCOPY_WRITES[..4], &start, &OBJCOPY_WRITES[4..]].concat();
        let Some(theirs) = made(&folder, "objcopy", &words) else {
            return;
        };
        let lines = String::from_utf8(theirs.clone()).expect("letters");
        let is_start = |line: &str| line.get(7..9) == Some(kind);
        assert!(lines.lines().any(is_start), "{lines}");
        assert_eq!(read(&theirs, 64), Err(26));
    }
}
