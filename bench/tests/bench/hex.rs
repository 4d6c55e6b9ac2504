//! The calls on Intel HEX between guard pages, against the model that was written from the slip.

#[path = "../../src/compare/hex_fenced.rs"]
mod fenced;

use std::process::Command;

use super::slots::random;
use fenced::Hex;
use onerom::fence::{Lent, Shown, Side};
use onerom::{
    hex_fault_line, hex_fault_line_result, hex_length, hex_text, read_hex, read_hex_into,
    write_hex, write_hex_into,
};
use oracle::model::hex::{LARGEST_CHIP, line};

const OUT_OF_DOMAIN: u64 = 1 << 48;
const SHORT_BUFFER: u64 = 16 << 48;

/// The end record.
const END: &str = ":00000001FF\n";

/// Reads at both sides: the number, where nothing differs from the model.
fn read(hex: &mut Hex, text: &[u8], size: usize) -> u64 {
    let told = Side::BOTH.map(|side| hex.read(text, size, side));
    let [Ok(lower), Ok(upper)] = told else {
        panic!("{told:?}: {size} bytes of \"{}\"", text.escape_ascii());
    };
    assert_eq!(lower, upper);
    lower
}

/// Every text of so many letters.
fn texts(length: usize) -> Vec<Vec<u8>> {
    const LETTERS: &[u8] = b":01Ff\r\n ";
    let mut texts = vec![vec![]];
    for _ in 0..length {
        let longer = |text: &Vec<u8>| {
            let text = text.clone();
            LETTERS
                .iter()
                .map(move |letter| [&text[..], &[*letter]].concat())
        };
        texts = texts.iter().flat_map(longer).collect();
    }
    texts
}

#[test]
fn every_short_text_alone_and_among_records() {
    let mut hex = Hex::default();
    let data = b":0100000055AA\n";
    let end = END.as_bytes();
    let open = END.trim_end().as_bytes();
    let mut sound = 0;
    for text in (0..=3).flat_map(texts) {
        for size in 0..=2 {
            assert_eq!(read(&mut hex, &text, size), 26);
            for around in [
                [&text, end].concat(),
                [open, &text].concat(),
                [&data[..], &text, end].concat(),
                [&data[..], open, &text].concat(),
            ] {
                sound += u32::from(read(&mut hex, &around, size) == 0);
            }
        }
    }
    // No letters at all, and of the longer ones LF and CR LF at the end.
    assert_eq!(sound, 3 + 3 * 3 + 2 + 2 * 3);
}

#[test]
fn no_digit_of_a_good_text_can_be_another() {
    let mut hex = Hex::default();
    let good = [
        line(0, 0, &[1, 0x2B, 0xF3]),
        line(5, 0, &[0, 0xFF]),
        END.into(),
    ]
    .concat();
    assert_eq!(read(&mut hex, good.as_bytes(), 16), 0);
    let mut tried = 0;
    for place in (0..good.len()).filter(|&place| good.as_bytes()[place].is_ascii_hexdigit()) {
        for digit in b"0123456789ABCDEFabcdef" {
            let mut text = good.clone().into_bytes();
            let is_same = text[place].eq_ignore_ascii_case(digit);
            text[place] = *digit;
            let told = read(&mut hex, &text, 16);
            assert_eq!(told == 0, is_same, "{}", text.escape_ascii());
            tried += 1;
        }
    }
    assert_eq!(tried, 22 * (16 + 14 + 10));
}

/// A text of these lines, each with its line feed.
fn joined(lines: &[&str]) -> String {
    lines.iter().map(|line| format!("{line}\n")).collect()
}

/// A record with another checksum than it should have.
fn unsummed(offset: u16, kind: u8, data: &[u8]) -> String {
    let good = line(offset, kind, data);
    let (digits, sum) = good.trim_end().split_at(good.len() - 3);
    let sum = u8::from_str_radix(sum, 16).expect("a checksum");
    format!("{digits}{:02X}\n", sum.wrapping_add(1))
}

/// Lines behind the number and the line at fault that they come to for a chip of 32 bytes.
fn in_order() -> Vec<(u64, u64, String)> {
    let (good, past) = (line(0, 0, &[1]), line(32, 0, &[1]));
    let block = |number: u16| line(0, 4, &number.to_be_bytes());
    let texts = |parts: &[&str]| parts.concat();
    vec![
        (0, 0, texts(&[&good, END])),
        (28, 1, texts(&[&past, "nonsense\n", END])),
        (26, 1, texts(&["nonsense\n", &past, END])),
        (27, 1, texts(&[&unsummed(32, 0, &[1]), END])),
        (28, 2, texts(&[&good, &past])),
        (26, 2, texts(&[&good])),
        (26, 1, texts(&[&unsummed(0, 2, &[0, 0]), END])),
        (26, 1, texts(&[&line(0, 3, &[0; 4]), END])),
        (26, 1, texts(&[&line(0, 5, &[0; 4]), END])),
        (26, 1, texts(&[&unsummed(0, 1, &[1]), END])),
        (26, 1, texts(&[&unsummed(1, 1, &[]), END])),
        (26, 1, texts(&[&unsummed(1, 4, &[0, 0]), END])),
        (26, 1, texts(&[&unsummed(0, 4, &[0]), END])),
        (26, 1, texts(&[&unsummed(0, 4, &[0; 3]), END])),
        (26, 1, texts(&[&unsummed(0xFFFF, 0, &[1, 2]), END])),
        (27, 1, texts(&[&unsummed(0xFFFF, 0, &[1]), END])),
        (28, 1, texts(&[&line(0xFFFF, 0, &[1]), END])),
        (27, 1, texts(&[":00000001FE\n", "nonsense\n"])),
        (26, 2, texts(&[END, END])),
        (26, 2, texts(&[END, "\n"])),
        (26, 2, texts(&[END, "\r\n"])),
        (26, 2, texts(&[END, &past])),
        (0, 0, texts(&[&line(0xFFFF, 0, &[]), END])),
        (0, 0, texts(&[&block(0xFFFF), &line(7, 0, &[]), END])),
        (28, 2, texts(&[&block(1), &good, END])),
        (0, 0, texts(&[&block(1), &block(0), &good, END])),
        // 65536 blocks on, where 32 bits would end.
        (28, 2, texts(&[&block(0xFFFF), &line(0xFFFF, 0, &[1]), END])),
    ]
}

#[test]
fn the_first_line_at_fault_answers_with_its_first_fault() {
    let mut hex = Hex::default();
    for (number, line, text) in in_order() {
        assert_eq!(read(&mut hex, text.as_bytes(), 32), number, "{text}");
        let told = hex_fault_line(text.as_bytes(), 32);
        assert_eq!(told, (line > 0).then_some(line), "{text}");
    }
}

#[test]
fn every_line_is_a_record_and_nothing_else() {
    let mut hex = Hex::default();
    let good = ":0100000055AA";
    let end = ":00000001ff";
    for sound in [
        format!("{good}\r\n{end}"),
        format!("{good}\n{end}\r\n"),
        joined(&[&good.to_lowercase(), end]),
        joined(&[good, ":01000100AA54", good, end]),
    ] {
        assert_eq!(read(&mut hex, sound.as_bytes(), 2), 0, "{sound}");
    }
    for (at, wrong) in [
        (2, format!("{good}\n\n{end}\n")),
        (1, format!("\n{good}\n{end}\n")),
        (1, format!(" {good}\n{end}\n")),
        (1, format!("{good} \n{end}\n")),
        (1, format!("{good}\t\n{end}\n")),
        (1, format!("\u{feff}{good}\n{end}\n")),
        (1, format!("{good}\r{end}\n")),
        (1, format!("{good}\r\r\n{end}\n")),
        (2, format!("{good}\n{end}\r")),
        (3, format!("{good}\n{end}\n\r")),
        (3, format!("{good}\n{end}\n\x1a")),
        (1, format!("{good}00\n{end}\n")),
        (1, format!(":0100000055A\n{end}\n")),
        (1, format!("0100000055AA\n{end}\n")),
        (1, format!("::0100000055AA\n{end}\n")),
        (1, format!("S00600004844521B\n{end}\n")),
    ] {
        let told = read(&mut hex, wrong.as_bytes(), 2);
        let line = hex_fault_line(wrong.as_bytes(), 2);
        assert_eq!((told, line), (26, Some(at)), "{}", wrong.escape_debug());
    }
}

#[test]
fn every_part_of_a_good_text() {
    let mut hex = Hex::default();
    let block = line(0, 4, &[0, 1]);
    let parts = [line(3, 0, &[1, 2, 3]), block, line(0, 0, &[4]), END.into()];
    let good = parts.concat().replace('\n', "\r\n").into_bytes();
    let mut sound = 0;
    for cut in 0..=good.len() {
        for part in [&good[..cut], &good[cut..]] {
            for size in [6, 1 << 16, (1 << 16) + 1] {
                sound += u32::from(read(&mut hex, part, size) == 0);
            }
        }
    }
    // In a chip that has all bytes: the whole, without its last end, and from each record on. From the
    // block's record on a byte of block 1 comes; from the one behind it on it is one of block 0.
    assert_eq!(sound, 2 + 1 + 1 + 3 + 3);
}

#[test]
fn the_last_record_counts_and_the_rest_is_ff() {
    let text = [line(0, 0, &[1, 2, 3]), line(1, 0, &[9]), END.into()].concat();
    let mut chip = [0; 5];
    assert_eq!(read_hex(text.as_bytes(), &mut chip), Ok(()));
    assert_eq!(chip, [1, 9, 3, 0xFF, 0xFF]);
}

/// Writes a chip of this size at both sides; reads it back from its own text.
fn comes_back(hex: &mut Hex, size: usize) {
    let chip = random(size as u64 + 1, size);
    for (side, spare) in Side::BOTH.into_iter().zip([0, 5]) {
        let text = hex.write(&chip, spare, side);
        let text = text.unwrap_or_else(|why| panic!("{size} bytes: {why}"));
        assert_eq!(text.len(), hex_length(size));
        assert_eq!(hex.read(&text, size, side), Ok(0), "{size} bytes");
    }
}

#[test]
fn a_chip_comes_back_through_its_own_text() {
    const BLOCK: usize = 1 << 16;
    let mut hex = Hex::default();
    let many = if cfg!(debug_assertions) { 40 } else { 545 };
    let around = |place: usize| place - 2..place + 3;
    let pages = (2..=16).flat_map(|page| around(256 * page));
    let blocks = [BLOCK - 16, BLOCK, BLOCK + 16, 70_000, 2 * BLOCK, 3 * BLOCK];
    let blocks = blocks.into_iter().flat_map(around);
    for size in (0..many).chain(pages).chain(blocks) {
        comes_back(&mut hex, size);
    }
}

#[test]
#[ignore = "some minutes: every size that the test above has a sample of"]
fn every_chip_up_to_70000_bytes_comes_back() {
    let mut hex = Hex::default();
    for size in 0..=70_000 {
        comes_back(&mut hex, size);
    }
}

#[test]
fn the_largest_chip_comes_back() {
    let chip = random(24, LARGEST_CHIP);
    let text = hex_text(&chip).expect("a text");
    assert_eq!(
        (text.len(), hex_length(LARGEST_CHIP)),
        (46_141_436, text.len())
    );
    let mut back = vec![0; LARGEST_CHIP];
    assert_eq!(read_hex(&text, &mut back), Ok(()));
    assert!(back == chip);
    assert_eq!(hex_fault_line(&text, LARGEST_CHIP), None);
    assert_eq!(hex_fault_line(&text, LARGEST_CHIP - 1), Some(1 << 20 | 255));
    if !cfg!(debug_assertions) {
        assert!(Ok(text) == oracle::model::hex::write(&chip));
    }
}

#[test]
fn a_larger_chip_is_refused_before_anything_else() {
    let (mut shown, mut lent) = (Shown::default(), Lent::default());
    let larger = LARGEST_CHIP + 1;
    for side in Side::BOTH {
        shown.put(&vec![0; larger], side);
        for length in [0, hex_length(larger)] {
            let told = write_hex_into(shown.bytes(), lent.lend(length, side));
            assert_eq!(told, OUT_OF_DOMAIN);
            assert!(lent.is_kept_past(0));
        }
        for text in ["", "nonsense", END] {
            shown.put(text.as_bytes(), side);
            let told = read_hex_into(shown.bytes(), lent.lend(larger, side));
            assert_eq!(told, OUT_OF_DOMAIN);
            assert!(lent.is_kept_past(0));
            for size in [larger as u64, 1 << 48, u64::MAX] {
                assert_eq!(hex_fault_line_result(shown.bytes(), size), 0, "{text}");
            }
        }
    }
}

/// Rust's empty slice points to no memory at all.
#[test]
fn no_bytes_need_no_place() {
    assert_eq!(read_hex_into(&[], &mut []), 26 << 48);
    assert_eq!(hex_fault_line_result(&[], 0), 1);
    assert_eq!(read_hex_into(END.as_bytes(), &mut []), 0);
    assert_eq!(write_hex_into(&[], &mut []), SHORT_BUFFER);
    assert_eq!(write_hex(&[], &mut [0; 12]), Ok(12));
    assert_eq!(hex_text(&[]).as_deref(), Ok(END.as_bytes()));
}

/// How many texts from a seed. A debug build takes its time, and is there to be tried at all.
const COUNT: u64 = if cfg!(debug_assertions) { 300 } else { 50_000 };

#[test]
fn no_damaged_text_differs() {
    let mut program = Command::new(env!("CARGO_BIN_EXE_onerom-bench"));
    let told = program
        .args(["compare-hex", "1", &COUNT.to_string()])
        .output();
    let told = told.expect("the program runs");
    let said = String::from_utf8_lossy(&told.stdout);
    assert_eq!(told.status.code(), Some(0), "{said}");
    for answer in ["read", "refusal 26", "refusal 27", "refusal 28"] {
        assert!(said.contains(&format!("\n  {answer} ")), "{said}");
    }
    assert!(
        said.ends_with(&format!("\n{COUNT} texts, 0 differences\n")),
        "{said}"
    );
}
