//! What is said of the line at fault: it fits the library's verdict, and what it advises helps.

use onerom::interface::refusals::{BAD_CHECKSUM, BAD_RECORD, PAST_CHIP};
use onerom::{hex_fault_line, hex_text, read_hex};
use onerom_bench::hex_lines::{named, why};
use oracle::generate::hex_case;
use oracle::model::hex::line;

const END: &str = ":00000001FF\n";

/// The number, the line and what is said of a text that is refused.
fn told(text: &[u8], size: usize) -> Option<(u16, u64, String)> {
    let refusal = read_hex(text, &mut vec![0; size]).err()?;
    let line = hex_fault_line(text, size).expect("a line");
    let why = why(text, size, refusal.number, line);
    let why = why.unwrap_or_else(|| panic!("nothing to say of \"{}\"", text.escape_ascii()));
    Some((refusal.number, line, why))
}

/// The text with other digits at the end of a line.
fn ending_in(text: &[u8], at: u64, digits: &str) -> Vec<u8> {
    let mut lines: Vec<Vec<u8>> = text
        .split_inclusive(|&letter| letter == b'\n')
        .map(<[u8]>::to_vec)
        .collect();
    let own = &mut lines[at as usize - 1];
    let end = own.trim_ascii_end().len();
    own[end - 2..end].copy_from_slice(digits.as_bytes());
    lines.concat()
}

#[test]
fn there_is_something_to_say_of_every_damaged_text() {
    let count = if cfg!(debug_assertions) { 300 } else { 20_000 };
    for number in 0..count {
        let case = hex_case(3, number);
        let Some((refusal, line, why)) = told(&case.text, case.size) else {
            continue;
        };
        if refusal == BAD_CHECKSUM {
            let mended = ending_in(&case.text, line, &why[why.len() - 2..]);
            let next = told(&mended, case.size);
            let is_past = |next: &(u16, u64, String)| next.1 > line || next.0 == PAST_CHIP;
            assert!(
                next.as_ref().is_none_or(is_past),
                "{}",
                mended.escape_ascii()
            );
        }
    }
}

#[test]
fn nothing_is_said_of_what_is_not_there() {
    let text = [line(0, 0, &[1]), END.into()].concat();
    for number in [0, 1, 16, BAD_RECORD, PAST_CHIP] {
        for line in 0..=3 {
            assert_eq!(
                why(text.as_bytes(), 1, number, line),
                None,
                "{number}, {line}"
            );
        }
    }
}

/// What is said of a text for a chip of 32 bytes, and where.
fn said(text: &str) -> (u64, String) {
    let (_, line, why) = told(text.as_bytes(), 32).expect("a refusal");
    (line, why)
}

/// Lines, and what is said of each for a chip of 32 bytes.
const WRONG: [(&str, &str); 22] = [
    ("", NO_END),
    ("\n", "it is blank, and every line is a record; take it out"),
    (
        "S1137AF0\n",
        "it begins with `S` in place of a colon; is it Intel HEX?",
    ),
    (
        "\u{feff}:00\n",
        "it begins with a byte order mark; save it as plain ASCII",
    ),
    (
        "\x7fELF",
        "it begins with byte 7F in place of a colon; is it Intel HEX?",
    ),
    (
        " :00\n",
        "it begins with a space in place of a colon; is it Intel HEX?",
    ),
    (
        ":0100000055A\n",
        "it has 11 digits, and one with a count of 1 has 12; is it cut?",
    ),
    (":00\n", "it has 2 digits, and no record has fewer than 10"),
    (":01O0000055AA\n", "`O` in column 4 is no hex digit"),
    (":0100000055AA\t\n", "a tab in column 14 is no hex digit"),
    (
        ":0100000055AA\r\r\n",
        "a carriage return in column 14 is no hex digit",
    ),
    (
        ":020000021000EC\n",
        "type 02 has segment addresses; save again as a linear (type 04) file",
    ),
    (
        ":0400000300000000F9\n",
        "type 03 is a start address; save again without one",
    ),
    (
        ":0400000500000000F7\n",
        "type 05 is a start address; save again without one",
    ),
    (":0000001AE6\n", "type 1A is none of 00, 01 and 04"),
    (
        ":0100000100FE\n",
        "an end record has no data bytes, and this one 1",
    ),
    (
        ":00001001EF\n",
        "a type 01 record has address 0000, and this one 0010",
    ),
    (
        ":0100000400FB\n",
        "a type 04 record has 2 data bytes, and this one 1",
    ),
    (
        ":020001040000F9\n",
        "a type 04 record has address 0000, and this one 0001",
    ),
    (
        ":02FFFF0000000000\n",
        "it has 16 digits, and one with a count of 2 has 14; is it cut?",
    ),
    (
        ":0100000055AB\n",
        "the record's bytes do not sum to zero; this line would end in AA",
    ),
    (
        ":02001F000000DF\n",
        "address 0020 is past the chip of 32 bytes; is that its size?",
    ),
];

const NO_END: &str = "the text stops without the end record `:00000001FF`; is the file whole?";

#[test]
fn the_line_says_what_is_wrong_with_it() {
    let good = line(0, 0, &[0x55]);
    for (text, wanted) in WRONG {
        assert_eq!(said(text), (1, wanted.into()), "{}", text.escape_debug());
        if text.starts_with(':') {
            // The same further on.
            let text = [&good, text].concat();
            assert_eq!(said(&text), (2, wanted.into()), "{}", text.escape_debug());
        }
    }
}

#[test]
fn the_line_says_what_is_wrong_beside_others() {
    let good = line(0, 0, &[0x55]);
    let past = "address 10000 is past the chip of 32 bytes; is that its size?";
    assert_eq!(said(&(line(0, 4, &[0, 1]) + &good)), (2, past.into()));
    let behind = "it stands behind the end record in line 2, where the text ends; take it out";
    assert_eq!(said(&[&good, END, "\n"].concat()), (3, behind.into()));
    assert_eq!(said(&[&good[..], &good].concat()), (3, NO_END.into()));
    let no_colon = "it begins with `x` in place of a colon";
    assert_eq!(said(&[&good, "x\n"].concat()), (2, no_colon.into()));
    let wraps = "16 data bytes from offset FFF8 run past offset FFFF; the rest goes behind a type \
        04 record";
    assert_eq!(said(&line(0xFFF8, 0, &[0; 16])), (1, wraps.into()));
}

#[test]
fn bytes_that_are_named_are_counted() {
    let text = [
        line(0, 0, &[1, 2, 3]),
        line(2, 0, &[4, 5]),
        line(2, 0, &[6]),
        line(0, 4, &[0, 1]),
        line(1, 0, &[7]),
        END.into(),
    ]
    .concat();
    assert_eq!(named(text.as_bytes(), 0x10002), (5, 1));
    let chip = vec![0; 70_000];
    let text = hex_text(&chip).expect("a text");
    assert_eq!(named(&text, chip.len()), (70_000, 0));
    assert_eq!(named(END.as_bytes(), 4), (0, 0));
}
