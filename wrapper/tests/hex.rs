//! Intel HEX from Rust: what the safe functions say and write. What a text means is tried in ../bench.

use onerom::{Call, hex_fault_line, hex_length, hex_text, read_hex, write_hex};

const TEXT: &[u8] = b":0100000055AA\n:00000001FF\n";

#[test]
fn a_chip_of_one_byte() {
    assert_eq!(hex_text(&[0x55]).as_deref(), Ok(TEXT));
    let mut chip = [0; 2];
    assert_eq!(read_hex(TEXT, &mut chip), Ok(()));
    assert_eq!(chip, [0x55, 0xFF]);
    assert_eq!(hex_fault_line(TEXT, 2), None);
}

#[test]
fn a_text_stands_at_the_front() {
    let mut text = [7; 30];
    assert_eq!(write_hex(&[0x55], &mut text), Ok(hex_length(1)));
    assert_eq!(text, [TEXT, &[7; 4]].concat()[..]);
}

#[test]
fn a_text_has_the_length_that_is_said() {
    for bytes in [0, 1, 15, 16, 17, 65535, 65536, 65537, 131_072, 131_073] {
        let text = hex_text(&vec![0xA5; bytes]);
        assert_eq!(
            text.map(|text| text.len()),
            Ok(hex_length(bytes)),
            "{bytes}"
        );
    }
    assert_eq!((hex_length(0), hex_length(1 << 24)), (12, 46_141_436));
}

#[test]
fn refusals_have_their_names() {
    let mut chip = [9; 1];
    for (text, line, said) in [
        (
            &TEXT[1..],
            Some(1),
            "26 BadRecord, place 0: a line is no record of Intel HEX, or the end record is missing",
        ),
        (
            b":0100000055AA\n:00000001FE",
            Some(2),
            "27 BadChecksum, place 0: a record's bytes do not sum to zero",
        ),
        (
            b":0100010055A9\n:00000001FF",
            Some(1),
            "28 PastChip, place 0: a record has a data byte past the chip",
        ),
    ] {
        let refusal = read_hex(text, &mut chip).expect_err("a refusal");
        assert_eq!(
            (refusal.call, refusal.to_string()),
            (Call::ReadHex, said.into())
        );
        assert_eq!((chip, hex_fault_line(text, 1)), ([9], line));
    }
    let refusal = write_hex(&[0x55], &mut [0; 25]).expect_err("a refusal");
    let said = "16 ShortBuffer, place 0: a lent buffer is too short";
    assert_eq!(
        (refusal.call, refusal.to_string()),
        (Call::WriteHex, said.into())
    );
}

#[test]
fn no_chip_is_larger() {
    let mut chip = vec![0; (1 << 24) + 1];
    let said = "1 OutOfDomain, place 0: a chip has at most 16777216 bytes";
    let told = [hex_text(&chip).map(drop), read_hex(TEXT, &mut chip)];
    for told in told {
        assert_eq!(told.expect_err("a refusal").to_string(), said);
    }
    assert_eq!(hex_fault_line(b"nonsense", chip.len()), None);
}
