//! The lines of a text that name the byte order of the chips' files.

use super::folder::{Folder, text};
use super::slots::{opened, wide};
use onerom::ByteOrder::{HighFirst, LowFirst};
use onerom_bench::text::{
    NamedOrder, TextError, read, read_board, read_chip, read_ordered, read_ordered_slot, read_slot,
    write_slot,
};

const SHORT: &str = "socket 24\nchip size 2\naddress 1\ndata 2\n";
const STORED: &str = "slot user-plugin\nsize 3\n";

fn named(text: &str) -> Option<NamedOrder> {
    let told = read_ordered(text, &mut opened(&[]));
    told.expect("a description").order
}

fn error(text: &str) -> String {
    read(text).expect_err("no description").to_string()
}

#[test]
fn an_order_is_named_or_not() {
    assert_eq!(named(SHORT), None);
    let stored = |text: &str| read_ordered_slot(text).expect("a slot").order;
    assert_eq!(stored(STORED), None);
    for (line, order) in [("order high\n", HighFirst), ("order low\n", LowFirst)] {
        let at = |line: usize| {
            Some(NamedOrder {
                order,
                file: None,
                line,
            })
        };
        assert_eq!(named(&format!("{line}{SHORT}")), at(1));
        assert_eq!(named(&format!("{SHORT}{line}")), at(5));
        // Between a chip's own lines.
        let inside = SHORT.replace("address", &format!("{line}address"));
        assert_eq!(named(&inside), at(3));
        assert_eq!(read(&inside), read(SHORT));
        assert_eq!(stored(&format!("{STORED}{line}")), at(3));
        assert_eq!(read_slot(&format!("{STORED}{line}")), read_slot(STORED));
    }
}

#[test]
fn another_word_is_told() {
    let expected = "expected a byte order (low, high), found";
    for (word, found) in [
        ("1", "`1`"),
        ("High", "`High`"),
        ("big", "`big`"),
        ("", "the end of the line"),
    ] {
        let said = format!("line 5: {expected} {found}");
        assert_eq!(error(&format!("{SHORT}order {word}\n")), said);
        let told = read_slot(&format!("{STORED}order {word}\n"));
        let said = format!("line 3: {expected} {found}");
        assert_eq!(told.expect_err("no slot").to_string(), said);
    }
    let said = "line 5: expected the end of the line, found `first`";
    assert_eq!(error(&format!("{SHORT}order high first\n")), said);
}

#[test]
fn an_order_stands_once() {
    for (one, two) in [("high", "high"), ("high", "low"), ("low", "high")] {
        let twice = format!("order {one}\n{SHORT}order {two}\n");
        assert_eq!(error(&twice), "line 6: `order` stands on line 1 already");
        let twice = format!("{STORED}order {one}\norder {two}\n");
        let told = read_slot(&twice).expect_err("no slot").to_string();
        assert_eq!(told, "line 4: `order` stands on line 3 already");
    }
    let before = "line 1: expected `slot`, found `order`";
    let told = read_slot(&format!("order high\n{STORED}"));
    assert_eq!(told.expect_err("no slot").to_string(), before);
}

/// Reads a text that may include these files.
fn included(text: &str, files: &[(&str, &str)]) -> Result<Option<NamedOrder>, TextError> {
    let told = read_ordered(text, &mut opened(files));
    told.map(|told| told.order)
}

/// It can stand in each file, as `word` does: a set can have the same chip's file several times.
#[test]
fn files_share_an_order() {
    let chip = "chip size 2\naddress 1\ndata 2\n";
    let (high, low) = (
        format!("\norder high\n{chip}"),
        format!("order low\n{chip}"),
    );
    let files = [("high", &high[..]), ("low", &low), ("none", chip)];
    let at = |file: Option<&str>, line: usize| {
        let file = file.map(str::to_string);
        let order = HighFirst;
        Some(NamedOrder { order, file, line })
    };
    let told = |text: &str| included(text, &files).expect("a description");
    assert_eq!(told("socket 24\ninclude high\n"), at(Some("high"), 2));
    assert_eq!(
        told("socket 24\ninclude none\ninclude high\ninclude high\n"),
        at(Some("high"), 2)
    );
    assert_eq!(told("order high\nsocket 24\ninclude high\n"), at(None, 1));
    let said = |text: &str| {
        let why = included(text, &files).expect_err("no description");
        (why.file.clone(), why.to_string())
    };
    let line = "line 1: expected `order` as on line 2 of high: the chips of a set share it";
    assert_eq!(
        said("socket 24\ninclude high\ninclude low\n"),
        (Some("low".into()), line.into())
    );
    let line = "line 3: expected `order` as on line 2 of high: the chips of a set share it";
    let text = "socket 24\ninclude high\norder low\n";
    assert_eq!(said(text), (None, line.into()));
}

/// A chip's file can name it, and `pairings`, whose bytes are made, leaves it out.
#[test]
fn a_chip_names_it_and_no_board() {
    let chip = "chip size 2\npackage 24\naddress 1\ndata 2\n";
    let plain = read_chip(chip, &mut opened(&[])).expect("a chip");
    let ordered = read_chip(&format!("order high\n{chip}"), &mut opened(&[]));
    assert_eq!(ordered, Ok(plain));
    let told = read_board("socket 24\norder high\n", &mut opened(&[]));
    let told = told.expect_err("no board").to_string();
    assert!(
        told.starts_with("line 2: expected a line of a board ("),
        "{told}"
    );
    assert!(told.ends_with("found `order`"), "{told}");
}

#[test]
fn a_stored_slot_is_written_with_it() {
    let slot = read_slot(STORED).expect("a slot");
    assert_eq!(write_slot(&slot, LowFirst), STORED);
    let high = write_slot(&slot, HighFirst);
    assert_eq!(high, format!("{STORED}order high\n"));
    let back = read_ordered_slot(&high).expect("a slot");
    assert_eq!(back.slot, slot);
    assert_eq!(back.order.map(|named| named.order), Some(HighFirst));
}

#[test]
fn a_layout_hands_it_on() {
    let folder = Folder::new("layout", "order");
    let stored = |line: &str| {
        let slot = format!("{line}{}", wide([30, 31]));
        folder.write("slot.txt", slot.as_bytes());
        let said = folder.done(&["slot.txt", "stored.txt"]);
        (said, text(&folder.read("stored.txt")))
    };
    let (said, plain) = stored("");
    assert!(!plain.contains("order"));
    assert_eq!(stored("order low\n"), (said.clone(), plain.clone()));
    let high = plain.replace("\naddress algorithm", "\norder high\naddress algorithm");
    assert_eq!(stored("order high\n"), (said, high));
}
