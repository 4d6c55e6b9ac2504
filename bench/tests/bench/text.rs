//! Files: what is read, and what an error says.

use onerom::description::{Candidates, Kind, SetType, Setting, Settings};
use onerom_bench::text::{read, read_bytes};

const SHORT: &str = "socket 24\nchip size 2\naddress 1\ndata 2\n";

fn error(text: &str) -> String {
    read(text).expect_err("no description").to_string()
}

fn with(line: &str) -> String {
    format!("{SHORT}{line}\n")
}

#[test]
fn what_is_not_told_is_usual() {
    let slot = read(SHORT).expect("a description");
    assert_eq!(slot.board_pins, 24);
    assert_eq!(slot.set_type, SetType::Single);
    assert_eq!((slot.word_bytes, slot.pin_offset), (1, 0));
    assert_eq!(slot.largest_table, 524_288);
    assert_eq!(slot.settings, Settings::CeOe);
    assert_eq!(slot.socket, [Candidates::Absent; 40]);
}

#[test]
fn every_line_is_read() {
    let text = "socket 32 # a remark\n\nset multi\nword 2\noffset -4\nlimit 1024\n\
        chip size 512\naddress 3 4\ndata 5\ncontrol cs1 6\ncontrol other 7\nchip again\n\
        pin 32 gpio 47\nx1 gpio 1 2\nx2 gpio 3\nqualifiers 0 1\n\
        settings chip-select cs1 low cs3 ignored\nmulti select cs1 commoned oe ce ignored cs2\n";
    let slot = read(text).expect("a description");
    assert_eq!((slot.board_pins, slot.word_bytes), (32, 2));
    assert_eq!((slot.pin_offset, slot.largest_table), (-4, 1024));
    assert_eq!(slot.socket[31], Candidates::One(47));
    assert_eq!(slot.x, [Candidates::Two(1, 2), Candidates::One(3)]);
    assert_eq!(slot.qualifiers, [0, 1]);
    assert_eq!(slot.chips[0], slot.chips[1]);
    assert_eq!(slot.chips[0].control, [(Kind::Cs1, 6), (Kind::Other, 7)]);
    let settings = Settings::ChipSelects {
        cs1: Setting::ActiveLow,
        others: [None, Some(Setting::Ignored), None],
    };
    assert_eq!(slot.settings, settings);
    let multi = slot.multi.expect("a Multi set");
    assert_eq!(multi.select, Kind::Cs1);
    assert_eq!(multi.commoned, [Kind::Oe, Kind::Ce]);
    assert_eq!(multi.ignored, [Kind::Cs2]);
}

#[test]
fn errors_name_line_and_word() {
    let told = |line: &str, what: &str| assert_eq!(error(&with(line)), format!("line 5: {what}"));
    told("pin 3 gpio 48", "expected a GPIO, 0 to 47, found `48`");
    told(
        "pin 41 gpio 4",
        "expected a socket pin, 1 to 40, found `41`",
    );
    told("pin 3 4", "expected `gpio`, found `4`");
    told(
        "pin 3 gpio",
        "expected a GPIO, 0 to 47, found the end of the line",
    );
    told(
        "pin 3 gpio 4 4",
        "expected two different GPIOs, found 4 twice",
    );
    told(
        "pin 3 gpio 4 5 6",
        "expected the end of the line, found `6`",
    );
    told("word 3", "expected bytes in a word, 1 to 2, found `3`");
    told("offset five", "expected an offset, -4 to 4, found `five`");
    told(
        "set both",
        "expected a set type (single, banked, multi), found `both`",
    );
    told("socket 28", "`socket` stands on line 1 already");
    told("address 4", "`address of chip 0` stands on line 3 already");
    told(
        "settings explicit ce",
        "expected a setting (low, high, ignored), found the end of the line",
    );
    told("chip", "expected `size`, found the end of the line");
}

#[test]
fn errors_of_whole_files() {
    assert_eq!(error(""), "line 1: expected a `socket` line, found none");
    assert_eq!(
        error("socket 24\n\n"),
        "line 2: expected a `chip` line, found none"
    );
    assert_eq!(
        error("address 1\n"),
        "line 1: expected a `chip` line before `address`"
    );
    let bare = "socket 24\nchip size 2\naddress 1\n";
    assert_eq!(
        error(bare),
        "line 2: expected a `data` line of this chip, found none"
    );
    let multi = with("set multi");
    assert_eq!(
        error(&multi),
        "line 5: expected a `multi` line for this set, found none"
    );
    assert!(error("sokcet 24\n").ends_with("found `sokcet`"));
    let bytes = read_bytes(b"socket 24\n\xff\n").expect_err("no text");
    assert_eq!(bytes.line, 2);
}

#[test]
fn too_much_is_told_at_its_line() {
    let many = with(&"chip again\n".repeat(4));
    assert_eq!(error(&many), "line 8: expected at most 4 chips");
    let lines = with(&"control other 3\n".repeat(9));
    assert_eq!(
        error(&lines),
        "line 13: expected at most 8 control lines on a chip"
    );
    let long = format!("socket 24\nchip size 2\naddress{}\n", " 1".repeat(25));
    assert_eq!(
        error(&long),
        "line 3: expected at most 24 numbers, found 25"
    );
}

#[test]
fn what_cannot_be_is_told_at_its_line() {
    assert_eq!(
        error(&with("pin 33 gpio 21")),
        "line 5: expected a pin of the socket, 1 to 24, found `33`"
    );
    assert_eq!(
        error(&with("control ce 5\ncontrol ce 6")),
        "line 6: expected another control line, this one is told"
    );
    let again = with("control ce 5\nchip again\ncontrol ce 6");
    assert!(error(&again).starts_with("line 7: expected another control line"));
    let lone = read_bytes(b"socket 24 # a board\rset banked\n").expect_err("a CR");
    assert_eq!(
        lone.to_string(),
        "line 1: expected lines that end in LF or CR LF, found a CR alone"
    );
    assert!(error("socket 28\u{200b}\n").ends_with("found `28\\u{200b}`"));
}

#[test]
fn what_an_editor_or_a_slip_leaves_is_readable() {
    let marked = read_bytes(b"\xEF\xBB\xBFsocket 24\n").expect_err("a mark");
    let said = "line 1: expected text in plain UTF-8, found a byte order mark before it; \
        save it without one";
    assert_eq!(marked.to_string(), said);
    for wide in [&b"\xFF\xFEs\0o\0"[..], b"\xFE\xFF\0s\0o"] {
        let told = read_bytes(wide).expect_err("UTF-16").to_string();
        assert!(told.ends_with("found UTF-16; save it as UTF-8"), "{told}");
    }
    let long = format!("socket {}\n", "9".repeat(100_000));
    let cut = format!("found `{}..`, a word of 100000 characters", "9".repeat(40));
    assert!(error(&long).ends_with(&cut));
    assert!(error("socket 2\u{1b}[2J\n").ends_with("found `2\\u{1b}[2J`"));
    assert!(error(&format!("{}\n", "x".repeat(41))).ends_with("..`, a word of 41 characters"));
}
