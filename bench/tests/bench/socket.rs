//! The drawing of the socket: what stands beside each pin.

use onerom::description::{Candidates, Kind};
use onerom::layout::cs_data::{Line, Role};
use onerom::{AddrLayout, CsDataLayout, Description, derive_addr_layout, derive_cs_data_layout};
use onerom_bench::{socket, text};

use super::slots::{SAMPLE, banked, changed, multi, wide};

fn described(text: &str) -> Description {
    text::read(text).expect("a description")
}

fn layouts(slot: &Description) -> (AddrLayout, CsDataLayout) {
    let addr = derive_addr_layout(slot).expect("an address layout");
    let cs_data = derive_cs_data_layout(slot, Some(&addr)).expect("a layout");
    (addr, cs_data)
}

fn drawn(slot: &Description) -> String {
    let (addr, cs_data) = layouts(slot);
    socket::drawing(slot, &addr, &cs_data)
}

/// The rows, spaces cut down to one.
fn rows(drawing: &str) -> Vec<String> {
    let words = |row: &str| row.split_whitespace().collect::<Vec<_>>().join(" ");
    drawing.lines().map(words).collect()
}

fn has(drawing: &str, row: &str) {
    assert!(rows(drawing).contains(&row.into()), "{row}\n{drawing}");
}

/// The sample in another socket, its pins moved up by the offset.
fn moved(socket: u8, offset: i8) -> Description {
    let mut slot = described(SAMPLE);
    slot.board_pins = socket;
    slot.pin_offset = offset;
    let old = slot.socket;
    for (pin, candidates) in (1..).zip(&mut slot.socket) {
        let place = usize::try_from(pin - offset - 1).ok();
        let own = place.and_then(|place| old.get(place));
        *candidates = own.copied().unwrap_or_default();
    }
    slot
}

#[test]
fn the_sample() {
    let wanted = r"socket of 28 pins from above, RP2350B

role     GPIO  +---\__/---+  GPIO     role
   -        -  |  1    28 |  -        -
 A12  11 (26)  |  2    27 |  -        -
  A7       14  |  3    26 |  -        -
  A6       15  |  4    25 |  13       A8
  A5       16  |  5    24 |  12       A9
  A4       17  |  6    23 |  10 (34)  A11
  A3       18  |  7    22 |  23       oe
  A2       19  |  8    21 |  9        A10
  A1       20  |  9    20 |  22       ce
  A0       21  | 10    19 |  7        D7
  D0        0  | 11    18 |  6        D6
  D1        1  | 12    17 |  5        D5
  D2        2  | 13    16 |  4        D4
   -        -  | 14    15 |  3        D3
               +----------+

X1  24  not used
X2  25  not used
";
    assert_eq!(drawn(&described(SAMPLE)), wanted);
}

#[test]
fn banks_and_chip_selects() {
    let drawing = drawn(&described(&banked()));
    assert!(drawing.ends_with("\n\nX1  8   bank bit 0\nX2  22  bank bit 1\n"));
    let two = banked().replace("chip again\nchip again", "chip again");
    let two = two.replace("x1 gpio 8", "x1 gpio 8 47");
    let drawing = drawn(&described(&two));
    assert!(drawing.ends_with("\n\nX1  8 (47)  bank bit 0\nX2  22      not used\n"));

    let drawing = drawn(&described(&multi()));
    assert!(drawing.ends_with("\n\nX1  24  selects chip 1\nX2  25  selects chip 2\n"));
    has(&drawing, "A3 18 | 7 22 | 23 oe, commoned");
    has(&drawing, "A1 20 | 9 20 | 22 ce");
}

#[test]
fn the_first_address_pin_of_wide_words_is_no_line() {
    let drawing = drawn(&described(&wide([30, 31])));
    assert!(drawing.starts_with("socket of 40 pins from above, RP2350B\n"));
    has(&drawing, "A0 0 | 1 40 | - -");
    has(&drawing, "A8 8 | 9 32 | - -");
    has(&drawing, "D4 20 | 14 27 | - -");
    has(&drawing, "D6 22 | 16 25 | 31 D15");
    has(&drawing, "D10 26 | 20 21 | 27 D11");
    assert!(drawing.ends_with("\n\nX1  -  not used\nX2  -  not used\n"));
}

#[test]
fn a_chip_that_is_smaller_than_the_socket() {
    let drawing = drawn(&moved(32, 2));
    assert!(
        drawing.starts_with("socket of 32 pins from above, RP2350B, chip pin 1 in socket pin 3\n")
    );
    has(&drawing, "- - | 2 31 | - -");
    has(&drawing, "A12 11 (26) | 4 29 | - -");
    has(&drawing, "- - | 16 17 | 3 D3");
}

#[test]
fn lines_off_the_socket_are_on_x_pins() {
    let drawing = drawn(&moved(24, -2));
    assert!(
        drawing.starts_with("socket of 24 pins from above, RP2350B, chip pin 3 in socket pin 1\n")
    );
    has(&drawing, "A7 14 | 1 24 | - -");
    has(&drawing, "- - | 12 13 | 3 D3");
    assert!(drawing.ends_with("\n\nX1  24  A12\nX2  25  not used\n"));

    // A7 too.
    let drawing = drawn(&moved(24, -3));
    assert!(drawing.ends_with("\n\nX1  24  A7\nX2  25  A12\n"));
}

#[test]
fn excess_lines_are_half_selects() {
    let text = changed(&[
        ("limit 524288", "limit 4096"),
        ("pin 2 gpio 11 26", "pin 2 gpio 23"),
        ("control ce 20", "control cs1 20"),
        ("settings ce-oe", "settings chip-select cs1 low cs2 ignored"),
        ("control oe 22", "control cs2 22"),
    ]);
    let drawing = drawn(&described(&text));
    has(&drawing, "A12, half select 23 | 2 27 | - -");
    has(&drawing, "A1 20 | 9 20 | 22 cs1");
    // A line that is ignored serves nothing.
    has(&drawing, "A3 18 | 7 22 | 23 -");
}

#[test]
fn pins_that_serve_two_lines_or_none() {
    let mut slot = described(SAMPLE);
    let (addr, cs_data) = layouts(&slot);
    slot.chips[0].data_pins[0] = 10;
    has(
        &socket::drawing(&slot, &addr, &cs_data),
        "A0; D0 21 0 | 10 19 | 7 D7",
    );
    slot.socket[9] = Candidates::Two(21, 0);
    has(
        &socket::drawing(&slot, &addr, &cs_data),
        "A0; D0 21 0 | 10 19 | 7 D7",
    );
    slot.socket[0] = Candidates::Two(33, 32);
    has(
        &socket::drawing(&slot, &addr, &cs_data),
        "- 33 32 | 1 28 | - -",
    );
}

#[test]
fn other_control_lines_are_no_x_pins() {
    let mut slot = described(SAMPLE);
    let (addr, mut cs_data) = layouts(&slot);
    slot.chips[0].control.push((Kind::Other, 1));
    let line = |role: Role| Line { role, gpio: 40 };
    cs_data.select = [Role::X1, Role::HalfSelect, Role::Unknown(9)]
        .map(line)
        .into();
    let drawing = socket::drawing(&slot, &addr, &cs_data);
    has(&drawing, "- - | 1 28 | - -");
    has(&drawing, "X1 40 (24) not used");
}

#[test]
fn any_layouts_are_drawn() {
    let mut slots = vec![
        described(SAMPLE),
        described(&multi()),
        described(&wide([30, 31])),
    ];
    for (board_pins, pin_offset) in [(0, 0), (1, -1), (7, 127), (41, -128), (255, 4)] {
        let mut slot = described(&banked());
        (slot.board_pins, slot.pin_offset) = (board_pins, pin_offset);
        slot.chips[0].address_pins = (0..=255).collect();
        slots.push(slot);
    }
    let mut slot = described(SAMPLE);
    slot.chips.clear();
    slots.push(slot);
    for slot in &slots {
        for byte in 0..=255 {
            let mut addr = AddrLayout::read(&[byte; 36]);
            let cs_data = CsDataLayout::read(&[byte; 100]);
            assert!(socket::drawing(slot, &addr, &cs_data).starts_with("socket of "));
            addr.lines = vec![byte; 300];
            socket::drawing(slot, &addr, &cs_data);
        }
    }
}
