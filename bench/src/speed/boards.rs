//! The boards that the searches are measured on.

use onerom::description::{Candidates, Chip, Kind};
use onerom::{ByteOrder, Description};
use onerom_bench::text;

use super::{Input, tables};

const TWO_CANDIDATE_PINS: [usize; 9] = [0, 2, 4, 6, 8, 10, 12, 14, 16];

/// The published pinout of a 27C040: A0 to A18, D0 to D7.
pub const ADDRESS_27C040: [u8; 19] = [
    12, 11, 10, 9, 8, 7, 6, 5, 27, 26, 23, 25, 4, 28, 29, 3, 2, 30, 31,
];
pub const DATA_27C040: [u8; 8] = [13, 14, 15, 17, 18, 19, 20, 21];

/// GPIOs of D0 to D15, ce and oe: the selects side by side, and with the data between them, where
/// no choice fits.
const SELECTS_TOGETHER: [u8; 18] = [0, 1, 2, 3, 4, 5, 6, 7, 8, 9, 10, 11, 12, 13, 14, 15, 16, 17];
const SELECTS_APART: [u8; 18] = [1, 2, 3, 4, 5, 6, 7, 8, 9, 10, 11, 12, 13, 14, 15, 16, 0, 17];

pub fn of_address_search() -> Vec<Input> {
    let mut inputs = vec![input("2764, the sample", 2, sample())];
    inputs.extend(common());
    inputs.extend(TWO_CANDIDATE_PINS.map(|pins| input("27C040", pins, board_27c040(pins))));
    inputs
}

pub fn of_select_search() -> Vec<Input> {
    let mut inputs = vec![input("2764, the sample", 0, sample())];
    inputs.extend(common());
    let series = [
        ("16-bit chip", SELECTS_TOGETHER),
        ("16-bit chip, selects apart", SELECTS_APART),
    ];
    for (name, near) in series {
        inputs.extend(TWO_CANDIDATE_PINS.map(|pins| input(name, pins, board_16_bit(near, pins))));
    }
    inputs
}

fn common() -> impl Iterator<Item = Input> {
    let boards = tables::common().into_iter();
    boards.map(|(name, slot)| input(name, 0, slot))
}

fn input(name: &'static str, two_candidate_pins: usize, slot: Description) -> Input {
    Input {
        name,
        size: [two_candidate_pins as u64, 1 << two_candidate_pins],
        slot,
        order: ByteOrder::default(),
    }
}

pub fn sample() -> Description {
    text::read(crate::SAMPLE).expect("the sample is a description")
}

/// The pin's candidates. Of two the good one is the first for even lines and the second for odd
/// ones, so that the best choice is among the later ones.
fn candidates(line: u8, near: u8, far: Option<u8>) -> Candidates {
    match far {
        None => Candidates::One(near),
        Some(far) if line.is_multiple_of(2) => Candidates::Two(near, far),
        Some(far) => Candidates::Two(far, near),
    }
}

/// A 27C040 on a 32-pin board: address line n on GPIO 8 + n, the first lines on a GPIO further up
/// as well.
fn board_27c040(two_candidate_pins: usize) -> Description {
    let mut slot = sample();
    slot.board_pins = 32;
    slot.socket = [Candidates::Absent; 40];
    for (line, &pin) in (0u8..).zip(&ADDRESS_27C040) {
        let far = (usize::from(line) < two_candidate_pins).then_some(27 + line);
        slot.socket[usize::from(pin) - 1] = candidates(line, 8 + line, far);
    }
    slot.chips = vec![Chip {
        size: 512 * 1024,
        address_pins: ADDRESS_27C040.to_vec(),
        data_pins: DATA_27C040.to_vec(),
        control: vec![(Kind::Ce, 22), (Kind::Oe, 24)],
    }];
    slot
}

/// A made-up 16-bit chip on a 40-pin board: D0 to D15, ce and oe on pins 1 to 18, twelve address
/// lines on pins 19 to 30 and GPIOs 36 to 47. Of the listed pins ce, oe, then D0 and so on have a
/// second candidate, in the mirror of GPIOs 0 to 17.
fn board_16_bit(near: [u8; 18], two_candidate_pins: usize) -> Description {
    let mut slot = sample();
    slot.board_pins = 40;
    slot.word_bytes = 2;
    slot.socket = [Candidates::Absent; 40];
    for (line, gpio) in (0u8..).zip(near) {
        let turn = usize::from((line + 2) % 18);
        let far = (turn < two_candidate_pins).then_some(35 - gpio);
        slot.socket[usize::from(line)] = candidates(line, gpio, far);
    }
    for (pin, gpio) in slot.socket[18..30].iter_mut().zip(36..) {
        *pin = Candidates::One(gpio);
    }
    // In 16-bit mode the first address pin is not used; chips share it with D15.
    let address_pins = [16].into_iter().chain(19..=30).collect();
    slot.chips = vec![Chip {
        size: 8192,
        address_pins,
        data_pins: (1..=16).collect(),
        control: vec![(Kind::Ce, 17), (Kind::Oe, 18)],
    }];
    slot
}
