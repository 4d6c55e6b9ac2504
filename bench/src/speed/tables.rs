//! The boards whose tables the clock sees: known chips by their published pinouts, GPIOs going to
//! the socket's pins in order.

use onerom::description::{Candidates, Chip, Kind, Multi, SetType};
use onerom::{ByteOrder, Description, derive_addr_layout};

use super::Input;
use super::boards::{ADDRESS_27C040, DATA_27C040, sample};

struct Pinout {
    pins: u8,
    size: u32,
    /// A0 first; in 16-bit chips the line below it, which shares the pin of D15.
    address: &'static [u8],
    data: &'static [u8],
    ce: u8,
    oe: u8,
}

const ADDRESS_27C512: [u8; 16] = [10, 9, 8, 7, 6, 5, 4, 3, 25, 24, 21, 23, 2, 26, 27, 1];
const DATA_27C512: [u8; 8] = [11, 12, 13, 15, 16, 17, 18, 19];

const ADDRESS_27C080: [u8; 20] = [
    12, 11, 10, 9, 8, 7, 6, 5, 27, 26, 23, 25, 4, 28, 29, 3, 2, 30, 31, 1,
];

const ADDRESS_27C400: [u8; 19] = [
    29, 9, 8, 7, 6, 5, 4, 3, 2, 40, 39, 38, 37, 36, 35, 34, 33, 32, 1,
];
const DATA_27C400: [u8; 16] = [
    13, 15, 17, 19, 22, 24, 26, 28, 14, 16, 18, 20, 23, 25, 27, 29,
];

/// A chip of 28 pins with this many address lines.
fn chip_28(lines: usize) -> Pinout {
    Pinout {
        pins: 28,
        size: 1 << lines,
        address: &ADDRESS_27C512[..lines],
        data: &DATA_27C512,
        ce: 20,
        oe: 22,
    }
}

/// The same of 32 pins.
fn chip_32(address: &'static [u8]) -> Pinout {
    Pinout {
        pins: 32,
        size: 1 << address.len(),
        address,
        data: &DATA_27C040,
        ce: 22,
        oe: 24,
    }
}

/// A 16-bit chip with this many address lines, beside the one that is not used.
fn chip_16_bit(lines: usize) -> Pinout {
    Pinout {
        pins: 40,
        size: 2 << lines,
        address: &ADDRESS_27C400[..=lines],
        data: &DATA_27C400,
        ce: 10,
        oe: 12,
    }
}

pub fn of_build() -> Vec<Input> {
    let mut inputs = of_chips();
    inputs.push(input("27C080", single(chip_32(&ADDRESS_27C080))));
    inputs.extend(of_sets());
    inputs.extend(of_other_rows());
    inputs
}

pub fn of_read_back() -> Vec<Input> {
    let mut inputs = of_chips();
    inputs.extend(of_sets());
    inputs
}

/// The boards that people have, for the searches: one chip, four as banks, three by their selects,
/// and a 16-bit one. No pin of theirs has two candidates.
pub fn common() -> [(&'static str, Description); 6] {
    let [banked, multi, wide] = of_512_kib();
    [
        ("27C256", single(chip_28(15))),
        ("27C512", single(chip_28(16))),
        ("27C010", single(chip_32(&ADDRESS_27C040[..17]))),
        banked,
        multi,
        wide,
    ]
}

/// Single chips, from the smallest table to one of 512 KiB: made-up ones below the sample.
fn of_chips() -> Vec<Input> {
    let small = [
        ("256 words", 8),
        ("512 words", 9),
        ("1024 words", 10),
        ("2048 words", 11),
        ("4096 words", 12),
    ];
    let large = [("27C128", 14), ("27C256", 15), ("27C512", 16)];
    let chips = |list: &[(&'static str, usize)]| -> Vec<Input> {
        let chip = |&(name, lines): &(&'static str, usize)| input(name, single(chip_28(lines)));
        list.iter().map(chip).collect()
    };
    let mut inputs = chips(&small);
    inputs.push(input("2764, the sample", sample()));
    inputs.extend(chips(&large));
    inputs.push(input("27C040", single(chip_32(&ADDRESS_27C040))));
    inputs
}

/// Banked, Multi and 16-bit, small and of 512 KiB.
fn of_sets() -> Vec<Input> {
    let mut inputs = vec![
        input(
            "two of 256 words, Banked",
            board(&chip_28(8), SetType::Banked, 2),
        ),
        input(
            "two of 256 words, Multi",
            board(&chip_28(8), SetType::Multi, 2),
        ),
        input("256 words, 16-bit", single(chip_16_bit(8))),
        input("4096 words, 16-bit", single(chip_16_bit(12))),
    ];
    inputs.extend(of_512_kib().map(|(name, slot)| input(name, slot)));
    with_high_first(inputs)
}

/// Behind each 16-bit slot the same high byte first.
fn with_high_first(inputs: Vec<Input>) -> Vec<Input> {
    let both = |input: Input| {
        let is_wide = input.slot.word_bytes == 2;
        let high = is_wide.then(|| Input {
            slot: input.slot.clone(),
            order: ByteOrder::HighFirst,
            ..input
        });
        [Some(input), high].into_iter().flatten()
    };
    inputs.into_iter().flat_map(both).collect()
}

/// The sets whose tables have 512 KiB.
fn of_512_kib() -> [(&'static str, Description); 3] {
    let four = board(&chip_32(&ADDRESS_27C040[..17]), SetType::Banked, 4);
    let three = board(&chip_28(15), SetType::Multi, 3);
    [
        ("four 27C010, Banked", four),
        ("three 27C256, Multi", three),
        ("27C400, 16-bit", single(chip_16_bit(18))),
    ]
}

/// Tables that are not made of whole rows of one chip's words and of pads: the lines that pick have
/// the lowest positions, so that each entry is another chip's. And a chip that is read again.
fn of_other_rows() -> Vec<Input> {
    let four = &chip_32(&ADDRESS_27C040[..17]);
    let mut again = single(chip_28(16));
    again.chips[0].size /= 2;
    with_high_first(vec![
        input(
            "four 27C010, Banked, picked low",
            picked_low(four, SetType::Banked, 4),
        ),
        input(
            "three 27C256, Multi, picked low",
            picked_low(&chip_28(15), SetType::Multi, 3),
        ),
        input(
            "four 16-bit chips, Banked, picked low",
            picked_low(&chip_16_bit(16), SetType::Banked, 4),
        ),
        input("27C512 of 32 KiB, read twice", again),
    ])
}

fn single(chip: Pinout) -> Description {
    board(&chip, SetType::Single, 1)
}

/// Entries and bytes of the table are those of the layout that is found; 0 if none is.
fn input(name: &'static str, slot: Description) -> Input {
    let found = derive_addr_layout(&slot).ok();
    let bytes = found.and_then(|layout| layout.table_bytes(slot.word_bytes));
    let bytes = bytes.unwrap_or(0);
    Input {
        name,
        size: [bytes / u64::from(slot.word_bytes), bytes],
        slot,
        order: ByteOrder::default(),
    }
}

/// The chip on a board that gives its first GPIOs to the lines that index the table, those that
/// pick a chip behind the address lines.
fn board(pinout: &Pinout, set_type: SetType, chips: usize) -> Description {
    let mut slot = slot(pinout, set_type, chips);
    let mut gpios = 0..48;
    wire(&mut slot, &mut gpios, lines(pinout));
    wire_picks(&mut slot, &mut gpios, pinout);
    wire_rest(&mut slot, &mut gpios, pinout);
    slot
}

/// The same, with those that pick a chip ahead of the address lines.
fn picked_low(pinout: &Pinout, set_type: SetType, chips: usize) -> Description {
    let mut slot = slot(pinout, set_type, chips);
    let mut gpios = 0..48;
    wire_picks(&mut slot, &mut gpios, pinout);
    wire(&mut slot, &mut gpios, lines(pinout));
    wire_rest(&mut slot, &mut gpios, pinout);
    slot
}

/// A slot of such chips on a board that is not wired yet.
fn slot(pinout: &Pinout, set_type: SetType, chips: usize) -> Description {
    let mut slot = sample();
    slot.board_pins = pinout.pins;
    slot.set_type = set_type;
    slot.word_bytes = if pinout.data.len() > 8 { 2 } else { 1 };
    slot.largest_table = pinout.size.max(512 * 1024);
    slot.socket = [Candidates::Absent; 40];
    slot.multi = (set_type == SetType::Multi).then(|| Multi {
        select: Kind::Ce,
        commoned: vec![Kind::Oe],
        ignored: vec![],
    });
    slot.chips = vec![chip(pinout); chips];
    slot
}

/// The pins of the address lines. In 16-bit mode the first address pin is not used.
fn lines(pinout: &Pinout) -> &[u8] {
    &pinout.address[usize::from(pinout.data.len() > 8)..]
}

/// The next GPIOs for the selects, where they pick a chip, and for X1 and X2.
fn wire_picks(slot: &mut Description, gpios: &mut impl Iterator<Item = u8>, pinout: &Pinout) {
    if slot.set_type == SetType::Multi {
        wire(slot, gpios, &[pinout.ce, pinout.oe]);
    }
    if slot.set_type != SetType::Single {
        slot.x
            .fill_with(|| gpios.next().map_or(Candidates::Absent, Candidates::One));
    }
}

/// The next GPIOs for data, and for the selects, where they pick no chip.
fn wire_rest(slot: &mut Description, gpios: &mut impl Iterator<Item = u8>, pinout: &Pinout) {
    wire(slot, gpios, pinout.data);
    if slot.set_type != SetType::Multi {
        wire(slot, gpios, &[pinout.ce, pinout.oe]);
    }
}

fn chip(pinout: &Pinout) -> Chip {
    Chip {
        size: pinout.size,
        address_pins: pinout.address.to_vec(),
        data_pins: pinout.data.to_vec(),
        control: vec![(Kind::Ce, pinout.ce), (Kind::Oe, pinout.oe)],
    }
}

/// Gives the next GPIOs to these pins, in the order in which they stand in the socket.
fn wire(slot: &mut Description, gpios: &mut impl Iterator<Item = u8>, pins: &[u8]) {
    let mut pins = pins.to_vec();
    pins.sort_unstable();
    for (pin, gpio) in pins.iter().zip(gpios) {
        slot.socket[usize::from(*pin) - 1] = Candidates::One(gpio);
    }
}
