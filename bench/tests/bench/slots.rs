//! Descriptions and a layout that the tests share.

#![allow(dead_code, reason = "each test takes what it needs")]

use onerom::slot::Layout;
use onerom_bench::text::Included;

pub const SAMPLE: &str = include_str!("../../sample/2764.txt");
/// The same chip on a board with an RP2350A.
pub const SAMPLE_A: &str = include_str!("../../sample/2764a.txt");

/// A layout whose numbers are those of their places in the record.
pub const NUMBERED: Layout = Layout {
    addr_algorithm: 6,
    addr_base: 7,
    base_addr_pin: 8,
    addr_pins: 9,
    data_algorithm: 10,
    data_base: 11,
    base_data_pin: 12,
    dma_algorithm: 13,
    bit_mode: 14,
    cs_algorithm: 15,
    cs_base: 16,
    first_cs_pin: 17,
};

/// Finds the file that a line includes among these; each is a name and its text.
pub fn opened(files: &[(&str, &str)]) -> impl FnMut(&str) -> Result<Included, String> {
    move |name| {
        let file = files.iter().find(|file| file.0 == name);
        let (name, text) = file.ok_or(format!("{name}: none"))?;
        Ok(Included {
            name: name.to_string(),
            bytes: text.as_bytes().to_vec(),
        })
    }
}

/// The sample with some of its lines changed.
pub fn changed(changes: &[(&str, &str)]) -> String {
    let mut slot = SAMPLE.to_string();
    for (line, other) in changes {
        assert!(slot.contains(line));
        slot = slot.replace(line, other);
    }
    slot
}

/// A description with a GPIO for each of the first pins.
pub fn wired(head: &str, gpios: impl IntoIterator<Item = u8>) -> String {
    let pins = (1..)
        .zip(gpios)
        .map(|(pin, gpio)| format!("pin {pin} gpio {gpio}\n"));
    head.to_string() + &pins.collect::<String>()
}

/// A made-up chip of 512 words of 16 bits, the last data lines on these GPIOs.
pub fn wide(last: [u8; 2]) -> String {
    let head = "socket 40\nword 2\nchip size 1024\naddress 27 1 2 3 4 5 6 7 8 9\n\
        data 10 11 12 13 14 15 16 17 18 19 20 21 22 23 24 25\ncontrol ce 26\n";
    wired(head, (0..9).chain(16..30).chain(last).chain([32]))
}

/// The sample as three banks, X1 and X2 beside the address lines.
pub fn banked() -> String {
    changed(&[
        ("set single", "set banked"),
        ("settings ce-oe", "settings ce-oe\nchip again\nchip again"),
        ("x1 gpio 24", "x1 gpio 8"),
        ("x2 gpio 25", "x2 gpio 22"),
        ("pin 20 gpio 22", "pin 20 gpio 24"),
    ])
}

/// The sample three times, picked by ce, X1 and X2.
pub fn multi() -> String {
    changed(&[
        ("set single", "set multi\nmulti select ce commoned oe"),
        ("settings ce-oe", "settings ce-oe\nchip again\nchip again"),
    ])
}

/// Bytes that look like any: splitmix64.
pub fn random(seed: u64, length: usize) -> Vec<u8> {
    let byte = |n: u64| {
        let mut mixed = (seed << 32 | n).wrapping_mul(0x9e37_79b9_7f4a_7c15);
        mixed = (mixed ^ mixed >> 30).wrapping_mul(0xbf58_476d_1ce4_e5b9);
        mixed = (mixed ^ mixed >> 27).wrapping_mul(0x94d0_49bb_1331_11eb);
        (mixed >> 56) as u8
    };
    (1..=length as u64).map(byte).collect()
}
