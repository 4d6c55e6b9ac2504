//! The ready chips and the made-up boards: their pins against what a package has, and each chip from
//! its file to bytes that are read back.

use std::collections::BTreeSet;
use std::fs;
use std::path::{Path, PathBuf};

use super::folder::Folder;
use super::slots::random;
use onerom::description::{Candidates, Package, Settings};
use onerom_bench::text::{self, Board, ChipFacts};

/// Name, pins of the package, address lines and data lines of each chip.
const CHIPS: [(&str, u8, usize, usize); 15] = [
    ("2316", 24, 11, 8),
    ("2332", 24, 12, 8),
    ("2364", 24, 13, 8),
    ("23128", 28, 14, 8),
    ("23256", 28, 15, 8),
    ("2716", 24, 11, 8),
    ("2732", 24, 12, 8),
    ("2764", 28, 13, 8),
    ("27128", 28, 14, 8),
    ("27256", 28, 15, 8),
    ("27512", 28, 16, 8),
    ("27C010", 32, 17, 8),
    ("27C020", 32, 18, 8),
    ("27C040", 32, 19, 8),
    ("27C400", 40, 18, 16),
];

/// Name, pins of the socket and package of the RP2350 of each board.
const BOARDS: [(&str, u8, Package); 5] = [
    ("24", 24, Package::B),
    ("28", 28, Package::B),
    ("28a", 28, Package::A),
    ("32", 32, Package::B),
    ("40", 40, Package::B),
];

/// GND and Vcc of each package; of 40 pins it is the 27C400's.
const POWER: [(u8, &[u8]); 4] = [
    (24, &[12, 24]),
    (28, &[14, 28]),
    (32, &[16, 32]),
    (40, &[11, 21, 30]),
];

fn root() -> PathBuf {
    Path::new(env!("CARGO_MANIFEST_DIR")).join("..")
}

fn file(folder: &str, name: &str) -> String {
    let file = root().join(folder).join(format!("{name}.txt"));
    fs::read_to_string(file).expect("the file is there")
}

fn chip(name: &str) -> ChipFacts {
    text::read_chip(&file("chips", name), &mut |name| Err(name.into())).expect("a chip")
}

fn board(name: &str) -> Board {
    text::read_board(&file("boards", name), &mut |name| Err(name.into())).expect("a board")
}

fn power(pins: u8) -> &'static [u8] {
    let row = POWER.iter().find(|row| row.0 == pins);
    row.expect("a package").1
}

/// The pins of the lines: in 16-bit mode the first address pin is none.
fn line_pins(told: &ChipFacts) -> Vec<u8> {
    let skipped = usize::from(told.word_bytes == 2);
    let address = told.chip.address_pins.iter().skip(skipped);
    let control = told.chip.control.iter().map(|(_, pin)| pin);
    let pins = address.chain(&told.chip.data_pins).chain(control);
    pins.copied().collect()
}

/// The names of a folder's files, without `.txt`.
fn names(folder: &str) -> BTreeSet<String> {
    let files = fs::read_dir(root().join(folder)).expect("the folder is there");
    let name = |file: fs::DirEntry| {
        let name = file.file_name().into_string().expect("a plain name");
        name.strip_suffix(".txt").expect("a text").to_string()
    };
    files.flatten().map(name).collect()
}

#[test]
fn every_file_is_looked_at() {
    let chips = CHIPS.map(|(name, ..)| name.to_string());
    assert_eq!(names("chips"), BTreeSet::from(chips));
    let boards = BOARDS.map(|(name, ..)| name.to_string());
    assert_eq!(names("boards"), BTreeSet::from(boards));
}

#[test]
fn pins_are_those_of_the_package() {
    for (name, package, ..) in CHIPS {
        let told = chip(name);
        assert_eq!(told.package, package, "{name}");
        let pins = line_pins(&told);
        let once: BTreeSet<u8> = pins.iter().copied().collect();
        assert_eq!(once.len(), pins.len(), "{name}: a pin stands twice");
        assert!(pins.iter().all(|pin| (1..=package).contains(pin)), "{name}");
        let powered = pins.iter().find(|pin| power(package).contains(pin));
        assert_eq!(powered, None, "{name}");
    }
}

#[test]
fn lines_and_words_are_those_of_the_size() {
    for (name, _, lines, data) in CHIPS {
        let told = chip(name);
        let word_bytes = usize::from(told.word_bytes);
        let skipped = word_bytes - 1;
        assert_eq!(told.chip.address_pins.len(), lines + skipped, "{name}");
        assert_eq!(told.chip.data_pins.len(), data, "{name}");
        assert_eq!(data, 8 * word_bytes, "{name}");
        assert_eq!(told.chip.size as usize, word_bytes << lines, "{name}");
    }
}

/// Each size goes on from the one before: the same lines on the same pins of the socket.
#[test]
fn a_family_shares_its_pins() {
    let families: [&[&str]; 2] = [
        &[
            "2716", "2732", "2764", "27128", "27256", "27512", "27C010", "27C020", "27C040",
        ],
        &["2316", "2332", "2364"],
    ];
    for pair in families.iter().flat_map(|family| family.windows(2)) {
        let (small, large) = (chip(pair[0]), chip(pair[1]));
        let moved = (large.package - small.package) / 2;
        let seated = |pins: &[u8]| -> Vec<u8> { pins.iter().map(|pin| pin + moved).collect() };
        let lines = small.chip.address_pins.len();
        let address = &large.chip.address_pins[..lines];
        assert_eq!(address, seated(&small.chip.address_pins), "{pair:?}");
        let data = seated(&small.chip.data_pins);
        assert_eq!(large.chip.data_pins, data, "{pair:?}");
        // The selects of the mask ROMs give way to address lines.
        if small.settings == Settings::CeOe {
            let control = |told: &ChipFacts| told.chip.control.iter().map(|line| line.1).collect();
            let (small, large): (Vec<u8>, Vec<u8>) = (control(&small), control(&large));
            assert_eq!(large, seated(&small), "{pair:?}");
        }
    }
    for (mask, eprom) in [("2316", "2716"), ("23128", "27128"), ("23256", "27256")] {
        let (mask, eprom) = (chip(mask).chip, chip(eprom).chip);
        assert_eq!(mask.address_pins, eprom.address_pins);
        assert_eq!(mask.data_pins, eprom.data_pins);
    }
}

#[test]
fn boards_wire_every_pin_but_power() {
    for (name, pins, package) in BOARDS {
        let told = board(name);
        let head = (told.pins, told.package, told.offset);
        assert_eq!(head, (pins, package, None), "{name}");
        let wired = (1..)
            .zip(told.socket)
            .filter(|(_, own)| *own != Candidates::Absent);
        let wired: Vec<u8> = wired.map(|(pin, _)| pin).collect();
        let wanted = (1..=pins).filter(|pin| !power(pins).contains(pin));
        assert_eq!(wired, wanted.collect::<Vec<u8>>(), "{name}");
        let candidates = told.socket.into_iter().chain(told.x);
        let gpios: Vec<u8> = candidates.flat_map(Candidates::gpios).collect();
        let once: BTreeSet<u8> = gpios.iter().copied().collect();
        assert_eq!(once.len(), gpios.len(), "{name}");
        assert!(
            once.iter().all(|&gpio| gpio <= package.last_gpio()),
            "{name}"
        );
    }
}

/// A pairing as its user writes it.
fn pairing(board: &str, chip: &str) -> String {
    let root = root().display().to_string();
    format!("include {root}/boards/{board}.txt\ninclude {root}/chips/{chip}.txt\n")
}

#[test]
fn each_chip_reads_back() {
    for (seed, (name, package, lines, data)) in (1..).zip(CHIPS) {
        reads_back(
            &package.to_string(),
            name,
            &random(seed, (data / 8) << lines),
        );
    }
}

/// Chips of 24 pins sit at the bottom of the same board.
#[test]
fn each_chip_of_28_pins_or_fewer_reads_back_on_the_smaller_rp2350() {
    let small = CHIPS.into_iter().filter(|(_, package, ..)| *package <= 28);
    for (seed, (name, _, lines, _)) in (1..).zip(small) {
        reads_back("28a", name, &random(seed, 1 << lines));
    }
}

/// From a pairing to the chip's bytes again, by each command.
fn reads_back(board: &str, chip: &str, bytes: &[u8]) {
    let folder = Folder::new("verify", &format!("chips/{board}/{chip}"));
    folder.write("chip.bin", bytes);
    folder.write("slot.txt", pairing(board, chip).as_bytes());
    let said = folder.done(&["slot.txt", "chip.bin"]);
    let words = bytes.len() / usize::from(self::chip(chip).word_bytes);
    assert_eq!(said, format!("reads back: {words} words of 1 chip\n"));
    for (command, words) in [
        ("layout", &["slot.txt", "stored.txt"][..]),
        ("build", &["slot.txt", "table.bin", "chip.bin"]),
        ("read-back", &["slot.txt", "table.bin", "back.bin"]),
        ("read-back", &["stored.txt", "table.bin", "again.bin"]),
    ] {
        let told = folder.run_other(command, words);
        assert_eq!(told.status.code(), Some(0), "{chip} on {board}, {command}");
    }
    assert!(folder.read("back.bin") == bytes, "{chip} on {board}");
    assert!(folder.read("again.bin") == bytes, "{chip} on {board}");
}

/// A 24-pin chip sits at the bottom of a 28-pin socket: pin 1 in pin 3.
#[test]
fn a_smaller_chip_sits_at_the_bottom() {
    let folder = Folder::new("verify", "chips/seat");
    folder.write("chip.bin", &random(3, 2048));
    for (board, offset) in [("28", ""), ("28", "offset 2\n"), ("32", "")] {
        let seated = pairing(board, "2716") + offset;
        folder.write("slot.txt", seated.as_bytes());
        let said = folder.done(&["slot.txt", "chip.bin"]);
        assert_eq!(said, "reads back: 2048 words of 1 chip\n");
    }
    // What is told counts: at the top pin 18 is D6 of the larger chips.
    folder.write(
        "slot.txt",
        (pairing("28", "2716") + "offset 0\n").as_bytes(),
    );
    let said = folder.refused(&["slot.txt", "chip.bin"]);
    assert!(said.starts_with("select search refused: "), "{said}");
    folder.write("slot.txt", pairing("40", "2716").as_bytes());
    let said = folder.unread(&["slot.txt", "chip.bin"]);
    let what = "chips/2716.txt, line 6: expected an `offset` line, since 24 pins have no place of \
        their own in a socket of 40, found none\n";
    assert!(said.ends_with(what), "{said}");
}

#[test]
fn packages_have_their_seats() {
    let sizes = [24, 28, 32, 40];
    let seats = sizes.map(|socket| sizes.map(|package| text::seat(socket, package)));
    let wanted = [
        [Some(0), Some(-2), Some(-4), None],
        [Some(2), Some(0), Some(-2), None],
        [Some(4), Some(2), Some(0), None],
        [None, None, None, Some(0)],
    ];
    assert_eq!(seats, wanted);
}
