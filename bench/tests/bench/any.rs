//! Whatever values are put together, the wrapper answers: with a result, a refusal or a text.

use onerom::description::{
    Candidates, Chip, Description, Kind, Multi, Package, SetType, Setting, Settings,
};
use onerom::layout::cs_data::{Line, Qualifiers, Role};
use onerom::slot::{Layout, Map, Rom, SlotKind};
use onerom::{
    AddrLayout, ByteOrder, CsDataLayout, Refusal, StoredSlot, build_rom_image, derive_addr_layout,
    derive_cs_data_layout, pin_page, round_trip, unscramble_slot,
};
use onerom_bench::{show, socket, text};
use oracle::random::Random;

const COUNT: u64 = 4000;

const KINDS: [Kind; 7] = [
    Kind::Ce,
    Kind::Oe,
    Kind::Cs1,
    Kind::Cs2,
    Kind::Cs3,
    Kind::Cs4,
    Kind::Other,
];

const SIZES: [u32; 8] = [0, 1, 3, 256, 8192, 1 << 24, (1 << 24) + 1, u32::MAX];

fn sample() -> Description {
    text::read(include_str!("../../sample/2764.txt")).expect("the sample is a description")
}

fn chip_2764() -> Chip {
    sample().chips.remove(0)
}

/// A list that is often too long for its places.
fn list<T>(random: &mut Random, mut one: impl FnMut(&mut Random) -> T) -> Vec<T> {
    let length = random.pick(&[0, 1, 2, 8, 24, 33, 300]);
    (0..length).map(|_| one(random)).collect()
}

fn candidates(random: &mut Random) -> Candidates {
    match random.below(3) {
        0 => Candidates::Absent,
        1 => Candidates::One(random.byte()),
        _ => Candidates::Two(random.byte(), random.byte()),
    }
}

fn setting(random: &mut Random) -> Setting {
    random.pick(&[Setting::ActiveLow, Setting::ActiveHigh, Setting::Ignored])
}

fn settings(random: &mut Random) -> Settings {
    match random.below(3) {
        0 => Settings::CeOe,
        1 => Settings::Explicit {
            ce: setting(random),
            oe: setting(random),
        },
        _ => Settings::ChipSelects {
            cs1: setting(random),
            others: [None, Some(setting(random)), None],
        },
    }
}

fn chip(random: &mut Random) -> Chip {
    Chip {
        size: random.pick(&SIZES),
        address_pins: list(random, Random::byte),
        data_pins: list(random, Random::byte),
        control: list(random, |random| (random.pick(&KINDS), random.byte())),
    }
}

/// The sample with one to three of its parts replaced by any others.
fn description(random: &mut Random) -> Description {
    let mut slot = sample();
    for _ in 0..=random.below(3) {
        match random.below(13) {
            0 => slot.board_pins = random.byte(),
            1 => slot.set_type = random.pick(&[SetType::Banked, SetType::Multi]),
            2 => slot.word_bytes = random.pick(&[0, 2, 3, 255]),
            3 => slot.pin_offset = random.byte() as i8,
            4 => slot.largest_table = random.pick(&SIZES),
            5 => slot.settings = settings(random),
            6 => {
                slot.multi = Some(Multi {
                    select: random.pick(&KINDS),
                    commoned: list(random, |random| random.pick(&KINDS)),
                    ignored: list(random, |random| random.pick(&KINDS)),
                });
            }
            7 => slot.qualifiers = list(random, Random::byte),
            8 => slot.socket = std::array::from_fn(|_| candidates(random)),
            9 => slot.x = [candidates(random), candidates(random)],
            10 => slot.chips = list(random, chip),
            11 => slot.package = Package::A,
            _ => slot.chips.extend([chip_2764(), chip_2764()]),
        }
    }
    slot
}

fn addr_layout(random: &mut Random) -> AddrLayout {
    AddrLayout {
        base: random.byte(),
        pins: random.byte(),
        x1: random.chance(50).then(|| random.byte()),
        x2: random.chance(50).then(|| random.byte()),
        lines: list(random, Random::byte),
        excess: list(random, Random::byte),
    }
}

fn line(random: &mut Random) -> Line {
    Line {
        role: Role::of(random.byte() % 12),
        gpio: random.byte(),
    }
}

fn cs_data_layout(random: &mut Random) -> CsDataLayout {
    CsDataLayout {
        base: random.byte(),
        base_data_pin: random.byte(),
        data: list(random, Random::byte),
        base_cs_pin: random.byte(),
        cs_pins: random.byte(),
        ignore_index: random.chance(50).then(|| random.byte()),
        qualifiers: random.chance(50).then(|| Qualifiers {
            base_pin: random.byte(),
            pins: random.byte(),
            pattern: random.byte(),
        }),
        select: list(random, line),
        commoned: list(random, line),
    }
}

fn layout(random: &mut Random) -> Layout {
    Layout {
        addr_base: random.byte(),
        addr_pins: random.byte() % 34,
        data_base: random.byte(),
        bit_mode: random.byte() % 3,
        cs_base: random.byte(),
        ..Layout::default()
    }
}

fn rom(random: &mut Random) -> Rom {
    Rom {
        size: random.pick(&SIZES),
        map: random.chance(80).then(|| Map {
            address: std::array::from_fn(|_| random.byte()),
            data: std::array::from_fn(|_| random.byte()),
        }),
    }
}

fn stored(random: &mut Random) -> StoredSlot {
    StoredSlot {
        size: random.pick(&SIZES),
        kind: SlotKind::of(random.byte() % 9),
        layout: random.chance(80).then(|| layout(random)),
        overrides: list(random, Random::byte),
        x: [candidates(random), candidates(random)],
        roms: list(random, rom),
    }
}

/// That a refusal has a name and words for its place.
fn told<T>(answer: Result<T, Refusal>) -> Option<T> {
    if let Err(refusal) = &answer {
        assert_ne!(refusal.name, "Unknown");
        assert!(!refusal.to_string().is_empty());
    }
    answer.ok()
}

#[test]
fn any_description_is_answered() {
    let mut found = 0;
    for number in 0..COUNT {
        let random = &mut Random::of_case(1, number);
        let slot = description(random);
        let image = vec![random.byte(); random.pick(&[0, 1, 8192, 9000])];
        let images = vec![Some(&image[..]); random.below(6)];
        let order = random.pick(&ByteOrder::BOTH);
        found += u32::from(told(round_trip(&slot, &images, order)).is_some());
        let addr = told(derive_addr_layout(&slot)).unwrap_or_else(|| addr_layout(random));
        let cs_data = told(derive_cs_data_layout(&slot, Some(&addr)));
        let cs_data = cs_data.unwrap_or_else(|| cs_data_layout(random));
        told(build_rom_image(&slot, &addr, &cs_data, &images, order));
        told(pin_page(&addr, &cs_data));
        let shown = [
            show::addr_summary(&slot, &addr),
            show::addr_table(&addr),
            show::cs_data_summary(&cs_data),
            show::cs_data_table(&slot, &cs_data),
            socket::drawing(&slot, &addr, &cs_data),
            text::write_slot(&StoredSlot::of_layouts(&slot, &addr, &cs_data), order),
        ];
        assert!(shown.iter().all(|text| text.ends_with('\n')));
    }
    // Some go all the way, and most are refused.
    assert!((1..COUNT as u32 / 2).contains(&found), "{found}");
}

#[test]
fn any_stored_slot_is_answered() {
    for number in 0..COUNT {
        let random = &mut Random::of_case(2, number);
        let mut slot = stored(random);
        let bytes = vec![random.byte(); random.pick(&[0, 1, 256, 1 << 13])];
        if random.chance(80) {
            slot.size = bytes.len() as u32;
        }
        let order = random.pick(&ByteOrder::BOTH);
        told(unscramble_slot(&slot, &bytes, order));
        let text = text::write_slot(&slot, order);
        assert!(text::is_slot(&text));
        // What is outside the domain is told by its line.
        if let Err(why) = text::read_slot(&text) {
            assert!(why.line >= 1 && !why.what.is_empty());
        }
    }
}

#[test]
fn any_text_is_answered() {
    const WORDS: [&str; 18] = [
        "socket",
        "24",
        "pin",
        "gpio",
        "chip",
        "size",
        "address",
        "data",
        "slot",
        "rom",
        "again",
        "-1",
        "99999999999999999999",
        "#",
        "\n",
        "none",
        "order",
        "high",
    ];
    for number in 0..COUNT {
        let random = &mut Random::of_case(3, number);
        let length = random.below(60);
        let words: Vec<&str> = (0..length).map(|_| random.pick(&WORDS)).collect();
        let text = words.join(" ");
        let lines = text.lines().count().max(1);
        for why in [text::read(&text).err(), text::read_slot(&text).err()] {
            let why = why.expect("no such text is whole");
            assert!((1..=lines).contains(&why.line), "{why}");
        }
        let bytes: Vec<u8> = (0..length).map(|_| random.byte()).collect();
        assert!(text::read_bytes(&bytes).is_err());
    }
}
