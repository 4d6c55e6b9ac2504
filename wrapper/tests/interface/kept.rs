//! Places that the page keeps at 0 hold nothing else: the library refuses every other byte there.

use onerom::description::{Candidates, Chip, Description, Kind, Package, SetType};
use onerom::images::joined;
use onerom::{
    StoredSlot, build_rom_image_into, derive_addr_layout_into, derive_cs_data_layout_into,
    unscramble_slot_into, write_page_into,
};

use super::page::Page;
use super::slot::single;

const OUT_OF_DOMAIN: u64 = 1 << 48;

/// The places of a record that are kept at 0.
fn kept(page: &Page, record: &str) -> Vec<usize> {
    let found = page.records.iter().find(|it| it.name == record);
    let places = found.expect("a record").places.iter();
    let kept = places.filter(|place| place.values.starts_with("0 (kept"));
    kept.flat_map(|place| place.from..=place.to).collect()
}

/// Those of each part of a record: where the parts begin, how long and how many they are.
fn kept_of_parts(kept: &[usize], begin: usize, length: usize, parts: usize) -> Vec<usize> {
    let of_part = |part| kept.iter().map(move |place| begin + part * length + place);
    (0..parts).flat_map(of_part).collect()
}

/// A byte other than 0 at each of these places alone is refused by a call.
fn are_refused(good: &[u8], places: &[usize], call: impl Fn(&[u8]) -> u64) {
    assert_eq!(call(good), 0);
    assert!(!places.is_empty());
    for &place in places {
        for byte in [1, 128, 255] {
            let mut record = good.to_vec();
            assert_eq!(record[place], 0, "place {place}");
            record[place] = byte;
            assert_eq!(call(&record), OUT_OF_DOMAIN, "{byte} at place {place}");
        }
    }
}

/// A chip of 256 bytes: socket pins 1 to 8 are its address lines, 9 to 16 its data lines, 20 is ce.
fn sample() -> Description {
    let mut socket = [Candidates::Absent; 40];
    for (pin, gpio) in (1..=16).zip((0..8).chain(16..24)).chain([(20, 8)]) {
        socket[pin - 1] = Candidates::One(gpio);
    }
    let chip = Chip {
        size: 256,
        address_pins: (1..=8).collect(),
        data_pins: (9..=16).collect(),
        control: vec![(Kind::Ce, 20)],
    };
    single(socket, chip)
}

fn addr_layout() -> [u8; 36] {
    let mut layout = [0; 36];
    assert_eq!(
        derive_addr_layout_into(&sample().to_bytes(), &mut layout),
        0
    );
    layout
}

fn cs_data_layout() -> [u8; 100] {
    let (record, mut layout) = (sample().to_bytes(), [0; 100]);
    let told = derive_cs_data_layout_into(&record, &addr_layout(), &mut layout);
    assert_eq!(told, 0);
    layout
}

#[test]
fn of_a_description() {
    let page = super::page();
    let mut places = kept(&page, "DESCRIPTION");
    places.extend(kept_of_parts(&kept(&page, "CHIP"), 136, 72, 4));
    // The fixed levels of the control lines, three bytes a line.
    for chip in 0..4 {
        places.extend((0..8).map(|line| 136 + 72 * chip + 48 + 3 * line + 2));
    }
    let call = |record: &[u8]| derive_addr_layout_into(record, &mut [0; 36]);
    are_refused(&sample().to_bytes(), &places, call);
}

#[test]
fn of_an_address_layout() {
    let places = kept(&super::page(), "ADDR_LAYOUT");
    let record = sample().to_bytes();
    let call = |layout: &[u8]| derive_cs_data_layout_into(&record, layout, &mut [0; 100]);
    are_refused(&addr_layout(), &places, call);
    let cs_data = cs_data_layout();
    // A page that is written tells its length.
    let call = |layout: &[u8]| match write_page_into(layout, &cs_data, &mut [0; 432]) {
        432 => 0,
        told => told,
    };
    are_refused(&addr_layout(), &places, call);
}

#[test]
fn of_image_spans() {
    let places = kept_of_parts(&kept(&super::page(), "IMAGE_SPAN"), 0, 12, 4);
    let (record, addr, cs_data) = (sample().to_bytes(), addr_layout(), cs_data_layout());
    let (spans, images) = joined(&[Some(&[0; 256])]);
    let call = |spans: &[u8]| {
        build_rom_image_into(&record, &addr, &cs_data, spans, &images, 0, &mut [0; 256])
    };
    are_refused(&spans, &places, call);
}

#[test]
fn of_a_stored_slot() {
    let places = kept_of_parts(&kept(&super::page(), "STORED_ROM"), 88, 72, 4);
    let plugin = StoredSlot {
        size: 1,
        kind: onerom::slot::SlotKind::UserPlugin,
        layout: None,
        overrides: vec![],
        x: Default::default(),
        roms: vec![],
    };
    let call = |slot: &[u8]| unscramble_slot_into(slot, &[7], 0, &mut [0], &mut []);
    are_refused(&plugin.to_bytes(), &places, call);
}

#[test]
fn packages_have_no_other_number() {
    let mut record = sample().to_bytes();
    assert_eq!(record[1], Package::B as u8);
    for number in 0..=255 {
        record[1] = number;
        let told = derive_addr_layout_into(&record, &mut [0; 36]);
        let wanted = if number <= 1 { 0 } else { OUT_OF_DOMAIN };
        assert_eq!(told, wanted, "{number}");
    }
}

#[test]
fn set_types_have_no_other_number() {
    let mut record = sample().to_bytes();
    assert_eq!(record[2], SetType::Single as u8);
    for number in 3..=255 {
        record[2] = number;
        let told = derive_addr_layout_into(&record, &mut [0; 36]);
        assert_eq!(told, OUT_OF_DOMAIN, "{number}");
    }
}
