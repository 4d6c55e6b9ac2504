//! The stored slot's record, place by place, and the answers of the read-back and the round trip.

use super::slots::NUMBERED;
use onerom::ByteOrder::LowFirst;
use onerom::description::{Candidates, SetType};
use onerom::images;
use onerom::slot::{Map, Rom, SlotKind, StoredSlot};
use onerom::{
    AddrLayout, Call, CsDataLayout, Description, Refusal, build_rom_image, derive_addr_layout,
    derive_cs_data_layout, round_trip, round_trip_into, unscramble_slot, unscramble_slot_into,
};
use onerom_bench::text;

/// The kind of an override in its top bits.
const LOW: u8 = 2 << 6;
const HIGH: u8 = 3 << 6;

fn sample() -> Description {
    text::read(include_str!("../../sample/2764.txt")).expect("the sample is a description")
}

/// The sample with a GPIO in the window that no line is on, so that each word has two entries: A10
/// on GPIO 8, and 9 free.
fn doubled() -> Description {
    let mut slot = sample();
    slot.socket[20] = Candidates::One(8);
    slot
}

/// Two chips, picked by X1 on the lowest GPIO of the window.
fn banked() -> Description {
    let mut slot = sample();
    slot.set_type = SetType::Banked;
    slot.x[0] = Candidates::One(8);
    slot.chips.push(slot.chips[0].clone());
    slot
}

fn layouts(slot: &Description) -> (AddrLayout, CsDataLayout) {
    let addr = derive_addr_layout(slot).expect("an address layout");
    let cs_data = derive_cs_data_layout(slot, Some(&addr)).expect("a layout");
    (addr, cs_data)
}

fn chip(number: u32) -> Vec<u8> {
    let byte = |n: u32| (n.wrapping_add(number << 20).wrapping_mul(2_654_435_761) >> 24) as u8;
    (0..8192).map(byte).collect()
}

/// The slot as it is stored, and its table.
fn stored(slot: &Description) -> (StoredSlot, Vec<u8>) {
    let (addr, cs_data) = layouts(slot);
    let chips: Vec<Vec<u8>> = (0..slot.chips.len() as u32).map(chip).collect();
    let images: Vec<Option<&[u8]>> = chips.iter().map(|chip| Some(&chip[..])).collect();
    let table = build_rom_image(slot, &addr, &cs_data, &images, LowFirst);
    let stored = StoredSlot::of_layouts(slot, &addr, &cs_data);
    (stored, table.expect("a table"))
}

fn refused(told: Result<Vec<Vec<u8>>, Refusal>) -> String {
    let refusal = told.expect_err("a refusal");
    assert_eq!(refusal.call, Call::ReadBack);
    refusal.to_string()
}

/// A slot whose algorithms are the numbers of their places.
fn numbered() -> StoredSlot {
    let map = Map::of(&[40, 41, 42], &[50, 51]);
    StoredSlot {
        size: 0x0403_0201,
        kind: SlotKind::Multi,
        layout: Some(NUMBERED),
        overrides: vec![200, 201],
        x: [Candidates::One(24), Candidates::Two(25, 37)],
        roms: vec![
            Rom { size: 5, map: None },
            Rom {
                size: 0x0908_0706,
                map,
            },
        ],
    }
}

#[test]
fn places_of_the_record() {
    let record = numbered().to_bytes();
    assert_eq!(record[..6], [1, 2, 3, 4, 3, 1]);
    assert!(record[6..18].iter().copied().eq(6..18));
    assert_eq!(record[18..22], [2, 200, 201, 0]);
    assert_eq!(record[22..83], [0; 61]);
    assert_eq!(record[83..88], [24, 255, 25, 37, 2]);
    assert_eq!(record[88..97], [0, 0, 0, 0, 5, 0, 0, 0, 0]);
    assert_eq!(record[97..160], [0; 63]);
    assert_eq!(record[160..168], [1, 0, 0, 0, 6, 7, 8, 9]);
    assert_eq!(record[168..172], [40, 41, 42, 255]);
    assert_eq!(record[172..200], [255; 28]);
    assert_eq!(record[200..203], [50, 51, 255]);
    assert_eq!(record[203..232], [255; 29]);
    assert_eq!(record[232..], [0; 144]);
}

#[test]
fn places_of_nothing() {
    let (mut slot, _) = stored(&sample());
    slot.layout = None;
    slot.roms.clear();
    slot.x = [Candidates::Absent; 2];
    let record = slot.to_bytes();
    assert_eq!(record[4..19], [0; 15]);
    assert_eq!(record[83..88], [255, 255, 255, 255, 0]);
    for number in 0..=255 {
        slot.kind = SlotKind::of(number);
        assert_eq!(slot.to_bytes()[4], number);
        assert_eq!(slot.kind.is_plugin(), (4..=6).contains(&number));
    }
}

#[test]
fn what_has_no_place_is_refused() {
    let (good, table) = stored(&sample());
    let number = |slot: &StoredSlot| {
        unscramble_slot(slot, &table, LowFirst)
            .expect_err("a refusal")
            .number
    };
    let mut slot = good.clone();
    slot.overrides = vec![0; 300];
    assert_eq!((slot.to_bytes()[18], number(&slot)), (255, 1));
    let mut slot = good.clone();
    slot.roms = vec![good.roms[0]; 5];
    assert_eq!((slot.to_bytes()[87], number(&slot)), (5, 1));
    let mut slot = good.clone();
    slot.roms[0].map = Map::of(&[9; 33], &[0; 8]);
    assert_eq!((slot.to_bytes()[88], number(&slot)), (0, 19));
    let mut slot = good;
    slot.roms[0].size = (1 << 24) + 1;
    assert_eq!((slot.lengths(8192), number(&slot)), (vec![0], 1));
}

#[test]
fn the_slot_of_found_layouts() {
    let (slot, table) = stored(&sample());
    let record = slot.to_bytes();
    assert_eq!(table.len(), 8192);
    assert_eq!(record[..6], [0, 0x20, 0, 0, 0, 1]);
    assert_eq!(record[6..18], [0, 9, 0, 13, 0, 0, 0, 0, 0, 0, 22, 0]);
    assert_eq!(
        record[83..96],
        [24, 255, 25, 255, 1, 1, 0, 0, 0, 0, 0x20, 0, 0]
    );
    assert_eq!(record[96..101], [21, 20, 19, 18, 17]);
    assert_eq!(record[108..110], [11, 255]);
    assert_eq!(record[128..137], [0, 1, 2, 3, 4, 5, 6, 7, 255]);
}

#[test]
fn a_table_reads_back() {
    for slot in [sample(), doubled()] {
        let (slot, table) = stored(&slot);
        assert_eq!(unscramble_slot(&slot, &table, LowFirst), Ok(vec![chip(0)]));
    }
    let (mut slot, table) = stored(&banked());
    assert_eq!(
        unscramble_slot(&slot, &table, LowFirst),
        Ok(vec![chip(0), chip(1)])
    );
    // No more than a ROM's size, and none of a ROM of no size.
    slot.roms[0].size = 5;
    slot.roms[1].size = 0;
    assert_eq!(slot.lengths(table.len()), [5, 0]);
    let told = unscramble_slot(&slot, &table, LowFirst);
    assert_eq!(told, Ok(vec![chip(0)[..5].to_vec(), vec![]]));
}

#[test]
fn words_are_counted_by_size_and_lines() {
    let (mut slot, _) = stored(&banked());
    slot.roms[0].map = Map::of(&[9, 10, 11], &[0; 8]);
    slot.roms[1].size = 77;
    assert_eq!((slot.lengths(0), slot.marks(0)), (vec![8, 77], 85));
    slot.layout.as_mut().expect("a layout").bit_mode = 1;
    assert_eq!((slot.lengths(0), slot.marks(0)), (vec![16, 76], 46));
    slot.roms[1].map = Map::of(&[9; 32], &[]);
    assert_eq!(slot.lengths(0), [16, 76]);
    slot.kind = SlotKind::UserPlugin;
    assert_eq!((slot.lengths(9), slot.marks(9)), (vec![9], 0));
}

#[test]
fn an_entry_that_disagrees_is_named() {
    let (slot, mut table) = stored(&doubled());
    // A0 is at bit 13 of the index, the free GPIO at bit 1.
    table[1 << 13 | 1 << 1] ^= 0x10;
    let said = "23 Inconsistent, place 1 (ROM 0, address 1): \
        two entries give different values for one word";
    assert_eq!(refused(unscramble_slot(&slot, &table, LowFirst)), said);
    let (mut output, mut marks) = ([7; 8200], [7; 8193]);
    let result = unscramble_slot_into(&slot.to_bytes(), &table, 0, &mut output, &mut marks);
    assert_eq!(result, 23 << 48 | 1);
    assert_eq!(
        (output[..8192] == [0; 8192], &output[8192..]),
        (true, &[7; 8][..])
    );
    assert_eq!((marks[..8192] == [0; 8192], marks[8192]), (true, 7));
}

#[test]
fn a_forced_bit_leaves_words_unserved() {
    let (good, table) = stored(&banked());
    let told = |overrides: &[u8]| {
        let mut slot = good.clone();
        slot.overrides = overrides.to_vec();
        refused(unscramble_slot(&slot, &table, LowFirst))
    };
    // A0 is on GPIO 21, X1 on 8.
    let odd = "24 Unserved, place 1 (ROM 0, address 1): no entry gives a word";
    assert_eq!(told(&[LOW | 21]), odd);
    let even = "24 Unserved, place 0 (ROM 0, address 0): no entry gives a word";
    assert_eq!(told(&[HIGH | 21]), even);
    let other = "24 Unserved, place 4294967296 (ROM 1, address 0): no entry gives a word";
    assert_eq!(told(&[LOW | 8]), other);
    // High beats low, in either order.
    assert_eq!(told(&[LOW | 21, HIGH | 21]), even);
    assert_eq!(told(&[HIGH | 21, LOW | 21]), even);
    // Kinds 0 and 1 force nothing, and what is outside of the window counts for nothing.
    let mut slot = good.clone();
    slot.overrides = vec![21, 1 << 6 | 21, LOW | 30];
    assert_eq!(
        unscramble_slot(&slot, &table, LowFirst),
        Ok(vec![chip(0), chip(1)])
    );
}

#[test]
fn a_plugin_is_copied() {
    let (mut slot, _) = stored(&sample());
    slot.kind = SlotKind::PioPlugin;
    slot.size = 3;
    assert_eq!(
        unscramble_slot(&slot, &[1, 2, 3], LowFirst),
        Ok(vec![vec![1, 2, 3]])
    );
    let (mut output, mut marks) = ([7; 4], [7; 4]);
    let call = |output: &mut [u8], marks: &mut [u8]| {
        unscramble_slot_into(&slot.to_bytes(), &[1, 2, 3], 0, output, marks)
    };
    assert_eq!(call(&mut output, &mut marks), 0);
    assert_eq!((output, marks), ([1, 2, 3, 7], [7; 4]));
    let mut short = [7; 2];
    assert_eq!((call(&mut short, &mut []), short), (16 << 48, [7; 2]));
    let wrong_size = "17 WrongSize, place 0: the data's length is not the declared size";
    assert_eq!(
        refused(unscramble_slot(&slot, &[1, 2], LowFirst)),
        wrong_size
    );
}

#[test]
fn refusals_before_any_entry_are_named() {
    let (good, table) = stored(&banked());
    let told = |change: fn(&mut StoredSlot)| {
        let mut slot = good.clone();
        change(&mut slot);
        let said = refused(unscramble_slot(&slot, &table, LowFirst));
        said.split(':').next().unwrap_or_default().to_string()
    };
    let kind = |slot: &mut StoredSlot| slot.kind = SlotKind::Unknown(7);
    assert_eq!(told(kind), "18 UnknownSlotType, place 0");
    assert_eq!(told(|slot| slot.layout = None), "19 MissingLayout, place 0");
    let map = |slot: &mut StoredSlot| slot.roms[1].map = None;
    assert_eq!(told(map), "19 MissingLayout, place 0");
    let algorithm = |slot: &mut StoredSlot| {
        let layout = slot.layout.as_mut().expect("a layout");
        layout.dma_algorithm = 1;
    };
    assert_eq!(told(algorithm), "20 UnknownAlgorithm, place 0");
    let count = |slot: &mut StoredSlot| slot.roms.truncate(1);
    assert_eq!(told(count), "21 BadLayout, place 0");
    let x1 = |slot: &mut StoredSlot| slot.x[0] = Candidates::Two(8, 9);
    assert_eq!(told(x1), "22 XPin, place 1 (X1)");
    let gpio = |slot: &mut StoredSlot| slot.x[1] = Candidates::One(48);
    assert_eq!(told(gpio), "1 OutOfDomain, place 0");
}

#[test]
fn buffers_keep_what_is_not_theirs() {
    let (slot, table) = stored(&sample());
    let call = |output: &mut [u8], marks: &mut [u8]| {
        unscramble_slot_into(&slot.to_bytes(), &table, 0, output, marks)
    };
    let (mut output, mut marks) = ([7; 8200], [7; 8194]);
    assert_eq!(call(&mut output, &mut marks), 0);
    assert_eq!(
        (&output[..8192], &output[8192..]),
        (&chip(0)[..], &[7; 8][..])
    );
    assert_eq!(
        (marks[..8192] == [1; 8192], &marks[8192..]),
        (true, &[7; 2][..])
    );
    let (mut output, mut marks) = ([7; 8192], [7; 8192]);
    assert_eq!(call(&mut output[..8191], &mut marks), 16 << 48);
    assert_eq!(call(&mut output, &mut marks[..8191]), 16 << 48);
    assert!(output == [7; 8192] && marks == [7; 8192]);
}

#[test]
fn any_record_is_taken() {
    let mut buffers = ([7; 64], [7; 64]);
    let mut call = |slot: &[u8]| {
        let result = unscramble_slot_into(slot, &[0; 16], 0, &mut buffers.0, &mut buffers.1);
        (result >> 48, buffers)
    };
    for length in [0, 1, 375, 377] {
        assert_eq!(call(&vec![0; length]), (1, ([7; 64], [7; 64])));
    }
    for byte in 0..=255 {
        assert_eq!(call(&[byte; 376]), (1, ([7; 64], [7; 64])), "{byte}");
    }
}

#[test]
fn a_round_trip_leaves_the_table_and_the_words() {
    let (_, table) = stored(&banked());
    let (first, second) = (chip(0), chip(1));
    let trip = round_trip(&banked(), &[Some(&first), Some(&second)], LowFirst).expect("a trip");
    assert_eq!(trip.table, table);
    assert_eq!(trip.output, [first, second].concat());
    assert_eq!(trip.marks, [1; 16384]);
}

#[test]
fn a_round_trip_is_refused_by_its_first_call_that_is() {
    let said = |slot: &Description, images: &[Option<&[u8]>]| {
        let refusal = round_trip(slot, images, LowFirst).expect_err("a refusal");
        assert_eq!(refusal.call, Call::RoundTrip);
        refusal.to_string()
    };
    let chip = chip(0);
    let none = "14 MissingImageData, place 0 (chip 0): a chip has no bytes";
    assert_eq!(said(&sample(), &[]), none);
    for pin in [10, 11] {
        let mut slot = sample();
        slot.socket[pin - 1] = Candidates::Absent;
        let unmapped = format!("3 UnmappedPin, place {pin} (pin {pin}): ");
        assert!(said(&slot, &[]).starts_with(&unmapped));
    }
    // A11 on A10's GPIO.
    let mut slot = sample();
    slot.socket[22] = slot.socket[20];
    let unserved = "24 Unserved, place 1024 (ROM 0, address 1024): no entry gives a word";
    assert_eq!(said(&slot, &[Some(&chip)]), unserved);
}

#[test]
fn a_round_trip_writes_when_the_table_is_built() {
    let (_, table) = stored(&sample());
    let chip = chip(0);
    let (spans, images) = images::joined(&[Some(&chip)]);
    let trip = |spans: &[u8], lengths: [usize; 3]| {
        let [mut table, mut output, mut marks] = lengths.map(|length| vec![7; length]);
        let record = sample().to_bytes();
        let lent = (&mut table[..], &mut output[..], &mut marks[..]);
        let result = round_trip_into(&record, spans, &images, 0, lent.0, lent.1, lent.2);
        (result >> 48, [table, output, marks])
    };
    let as_before = |lengths: [usize; 3]| lengths.map(|length| vec![7; length]);
    let exact = [8192; 3];
    let whole = [table.clone(), chip.clone(), vec![1; 8192]];
    assert_eq!(trip(&spans, exact), (0, whole));
    let short_table = [8191, 8192, 8192];
    assert_eq!(trip(&spans, short_table), (16, as_before(short_table)));
    assert_eq!(trip(&spans[1..], exact), (1, as_before(exact)));
    for lengths in [[8192, 8191, 8192], [8192, 8192, 8191]] {
        let [_, output, marks] = as_before(lengths);
        let built = [table.clone(), output, marks];
        assert_eq!(trip(&spans, lengths), (16, built));
    }
}
