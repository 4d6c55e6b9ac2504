//! The sample's record, place by place, and the address search's answers to it.

use onerom::description::{Candidates, Chip, Kind, Multi, SetType, Setting, Settings};
use onerom::{AddrLayout, Call, Description, Refusal, derive_addr_layout, derive_addr_layout_into};
use onerom_bench::text;

fn sample() -> Description {
    text::read(include_str!("../../sample/2764.txt")).expect("the sample is a description")
}

#[test]
fn places_of_the_slot() {
    let record = sample().to_bytes();
    assert_eq!(record[..8], [28, 0, 0, 1, 0, 1, 0, 0]);
    assert_eq!(record[8..16], [0, 0, 8, 0, 0, 0, 0, 0]);
    assert_eq!(record[16..23], [1, 255, 255, 255, 255, 255, 255]);
    assert_eq!(record[23..52], [0; 29]);
    assert_eq!(record[52..54], [255, 255]);
    assert_eq!(record[54..56], [11, 26]);
    assert_eq!(record[56..58], [14, 255]);
    assert_eq!(record[96..98], [34, 10]);
    assert_eq!(record[132..136], [24, 255, 25, 255]);
}

#[test]
fn places_of_the_chip() {
    let record = sample().to_bytes();
    let chip = &record[136..208];
    assert_eq!(chip[..8], [0, 0x20, 0, 0, 13, 8, 2, 0]);
    assert_eq!(chip[8..21], [10, 9, 8, 7, 6, 5, 4, 3, 25, 24, 21, 23, 2]);
    assert_eq!(chip[21..32], [0; 11]);
    assert_eq!(chip[32..40], [11, 12, 13, 15, 16, 17, 18, 19]);
    assert_eq!(chip[48..54], [0, 20, 0, 1, 22, 0]);
    assert_eq!(record[208..], [0; 216]);
}

#[test]
fn places_of_settings_and_multi() {
    let mut slot = sample();
    slot.set_type = SetType::Multi;
    slot.word_bytes = 2;
    slot.pin_offset = -2;
    slot.settings = Settings::ChipSelects {
        cs1: Setting::ActiveHigh,
        others: [Some(Setting::Ignored), None, Some(Setting::ActiveLow)],
    };
    slot.multi = Some(Multi {
        select: Kind::Cs1,
        commoned: vec![Kind::Cs2, Kind::Oe],
        ignored: vec![Kind::Cs4],
    });
    slot.qualifiers = vec![3, 4];
    let record = slot.to_bytes();
    assert_eq!(record[2..8], [2, 2, 254, 1, 2, 1]);
    assert_eq!(record[16..23], [0, 255, 255, 1, 2, 255, 0]);
    assert_eq!(record[23..28], [2, 2, 1, 0, 0]);
    assert_eq!(record[28..36], [3, 1, 0, 0, 0, 0, 0, 0]);
    assert_eq!(record[36..44], [5, 0, 0, 0, 0, 0, 0, 0]);
    assert_eq!(record[44..52], [3, 4, 0, 0, 0, 0, 0, 0]);
}

#[test]
fn the_sample_is_laid_out() {
    let wanted = AddrLayout {
        base: 9,
        pins: 13,
        x1: None,
        x2: None,
        lines: vec![21, 20, 19, 18, 17, 16, 15, 14, 13, 12, 9, 10, 11],
        excess: vec![],
    };
    assert_eq!(derive_addr_layout(&sample()), Ok(wanted));
}

#[test]
fn lines_past_the_limit_are_excess() {
    let mut slot = sample();
    slot.largest_table = 2048;
    let layout = derive_addr_layout(&slot).expect("a layout");
    assert_eq!(layout.lines.len(), 11);
    assert_eq!(layout.excess, [34, 11]);
    assert_eq!(layout.table_bit(34), None);
    assert_eq!(layout.table_bytes(1), Some(1 << 13));
}

#[test]
fn a_layout_goes_on_as_it_came() {
    let record = sample().to_bytes();
    let mut written = [0; 36];
    assert_eq!(derive_addr_layout_into(&record, &mut written), 0);
    assert_eq!(AddrLayout::read(&written).to_bytes(), written);
}

#[test]
fn places_of_the_address_layout() {
    let layout = AddrLayout {
        base: 9,
        pins: 13,
        x1: Some(24),
        x2: None,
        lines: vec![21, 20],
        excess: vec![34],
    };
    let record = layout.to_bytes();
    assert_eq!(record[..8], [9, 13, 24, 255, 2, 1, 0, 0]);
    assert_eq!(record[8..11], [21, 20, 34]);
    assert_eq!(record[11..], [0; 25]);
    assert_eq!(AddrLayout::read(&record), layout);
}

fn refused(slot: &Description) -> String {
    let refusal = derive_addr_layout(slot).expect_err("a refusal");
    refusal.to_string()
}

#[test]
fn refusals_are_named() {
    let mut unmapped = sample();
    unmapped.socket[20] = Candidates::Absent;
    let said = "3 UnmappedPin, place 21 (socket pin 21): a needed pin has no GPIO";
    assert_eq!(refused(&unmapped), said);

    let mut banked = sample();
    banked.set_type = SetType::Banked;
    banked.chips.push(banked.chips[0].clone());
    banked.x[0] = Candidates::Absent;
    let said = "4 MissingXPin, place 1 (X1): a needed X pin has no GPIO";
    assert_eq!(refused(&banked), said);

    let mut wide = sample();
    wide.socket[9] = Candidates::One(47);
    assert!(refused(&wide).starts_with("9 NoValidLayout, place 0: "));
}

#[test]
fn what_no_record_can_hold_is_out_of_domain() {
    let said = "1 OutOfDomain, place 0: ";
    let mut slot = sample();
    slot.chips[0].address_pins = vec![1; 300];
    assert!(refused(&slot).starts_with(said));
    let mut slot = sample();
    slot.chips = vec![Chip::default(); 300];
    assert!(refused(&slot).starts_with(said));
    let mut slot = sample();
    slot.socket[39] = Candidates::One(255);
    assert!(refused(&slot).starts_with(said));
    for length in [0, 1, 423, 425] {
        let result = derive_addr_layout_into(&vec![0; length], &mut [0; 36]);
        let refusal = Refusal::of(Call::Address, result).expect("a refusal");
        assert_eq!((refusal.number, refusal.name), (1, "OutOfDomain"));
    }
}

#[test]
fn buffers_keep_what_is_not_theirs() {
    let record = sample().to_bytes();
    let mut long = [7; 50];
    assert_eq!(derive_addr_layout_into(&record, &mut long), 0);
    assert_eq!(long[..6], [9, 13, 255, 255, 13, 0]);
    assert_eq!(long[36..], [7; 14]);
    let mut short = [7; 35];
    assert_eq!(derive_addr_layout_into(&record, &mut short), 16 << 48);
    assert_eq!(short, [7; 35]);
    assert_eq!(derive_addr_layout_into(&record, &mut []), 16 << 48);
    assert_eq!(derive_addr_layout_into(&[], &mut long), 1 << 48);
}
