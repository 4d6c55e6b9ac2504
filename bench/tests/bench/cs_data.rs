//! The select layout's record, place by place, and the select search's answers.

use onerom::description::{Candidates, Kind, Multi, SetType, Setting, Settings};
use onerom::layout::cs_data::{Line, Qualifiers, Role};
use onerom::{
    AddrLayout, Call, CsDataLayout, Description, Refusal, derive_addr_layout,
    derive_cs_data_layout, derive_cs_data_layout_into,
};
use onerom_bench::{show, text};

fn sample() -> Description {
    text::read(include_str!("../../sample/2764.txt")).expect("the sample is a description")
}

/// Both searches in turn.
fn laid_out(slot: &Description) -> Result<CsDataLayout, Refusal> {
    let addr = derive_addr_layout(slot).expect("an address layout");
    derive_cs_data_layout(slot, Some(&addr))
}

fn found(slot: &Description) -> CsDataLayout {
    laid_out(slot).expect("a layout")
}

fn refused(slot: &Description) -> String {
    laid_out(slot).expect_err("a refusal").to_string()
}

fn line(role: Role, gpio: u8) -> Line {
    Line { role, gpio }
}

fn chip_select(cs1: Setting) -> Settings {
    Settings::ChipSelects {
        cs1,
        others: [None; 3],
    }
}

/// Two chips on ce and X1, with oe as it is told.
fn multi(commoned: Vec<Kind>, ignored: Vec<Kind>) -> Description {
    let mut slot = sample();
    slot.set_type = SetType::Multi;
    slot.chips.push(slot.chips[0].clone());
    slot.multi = Some(Multi {
        select: Kind::Ce,
        commoned,
        ignored,
    });
    slot
}

#[test]
fn places_are_read() {
    let mut record = [0; 100];
    record[..12].copy_from_slice(&[16, 1, 2, 3, 4, 5, 2, 1, 1, 9, 10, 11]);
    record[12..14].copy_from_slice(&[17, 18]);
    record[28..32].copy_from_slice(&[0, 19, 8, 20]);
    record[88..90].copy_from_slice(&[5, 21]);
    let wanted = CsDataLayout {
        base: 16,
        base_data_pin: 1,
        data: vec![17, 18],
        base_cs_pin: 3,
        cs_pins: 4,
        ignore_index: Some(5),
        qualifiers: Some(Qualifiers {
            base_pin: 9,
            pins: 10,
            pattern: 11,
        }),
        select: vec![line(Role::Ce, 19), line(Role::HalfSelect, 20)],
        commoned: vec![line(Role::Cs4, 21)],
    };
    assert_eq!(CsDataLayout::read(&record), wanted);
    assert_eq!(wanted.ignored_gpio(), Some(24));
    assert_eq!(wanted.qualifier_gpios(), [25, 26, 28]);
    assert_eq!(wanted.to_bytes(), record);
}

#[test]
fn a_layout_goes_on_as_it_came() {
    let mut qualified = sample();
    qualified.qualifiers = vec![0, 2];
    for slot in [sample(), qualified, multi(vec![Kind::Oe], vec![])] {
        let addr = derive_addr_layout(&slot).expect("an address layout");
        let mut written = [0; 100];
        let result = derive_cs_data_layout_into(&slot.to_bytes(), &addr.to_bytes(), &mut written);
        assert_eq!(result, 0);
        assert_eq!(CsDataLayout::read(&written).to_bytes(), written);
    }
}

#[test]
fn lists_that_are_too_long_keep_their_counts() {
    let mut layout = found(&sample());
    layout.data = vec![1; 17];
    layout.select = vec![line(Role::Ce, 1); 300];
    layout.commoned = vec![line(Role::Unknown(9), 1); 7];
    let record = layout.to_bytes();
    assert_eq!((record[2], record[6], record[7]), (17, 255, 7));
    assert_eq!(record[12..28], [1; 16]);
    assert_eq!(record[88..90], [9, 1]);
}

#[test]
fn roles_have_numbers_and_names() {
    let names = [
        "ce",
        "oe",
        "cs1",
        "cs2",
        "cs3",
        "cs4",
        "X1",
        "X2",
        "half select",
        "role 9",
    ];
    for (number, name) in (0..).zip(names) {
        let mut record = [0; 100];
        (record[6], record[28]) = (1, number);
        let role = CsDataLayout::read(&record).select[0].role;
        assert_eq!((role.number(), role.to_string()), (number, name.into()));
    }
}

#[test]
fn any_bytes_are_read_and_shown() {
    let slot = sample();
    let try_out = |record: [u8; 100]| {
        let layout = CsDataLayout::read(&record);
        show::cs_data_summary(&layout) + &show::cs_data_table(&slot, &layout)
    };
    for byte in 0..=255 {
        try_out([byte; 100]);
        for place in 0..100 {
            let mut record = [0; 100];
            record[place] = byte;
            try_out(record);
            record = [255; 100];
            record[place] = byte;
            try_out(record);
        }
    }
}

#[test]
fn any_address_bytes_are_read_and_shown() {
    let slot = sample();
    for byte in 0..=255 {
        for place in 0..36 {
            let mut record = [255; 36];
            record[place] = byte;
            let layout = AddrLayout::read(&record);
            show::addr_summary(&slot, &layout);
            show::addr_table(&layout);
        }
    }
}

#[test]
fn the_sample_is_laid_out() {
    let wanted = CsDataLayout {
        base: 0,
        base_data_pin: 0,
        data: (0..8).collect(),
        base_cs_pin: 22,
        cs_pins: 2,
        ignore_index: None,
        qualifiers: None,
        select: vec![line(Role::Ce, 22), line(Role::Oe, 23)],
        commoned: vec![],
    };
    assert_eq!(found(&sample()), wanted);
}

#[test]
fn one_gpio_between_the_selects_is_ignored() {
    let mut slot = sample();
    slot.socket[21] = Candidates::One(24);
    let layout = found(&slot);
    assert_eq!((layout.cs_pins, layout.ignore_index), (3, Some(1)));
    assert_eq!(layout.ignored_gpio(), Some(23));
}

#[test]
fn qualifiers_follow_the_address_layout() {
    let mut slot = sample();
    slot.qualifiers = vec![0, 2];
    let layout = found(&slot);
    let wanted = Qualifiers {
        base_pin: 19,
        pins: 3,
        pattern: 0b101,
    };
    assert_eq!(layout.qualifiers, Some(wanted));
    assert_eq!(layout.qualifier_gpios(), [19, 21]);
}

#[test]
fn excess_lines_are_half_selects() {
    let mut slot = sample();
    slot.largest_table = 4096;
    slot.socket[1] = Candidates::One(23);
    slot.chips[0].control = vec![(Kind::Cs1, 20)];
    slot.settings = chip_select(Setting::ActiveLow);
    let wanted = [line(Role::Cs1, 22), line(Role::HalfSelect, 23)];
    assert_eq!(found(&slot).select, wanted);
}

#[test]
fn a_multi_set_has_commoned_lines() {
    let layout = found(&multi(vec![Kind::Oe], vec![]));
    assert_eq!(layout.select, [line(Role::Ce, 22), line(Role::X1, 24)]);
    assert_eq!(layout.commoned, [line(Role::Oe, 23)]);
    assert_eq!(layout.cs_pins, 3);
}

#[test]
fn refusals_name_what_the_select_search_counts() {
    let mut slot = sample();
    slot.socket[10] = Candidates::Absent;
    let said = "3 UnmappedPin, place 11 (chip pin 11): \
        a needed pin is off the socket or has no GPIO";
    assert_eq!(refused(&slot), said);

    let mut slot = sample();
    slot.socket[21] = Candidates::One(27);
    assert!(refused(&slot).starts_with("7 NonContiguousSelect, place 138412032 (GPIOs 22 27): "));

    let slot = multi(vec![], vec![Kind::Oe]);
    assert!(refused(&slot).starts_with("8 InteriorIgnoredLine, place 23 (GPIO 23): "));

    let mut slot = sample();
    slot.socket[18] = Candidates::One(8);
    assert!(refused(&slot).starts_with("9 NoValidLayout, place 0: no choice of GPIOs has data"));
}

#[test]
fn refusals_before_any_pin() {
    let mut slot = sample();
    slot.chips[0].control.clear();
    assert!(refused(&slot).starts_with("2 NoSelectLine, place 0: "));

    let mut slot = sample();
    slot.largest_table = 2048;
    slot.settings = chip_select(Setting::Ignored);
    assert!(refused(&slot).starts_with("6 RomTooLargeNoCsConfig, place 0: "));

    let mut slot = sample();
    slot.qualifiers = vec![0];
    let refusal = derive_cs_data_layout(&slot, None).expect_err("a refusal");
    assert_eq!((refusal.number, refusal.place), (5, 0));
    assert_eq!(refusal.call, Call::Select);
}

#[test]
fn an_address_layout_need_not_be_given() {
    assert_eq!(derive_cs_data_layout(&sample(), None), laid_out(&sample()));
}

#[test]
fn what_is_no_address_layout_is_out_of_domain() {
    let record = sample().to_bytes();
    let good = derive_addr_layout(&sample()).expect("an address layout");
    let number =
        |addr_layout: &[u8]| derive_cs_data_layout_into(&record, addr_layout, &mut [0; 100]) >> 48;
    for length in [1, 35, 37] {
        let mut bytes = good.to_bytes().to_vec();
        bytes.resize(length, 0);
        assert_eq!(number(&bytes), 1);
    }
    for place in [6, 7, 32, 33, 34, 35] {
        let mut bytes = good.to_bytes();
        bytes[place] = 1;
        assert_eq!(number(&bytes), 1);
    }
    let mut long = good.clone();
    long.excess = vec![30; 300];
    assert_eq!(number(&long.to_bytes()), 1);
    let mut no_gpio = good;
    no_gpio.x2 = Some(255);
    assert_eq!(number(&no_gpio.to_bytes()), 1);
}

#[test]
fn buffers_keep_what_is_not_theirs() {
    let record = sample().to_bytes();
    let mut long = [7; 110];
    assert_eq!(derive_cs_data_layout_into(&record, &[], &mut long), 0);
    assert_eq!(long[..12], [0, 0, 8, 22, 2, 255, 2, 0, 0, 0, 0, 0]);
    assert_eq!(long[100..], [7; 10]);
    let mut short = [7; 99];
    let result = derive_cs_data_layout_into(&record, &[], &mut short);
    assert_eq!((result, short), (16 << 48, [7; 99]));
    assert_eq!(derive_cs_data_layout_into(&record, &[], &mut []), 16 << 48);
    assert_eq!(derive_cs_data_layout_into(&[], &[], &mut long), 1 << 48);
}
