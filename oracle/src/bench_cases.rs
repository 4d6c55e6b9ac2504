//! Document 01's bench cases, by the original and by the model.

use crate::answer::answer;
use crate::case::{Build, Case};
use crate::description::{Description, MULTI, Multi, NONE, Package};
use crate::engine::{Engine, Job};
use crate::model::Model;
use crate::original::Original;
use crate::smallest::{one_entry, plain, wire};

const BOTH: [&dyn Engine; 2] = [&Original, &Model::LOW_FIRST];

fn answers(case: Case, wanted: &str) {
    for engine in BOTH {
        let given = answer(engine, &case);
        assert!(given.starts_with(wanted), "{given} is not {wanted}");
    }
}

#[test]
fn windows() {
    answers(Case::Window(0, 32), "1 0 0 1");
    answers(Case::Window(1, 32), "1 0 0 0");
    answers(Case::Window(16, 32), "1 0 0 1");
    answers(Case::Window(41, 8), "1 0 0 0");
    answers(Case::Window(40, 8), "1 0 0 1");
}

#[test]
fn offsets() {
    answers(Case::Offset(24, 32), "2 0 0 4");
    answers(Case::Offset(32, 24), "2 0 0 252");
    answers(Case::Offset(40, 32), "2 10 0");
}

fn address_lines(gpios: &[u8]) -> Description {
    let mut slot = plain();
    slot.chips[0].address_pins = (1..=gpios.len() as u8).collect();
    wire(&mut slot, gpios.iter().copied());
    slot
}

#[test]
fn address_searches() {
    let high = address_lines(&[45, 46, 47]);
    answers(Case::AddressSearch(Box::new(high.write())), "5 9 0");
    let mut choice = address_lines(&[8, 15, 9]);
    choice.socket[2] = [9, 10];
    let found = "5 0 0 8 8 255 255 3 0 8 15 9";
    answers(Case::AddressSearch(Box::new(choice.write())), found);
}

/// Slip 3 of document 02: lines on the last GPIOs of package A are padded past them, and a candidate
/// above 29 is refused at every pin, on which the original is not asked.
#[test]
fn packages() {
    let mut last = address_lines(&[27, 28, 29]);
    last.package = Package::A;
    let search = |slot: &Description| Case::AddressSearch(Box::new(slot.write()));
    answers(search(&last), "5 0 0 27 8 255 255 3 0 27 28 29");
    for pin in 0..42 {
        for candidates in [[29, 0], [30, NONE], [0, 30], [47, 29]] {
            let mut slot = last.clone();
            match pin {
                0..40 => slot.socket[pin] = candidates,
                _ => slot.x[pin - 40] = candidates,
            }
            let above = candidates.iter().any(|&gpio| gpio != NONE && gpio > 29);
            answers(search(&slot), if above { "5 1 0" } else { "5 0 0" });
            slot.package = Package::B;
            answers(search(&slot), if pin < 3 { "5 " } else { "5 0 0" });
        }
    }
    let mut record = last.write();
    record[1] = 2;
    answers(Case::AddressSearch(Box::new(record)), "5 1 0");
}

/// Data on GPIO 16, ce and oe on two GPIOs, cs1 on 19.
fn selects(first: u8, second: u8) -> Description {
    let mut slot = plain();
    slot.chips[0].control = vec![(0, 2), (1, 3), (2, 4)];
    slot.settings.form = 0;
    slot.settings.lines[2] = 2;
    wire(&mut slot, [16, first, second, 19]);
    slot
}

#[test]
fn select_searches() {
    let search = |slot: &Description| Case::SelectSearch(Box::new(slot.write()), None);
    answers(search(&selects(18, 20)), "6 0 0 16 0 1 2 3 1 ");
    let set = 1u64 << 18 | 1 << 21;
    answers(search(&selects(18, 21)), &format!("6 7 {set}"));
    let mut multi = selects(18, 20);
    multi.set_type = MULTI;
    multi.multi = Some(Multi {
        select: 0,
        commoned: vec![1],
        ignored: vec![2],
    });
    answers(search(&multi), "6 8 19");
}

fn table(engine: &dyn Engine, slot: &Description, case: &Build) -> Vec<u8> {
    let job = Job {
        address: &case.address,
        select: &case.select,
        images: &case.images,
        table_length: case.table_length as usize,
    };
    engine.build(slot, &job).expect("a table")
}

#[test]
fn reversed_data() {
    let mut case = one_entry();
    case.select.data = (0..8).rev().collect();
    let byte = |seed: u32| seed.wrapping_mul(2_654_435_761) >> 24;
    case.images[0].seed = (0..=u32::MAX)
        .find(|&seed| byte(seed) == 0xAA)
        .expect("a seed");
    for engine in BOTH {
        assert_eq!(table(engine, &plain(), &case), [0x55]);
    }
}

#[test]
fn sizes() {
    let mut slot = plain();
    let mut case = one_entry();
    case.address.pins = 2;
    case.address.lines = vec![0, 1];
    case.select.data = (0..8).collect();
    case.images[0].length = 3;
    case.table_length = 4;
    let bytes = case.images[0].bytes();
    for engine in BOTH {
        slot.chips[0].size = 3;
        assert_eq!(table(engine, &slot, &case)[3], 0xAA);
        slot.chips[0].size = 2;
        assert_eq!(table(engine, &slot, &case)[3], bytes[1]);
    }
}
