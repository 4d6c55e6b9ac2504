//! The package of the RP2350: every candidate at the edges of both packages, in each call that takes a
//! description. What the lines of a text say of a package is in package_text.rs.

use std::ops::Range;

use super::slots::wired;
use onerom::description::{Description, LENGTH, Package};
use onerom::fence::{Lent, Shown, Side};
use onerom::interface::description as at;
use onerom::{
    ByteOrder, build_rom_image_into, derive_addr_layout_into, derive_cs_data_layout_into, images,
    round_trip_into, well_wired_result,
};
use onerom_bench::text;
use oracle::answer::{self, Chain};
use oracle::case::{Build, Case};
use oracle::description::{MULTI, NONE, SINGLE};
use oracle::engine::{Failure, Told};
use oracle::layout::{AddressLayout, SelectLayout};
use oracle::model::{Model, address, select};
use oracle::slot::ChipBytes;

const OUT_OF_DOMAIN: u64 = 1 << 48;
/// Of a slot that is not well wired.
const NO: u64 = 1;

/// The largest table of these slots, for which there is always room.
const LIMIT: usize = 8192;

/// Places of the candidates, two a pin: the socket's 40, then X1 and X2.
const CANDIDATES: Range<usize> = at::SOCKET.start..at::X2.end;

/// A chip of 256 bytes in a set: address lines on GPIOs 8 to 15, X1 and X2 on 17 and 18, ce and oe on
/// 19 and 20, data on 22 to 29.
fn small(set: &str, chips: usize) -> String {
    let head = format!(
        "socket 24\nlimit {LIMIT}\n{set}\nx1 gpio 17\nx2 gpio 18\nchip size 256\n\
         address 1 2 3 4 5 6 7 8\ndata 9 10 11 12 13 14 15 16\ncontrol ce 17\ncontrol oe 18\n{}",
        "chip again\n".repeat(chips - 1)
    );
    wired(&head, (8..16).chain(22..30).chain([19, 20]))
}

/// A chip of 256 words of 16 bits: address lines on GPIOs 0 to 7, data on 14 to 29.
fn wide() -> String {
    let head = format!(
        "socket 40\nlimit {LIMIT}\nword 2\nchip size 512\naddress 27 1 2 3 4 5 6 7 8\n\
         data 9 10 11 12 13 14 15 16 17 18 19 20 21 22 23 24\ncontrol ce 25\ncontrol oe 26\n"
    );
    wired(&head, (0..8).chain(14..30).chain([8, 9]))
}

type Record = [u8; LENGTH];

/// A slot that all calls take on either package, and what the calls are handed beside its record.
struct Slot {
    name: &'static str,
    /// On package B.
    record: Record,
    address: AddressLayout,
    select: SelectLayout,
    images: [ChipBytes; 4],
}

/// A record with its package.
fn on(package: Package, record: &Record) -> Record {
    let mut record = *record;
    record[at::PACKAGE] = package as u8;
    record
}

/// The oracle's value of a record.
fn plain(record: &Record) -> oracle::description::Description {
    oracle::description::Description::read(record).expect("a description")
}

impl Slot {
    fn of(name: &'static str, text: &str) -> Self {
        let slot: Description = text::read(text).expect("a description");
        let record = slot.to_bytes();
        let own = plain(&record);
        let address = address::search(&own).expect("an address layout");
        let select = select::search(&own, Some(&address)).expect("a layout");
        let images = std::array::from_fn(|number| ChipBytes {
            present: number < slot.chips.len(),
            length: slot.chips.get(number).map_or(0, |chip| chip.size),
            seed: 77 * number as u32,
        });
        Self {
            name,
            record,
            address,
            select,
            images,
        }
    }

    fn all() -> [Self; 4] {
        let multi = "set multi\nmulti select ce commoned oe";
        [
            Self::of("Single", &small("set single", 1)),
            Self::of("Banked", &small("set banked", 3)),
            Self::of("Multi", &small(multi, 3)),
            Self::of("16 bits", &wide()),
        ]
    }

    fn addr_layout(&self) -> Vec<u8> {
        addr_record(&bytes(self.address.fields()))
    }

    fn cs_data_layout(&self) -> Vec<u8> {
        cs_data_record(&bytes(self.select.fields()))
    }

    /// The spans record and the chips' bytes.
    fn images(&self) -> [Vec<u8>; 2] {
        let chips = self.images.iter().filter(|image| image.present);
        let chips: Vec<Vec<u8>> = chips.map(ChipBytes::bytes).collect();
        let given: Vec<Option<&[u8]>> = chips.iter().map(|chip| Some(&chip[..])).collect();
        let (spans, bytes) = images::joined(&given);
        [spans.to_vec(), bytes]
    }
}

fn bytes(fields: Vec<u64>) -> Vec<u8> {
    let byte = |field| u8::try_from(field).expect("a byte");
    fields.into_iter().map(byte).collect()
}

/// The layout records of docs/INTERFACE.md from the fields of docs/CASES.md.
fn addr_record(fields: &[u8]) -> Vec<u8> {
    [&fields[..6], &[0; 2], &fields[6..], &[0; 4]].concat()
}

fn cs_data_record(fields: &[u8]) -> Vec<u8> {
    let (counts, qualifiers) = (&fields[10..12], &fields[6..10]);
    [&fields[..6], counts, qualifiers, &fields[12..]].concat()
}

/// What a call tells, and what it writes at the front of each lent buffer.
type Answer = (u64, Vec<Vec<u8>>);

/// A call on the slices that it reads and those that it is lent.
type Raw = fn(&[&[u8]], &mut [&mut [u8]]) -> u64;

/// A call on a description and what else it is handed.
struct Call {
    name: &'static str,
    call: Raw,
    /// What it reads behind the description.
    read: fn(&Slot) -> Vec<Vec<u8>>,
    /// How long the buffers are that it is lent.
    lent: &'static [usize],
    /// What the model answers.
    wanted: fn(&Slot, &Record) -> Answer,
}

const CALLS: [Call; 5] = [
    Call {
        name: "address search",
        call: |read, lent| derive_addr_layout_into(read[0], lent[0]),
        read: |_| vec![],
        lent: &[36],
        wanted: |_, record| {
            let case = Case::AddressSearch(Box::new(*record));
            found(&case, addr_record)
        },
    },
    Call {
        name: "select search",
        call: |read, lent| derive_cs_data_layout_into(read[0], read[1], lent[0]),
        read: |slot| vec![slot.addr_layout()],
        lent: &[100],
        wanted: |slot, record| {
            let case = Case::SelectSearch(Box::new(*record), Some(slot.address.clone()));
            found(&case, cs_data_record)
        },
    },
    Call {
        name: "build",
        call: |read, lent| {
            build_rom_image_into(read[0], read[1], read[2], read[3], read[4], 0, lent[0])
        },
        read: |slot| {
            let layouts = [slot.addr_layout(), slot.cs_data_layout()];
            layouts.into_iter().chain(slot.images()).collect()
        },
        lent: &[LIMIT],
        wanted: built,
    },
    Call {
        name: "round trip",
        call: |read, lent| {
            let [table, output, marks] = lent else {
                panic!("three buffers");
            };
            round_trip_into(read[0], read[1], read[2], 0, table, output, marks)
        },
        read: |slot| slot.images().to_vec(),
        lent: &[LIMIT, 1024, 1024],
        wanted: returned,
    },
    Call {
        name: "well wired",
        call: |read, _| well_wired_result(read[0], read[1]),
        read: |slot| vec![slot.addr_layout()],
        lent: &[],
        wanted: |slot, record| {
            let no = !is_well_wired(&plain(record), &slot.address);
            (if no { NO } else { 0 }, vec![])
        },
    },
];

/// A refusal as a call's result.
fn told(failure: Failure) -> u64 {
    match failure {
        Failure::Refused { number, place } => number << 48 | place,
        Failure::Panic => unreachable!("the model answers"),
    }
}

/// What a search finds, as a record.
fn found(case: &Case, record: fn(&[u8]) -> Vec<u8>) -> Answer {
    let line = answer::answer(&Model::LOW_FIRST, case);
    let numbers = line.split(' ').map(|word| word.parse().expect("a number"));
    let numbers: Vec<u64> = numbers.collect();
    match numbers[1] << 48 | numbers[2] {
        0 => (0, vec![record(&bytes(numbers[3..].to_vec()))]),
        refusal => (refusal, vec![vec![]]),
    }
}

fn built(slot: &Slot, record: &Record) -> Answer {
    let case = Build {
        record: Box::new(*record),
        address: slot.address.clone(),
        select: slot.select.clone(),
        images: slot.images,
        table_length: LIMIT as u32,
    };
    let table: Told<Vec<u8>> = answer::build(&Model::LOW_FIRST, &case);
    match table {
        Ok(table) => (0, vec![table]),
        Err(failure) => (told(failure), vec![vec![]]),
    }
}

fn returned(slot: &Slot, record: &Record) -> Answer {
    let chain = Chain::of(&Model::LOW_FIRST, &Box::new(*record), &slot.images);
    let table = chain.table.unwrap_or_default();
    match chain.told {
        Ok((_, read)) => {
            let marks = vec![1; read.marks as usize];
            (0, vec![table, read.roms.concat(), marks])
        }
        Err(failure) => {
            let result = told(failure);
            let words = match result >> 48 {
                // An entry or a word at fault: what was read is cleared.
                23 | 24 => words(record),
                _ => 0,
            };
            let output = words * usize::from(record[at::WORD_BYTES]);
            (result, vec![table, vec![0; output], vec![0; words]])
        }
    }
}

/// How many words a read-back counts: of each chip those that its size has and its lines reach.
fn words(record: &Record) -> usize {
    let slot = plain(record);
    let layout = address::search(&slot).expect("an address layout");
    let reached = |size: u32| size as usize / usize::from(slot.word_bytes);
    let reach = 1 << layout.lines.len();
    let chips = slot.chips.iter();
    chips.map(|chip| reached(chip.size).min(reach)).sum()
}

/// Whether a slot is well wired, by the rules that candidates can break: the lines of these slots lie
/// on different pins, are as many as a word has bits, and there are no qualifiers.
fn is_well_wired(slot: &oracle::description::Description, layout: &AddressLayout) -> bool {
    let socket = slot.socket[..usize::from(slot.board_pins)].iter();
    let mut gpios: Vec<u8> = socket.chain(&slot.x).flatten().copied().collect();
    gpios.retain(|&gpio| gpio != NONE);
    let all = gpios.len();
    gpios.sort_unstable();
    gpios.dedup();
    let window = layout.base..layout.base + layout.pins;
    let inside = |pin: &[u8; 2]| pin.iter().filter(|gpio| window.contains(gpio)).count() == 1;
    let picking = match slot.set_type {
        SINGLE => 0,
        _ if slot.chips.len() >= 3 => 2,
        _ => 1,
    };
    let select = slot.chip0().control[0].1;
    let one_select = slot.candidates(select)[1] == NONE;
    gpios.len() == all
        && slot.x[..picking].iter().all(inside)
        && (slot.set_type != MULTI || one_select)
}

impl Call {
    /// Makes the call at both guard pages: this is told, these bytes stand at the fronts of the lent
    /// buffers, and nothing else was written.
    fn check(&self, slot: &Slot, record: &Record, (told, written): &Answer, case: &str) {
        let mut read = vec![record.to_vec()];
        read.extend((self.read)(slot));
        for side in Side::BOTH {
            let name = format!("{}, {}, {case}, {side:?}", self.name, slot.name);
            let mut shown: Vec<Shown> = read.iter().map(|_| Shown::default()).collect();
            let mut buffers: Vec<Lent> = self.lent.iter().map(|_| Lent::default()).collect();
            for (shown, bytes) in shown.iter_mut().zip(&read) {
                shown.put(bytes, side);
            }
            let slices: Vec<&[u8]> = shown.iter().map(Shown::bytes).collect();
            let places = buffers.iter_mut().zip(self.lent);
            let mut places: Vec<&mut [u8]> = places
                .map(|(buffer, &length)| buffer.lend(length, side))
                .collect();
            assert_eq!((self.call)(&slices, &mut places), *told, "{name}");
            for (number, (buffer, front)) in buffers.iter().zip(written).enumerate() {
                let name = format!("{name}, buffer {number}");
                assert!(buffer.front(front.len()) == *front, "{name}");
                assert!(buffer.is_kept_past(front.len()), "{name}, past it");
            }
        }
    }

    /// A refusal by 1, which writes nothing.
    fn refusal(&self) -> Answer {
        (OUT_OF_DOMAIN, vec![vec![]; self.lent.len()])
    }
}

/// The last GPIO of package A and the next, the last of B, and what no package has.
const EDGES: [u8; 5] = [29, 30, 47, 48, 254];

/// The record with each candidate in turn, first and second, at the edges: its name, the GPIO, and the
/// record. Where a pin has no first candidate and gets a second, it gets 28 as its first.
fn edges(record: &Record) -> Vec<(String, u8, Record)> {
    let mut all = Vec::new();
    let places = CANDIDATES.flat_map(|place| EDGES.map(|gpio| (place, gpio)));
    for (place, gpio) in places {
        let (pin, second) = ((place - CANDIDATES.start) / 2, place % 2);
        let first = place - second;
        let mut changed = *record;
        changed[place] = gpio;
        if changed[first] == NONE {
            changed[first] = 28;
        }
        // Two candidates of a pin differ.
        if changed[first] != changed[first + 1] {
            let (pin, candidate) = (pin + 1, second + 1);
            let name = format!("pin {pin} of 42, candidate {candidate}, GPIO {gpio}");
            all.push((name, gpio, changed));
        }
    }
    all
}

#[test]
fn these_slots_are_answered_on_both_packages() {
    for slot in &Slot::all() {
        for call in &CALLS {
            let wanted = (call.wanted)(slot, &slot.record);
            assert_eq!(wanted.0, 0, "{}, {}", call.name, slot.name);
            for package in [Package::A, Package::B] {
                let record = on(package, &slot.record);
                call.check(slot, &record, &wanted, &package.to_string());
            }
        }
    }
}

#[test]
fn every_candidate_at_the_edges() {
    for slot in &Slot::all() {
        let edges = edges(&slot.record);
        // 42 pins, first and second; but for the last data line's pin, which is on 29.
        assert_eq!(edges.len(), 42 * 2 * EDGES.len() - 1, "{}", slot.name);
        for (name, gpio, record) in &edges {
            for call in &CALLS {
                let wanted = (call.wanted)(slot, record);
                call.check(slot, record, &wanted, &format!("{name}, RP2350B"));
                let wanted = if *gpio > 29 { call.refusal() } else { wanted };
                let record = on(Package::A, record);
                call.check(slot, &record, &wanted, &format!("{name}, RP2350A"));
            }
        }
    }
}

#[test]
fn several_candidates_above_the_last() {
    for slot in &Slot::all() {
        let mut record = on(Package::A, &slot.record);
        record[CANDIDATES].fill(NONE);
        for (place, gpio) in CANDIDATES.step_by(2).zip((30..48).cycle()) {
            record[place] = gpio;
        }
        for call in &CALLS {
            call.check(slot, &record, &call.refusal(), "all above");
        }
    }
}

#[test]
fn packages_have_no_other_number() {
    for slot in &Slot::all() {
        for call in &CALLS {
            let good = (call.wanted)(slot, &slot.record);
            for number in 0..=255 {
                let mut record = slot.record;
                record[at::PACKAGE] = number;
                let wanted = match number {
                    0 | 1 => &good,
                    _ => &call.refusal(),
                };
                call.check(slot, &record, wanted, &format!("package {number}"));
            }
        }
    }
}

/// Three lines on the last GPIOs of package A: the span is padded to 8 pins all the same.
#[test]
fn a_padded_span_reaches_past_the_last() {
    let head = "socket 24\npackage a\nchip size 8\naddress 1 2 3\ndata 4 5 6 7 8 9 10 11\n\
        control ce 12\n";
    let slot = text::read(&wired(head, (27..30).chain(16..25))).expect("a description");
    let layout = onerom::derive_addr_layout(&slot).expect("a layout");
    assert_eq!((layout.base, layout.pins), (27, 8));
    assert_eq!(layout.lines, [27, 28, 29]);
    let rom: Vec<u8> = (0..8).map(|n| 31 * n + 5).collect();
    let trip =
        onerom::round_trip(&slot, &[Some(&rom)], ByteOrder::LowFirst).expect("it reads back");
    assert_eq!((trip.table.len(), trip.output), (256, rom));
    assert_eq!(onerom::well_wired(&slot, &layout), Ok(true));
}

/// A select layout of its own: data on these GPIOs, and one select line.
fn cs_data_layout(data: Range<u8>, select: u8) -> SelectLayout {
    SelectLayout {
        base: 16,
        base_data_pin: data.start - 16,
        base_cs_pin: select - 16,
        cs_pins: 1,
        ignore: None,
        qualifier: None,
        data: data.collect(),
        select: vec![(0, select)],
        commoned: vec![],
    }
}

/// GPIOs of layouts are no candidates: those that the package has not are taken there.
#[test]
fn layouts_that_are_handed_in_go_up_to_47() {
    let text = small("set single", 1).replace("pin 17 gpio 19", "pin 17 gpio 29");
    let text = text
        .replace("pin 16 gpio 29", "pin 16 gpio 21")
        .replace("pin 18 gpio 20\n", "")
        .replace("control oe 18\n", "");
    let mut slot = Slot::of("layouts", &text);
    let select_search = &CALLS[1];
    let build = &CALLS[2];
    for excess in [vec![], vec![30], vec![30, 31]] {
        slot.address.lines = (40..48).collect();
        (slot.address.base, slot.address.pins) = (40, 8);
        (slot.address.x1, slot.address.x2) = (Some(30), Some(47));
        slot.address.excess = excess;
        slot.select = cs_data_layout(31..39, 39);
        for call in [select_search, build] {
            let wanted = (call.wanted)(&slot, &slot.record);
            assert_eq!(wanted.0, 0, "{}", call.name);
            for package in [Package::A, Package::B] {
                let record = on(package, &slot.record);
                call.check(&slot, &record, &wanted, &package.to_string());
            }
        }
    }
}
