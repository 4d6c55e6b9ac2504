//! Each exported call with each of its slices empty, a byte short, as long as it should be and a byte
//! long, at both guard pages: what docs/INTERFACE.md says is told, and what stands in every byte of
//! the lent buffers afterwards.

use super::slots::{SAMPLE, changed, wide};
use onerom::description::{Candidates, SetType};
use onerom::fence::{Lent, Shown, Side};
use onerom::page::LENGTH as PAGE;
use onerom::slot::{Map, SlotKind};
use onerom::{
    ByteOrder, Description, StoredSlot, build_rom_image_into, derive_addr_layout,
    derive_addr_layout_into, derive_cs_data_layout, derive_cs_data_layout_into, images, pin_page,
    round_trip_into, table_length, unscramble_slot_into, well_wired_result, write_page_into,
};
use onerom_bench::text;

use ByteOrder::{HighFirst, LowFirst};

const SUCCESS: u64 = 0;
/// Of a slot that is not well wired.
const NO: u64 = 1;
const OUT_OF_DOMAIN: u64 = 1 << 48;
const SHORT_IMAGES: u64 = 15 << 48;
const SHORT_BUFFER: u64 = 16 << 48;
const WRONG_SIZE: u64 = 17 << 48;
const INCONSISTENT: u64 = 23;
const UNSERVED: u64 = 24;

fn described(text: &str) -> Description {
    text::read(text).expect("a description")
}

fn banked() -> Description {
    let mut slot = described(SAMPLE);
    slot.set_type = SetType::Banked;
    slot.x[0] = Candidates::One(8);
    slot.chips.push(slot.chips[0].clone());
    slot
}

/// Ce, oe and X1 side by side.
fn multi() -> Description {
    let set = "set multi\nmulti select ce commoned oe";
    let mut slot = described(&changed(&[("set single", set)]));
    slot.chips.push(slot.chips[0].clone());
    slot
}

/// A slot that all calls take, with what they are handed and what they write.
struct Good {
    name: &'static str,
    order: u64,
    chips: u64,
    description: Vec<u8>,
    spans: Vec<u8>,
    images: Vec<u8>,
    addr_layout: Vec<u8>,
    cs_data_layout: Vec<u8>,
    page: Vec<u8>,
    table: Vec<u8>,
    stored: StoredSlot,
    slot: Vec<u8>,
    output: Vec<u8>,
    marks: Vec<u8>,
}

/// A chip's bytes; no two chips have the same.
fn chip(number: usize, size: u32) -> Vec<u8> {
    let byte = |n: u32| (n + (number as u32 + 1) * 77_777).wrapping_mul(2_654_435_761) >> 24;
    (0..size).map(|n| byte(n) as u8).collect()
}

impl Good {
    fn of(name: &'static str, slot: &Description, order: ByteOrder) -> Self {
        let description = slot.to_bytes();
        let chips: Vec<Vec<u8>> = (slot.chips.iter().enumerate())
            .map(|(number, own)| chip(number, own.size))
            .collect();
        let given: Vec<Option<&[u8]>> = chips.iter().map(|chip| Some(&chip[..])).collect();
        let (spans, images) = images::joined(&given);
        let addr = derive_addr_layout(slot).expect("an address layout");
        let cs_data = derive_cs_data_layout(slot, Some(&addr)).expect("a layout");
        let (addr_layout, cs_data_layout) = (addr.to_bytes(), cs_data.to_bytes());
        let mut table = vec![0; table_length(&description, &addr_layout)];
        let parts = [
            &description[..],
            &addr_layout,
            &cs_data_layout,
            &spans,
            &images,
        ];
        assert_eq!(build(&parts, order.number(), &mut [&mut table]), SUCCESS);
        let stored = StoredSlot::of_layouts(slot, &addr, &cs_data);
        Self {
            name,
            order: order.number(),
            chips: chips.len() as u64,
            description: description.to_vec(),
            spans: spans.to_vec(),
            addr_layout: addr_layout.to_vec(),
            cs_data_layout: cs_data_layout.to_vec(),
            page: pin_page(&addr, &cs_data).expect("a page").to_vec(),
            slot: stored.to_bytes().to_vec(),
            marks: vec![1; stored.marks(table.len())],
            // A well wired slot reads back as its chips.
            output: chips.concat(),
            table,
            images,
            stored,
        }
    }

    fn all() -> [Self; 6] {
        let (single, wide) = (described(SAMPLE), described(&wide([30, 31])));
        [
            Self::of("Single", &single, LowFirst),
            Self::of("Single, high byte first", &single, HighFirst),
            Self::of("Banked", &banked(), LowFirst),
            Self::of("Multi", &multi(), LowFirst),
            Self::of("16 bits", &wide, LowFirst),
            Self::of("16 bits, high byte first", &wide, HighFirst),
        ]
    }
}

/// What another length of a slice that is read comes to.
#[derive(Clone, Copy)]
enum Read {
    /// No record.
    Record,
    /// No record either, but no bytes are no layout, which these slots do not need.
    LayoutOrNone,
    /// Missing bytes are the last chip's, or with none at all the first's; more count for nothing.
    Images,
    /// Other bytes than the slot declares.
    Stored,
}

impl Read {
    fn told(self, exact: usize, length: usize, chips: u64) -> u64 {
        match self {
            _ if length == exact => SUCCESS,
            Self::LayoutOrNone if length == 0 => SUCCESS,
            Self::Record | Self::LayoutOrNone => OUT_OF_DOMAIN,
            Self::Images if length > exact => SUCCESS,
            Self::Images if length == 0 => SHORT_IMAGES,
            Self::Images => SHORT_IMAGES + chips - 1,
            Self::Stored => WRONG_SIZE,
        }
    }
}

/// What is read, a byte order for the calls that take one, and what is lent.
type Raw = fn(&[&[u8]], u64, &mut [&mut [u8]]) -> u64;

/// A call on a slot.
struct Function<'a> {
    name: String,
    call: Raw,
    order: u64,
    chips: u64,
    read: Vec<(Read, &'a [u8])>,
    /// What a success writes.
    lent: Vec<&'a [u8]>,
    /// How many of these are written before the later ones are looked at.
    early: usize,
}

fn derive_addr(read: &[&[u8]], _: u64, lent: &mut [&mut [u8]]) -> u64 {
    derive_addr_layout_into(read[0], lent[0])
}

fn derive_cs_data(read: &[&[u8]], _: u64, lent: &mut [&mut [u8]]) -> u64 {
    derive_cs_data_layout_into(read[0], read[1], lent[0])
}

fn build(read: &[&[u8]], order: u64, lent: &mut [&mut [u8]]) -> u64 {
    build_rom_image_into(read[0], read[1], read[2], read[3], read[4], order, lent[0])
}

/// A success tells the page's length.
fn write_page(read: &[&[u8]], _: u64, lent: &mut [&mut [u8]]) -> u64 {
    let told = write_page_into(read[0], read[1], lent[0]);
    assert_ne!(told, SUCCESS);
    if told == PAGE as u64 { SUCCESS } else { told }
}

fn unscramble(read: &[&[u8]], order: u64, lent: &mut [&mut [u8]]) -> u64 {
    let [output, marks] = lent else {
        panic!("two buffers");
    };
    unscramble_slot_into(read[0], read[1], order, output, marks)
}

fn round_trip(read: &[&[u8]], order: u64, lent: &mut [&mut [u8]]) -> u64 {
    let [table, output, marks] = lent else {
        panic!("three buffers");
    };
    round_trip_into(read[0], read[1], read[2], order, table, output, marks)
}

fn wiring(read: &[&[u8]], _: u64, _: &mut [&mut [u8]]) -> u64 {
    well_wired_result(read[0], read[1])
}

impl<'a> Function<'a> {
    fn of(
        good: &'a Good,
        (name, call, early): (&str, Raw, usize),
        read: &[(Read, &'a [u8])],
        lent: &[&'a [u8]],
    ) -> Self {
        Self {
            name: format!("{name}, {}", good.name),
            call,
            order: good.order,
            chips: good.chips,
            read: read.to_vec(),
            lent: lent.to_vec(),
            early,
        }
    }

    fn all(good: &'a Good) -> [Self; 7] {
        let description = (Read::Record, &good.description[..]);
        let addr = (Read::Record, &good.addr_layout[..]);
        let addr_or_none = (Read::LayoutOrNone, &good.addr_layout[..]);
        let cs_data = (Read::Record, &good.cs_data_layout[..]);
        let spans = (Read::Record, &good.spans[..]);
        let images = (Read::Images, &good.images[..]);
        let slot = (Read::Record, &good.slot[..]);
        let stored = (Read::Stored, &good.table[..]);
        let of =
            |what: (&str, Raw, usize), read: &[_], lent: &[_]| Function::of(good, what, read, lent);
        let (table, output, marks) = (&good.table[..], &good.output[..], &good.marks[..]);
        let built = [description, addr, cs_data, spans, images];
        let trip = [description, spans, images];
        [
            of(
                ("address search", derive_addr, 0),
                &[description],
                &[addr.1],
            ),
            of(
                ("select search", derive_cs_data, 0),
                &[description, addr_or_none],
                &[cs_data.1],
            ),
            of(("build", build, 0), &built, &[table]),
            of(("pin page", write_page, 0), &[addr, cs_data], &[&good.page]),
            of(
                ("read-back", unscramble, 0),
                &[slot, stored],
                &[output, marks],
            ),
            of(
                ("round trip", round_trip, 1),
                &trip,
                &[table, output, marks],
            ),
            of(("wiring", wiring, 0), &[description, addr], &[]),
        ]
    }

    fn read(&self) -> Vec<Vec<u8>> {
        self.read.iter().map(|(_, bytes)| bytes.to_vec()).collect()
    }

    fn lengths(&self) -> Vec<usize> {
        self.lent.iter().map(|bytes| bytes.len()).collect()
    }

    /// What is told and written with a lent slice of this length.
    fn told_lent(&self, which: usize, length: usize) -> (u64, Vec<&'a [u8]>) {
        if length >= self.lent[which].len() {
            return (SUCCESS, self.lent.clone());
        }
        let early = |number: usize| number < self.early && number < which;
        let front = |(number, bytes): (usize, &&'a [u8])| if early(number) { *bytes } else { &[] };
        (
            SHORT_BUFFER,
            self.lent.iter().enumerate().map(front).collect(),
        )
    }

    /// Makes the call at a side: this is told, these bytes stand at the fronts of the lent buffers,
    /// and nothing else was written.
    fn check(
        &self,
        (read, lent): (&[Vec<u8>], &[usize]),
        side: Side,
        (told, written): (u64, &[&[u8]]),
        case: &str,
    ) {
        let name = format!("{}, {case}, {side:?}", self.name);
        let mut shown: Vec<Shown> = read.iter().map(|_| Shown::default()).collect();
        let mut buffers: Vec<Lent> = lent.iter().map(|_| Lent::default()).collect();
        for (shown, bytes) in shown.iter_mut().zip(read) {
            shown.put(bytes, side);
        }
        let slices: Vec<&[u8]> = shown.iter().map(Shown::bytes).collect();
        let mut places: Vec<&mut [u8]> = (buffers.iter_mut().zip(lent))
            .map(|(buffer, &length)| buffer.lend(length, side))
            .collect();
        assert_eq!(
            (self.call)(&slices, self.order, &mut places),
            told,
            "{name}"
        );
        for (number, (buffer, front)) in buffers.iter().zip(written).enumerate() {
            assert!(
                buffer.front(front.len()) == *front,
                "{name}, buffer {number}"
            );
            assert!(
                buffer.is_kept_past(front.len()),
                "{name}, past buffer {number}"
            );
        }
    }
}

fn lengths(exact: usize) -> [usize; 4] {
    [0, exact - 1, exact, exact + 1]
}

#[test]
fn every_length_of_a_slice_that_is_read() {
    for good in &Good::all() {
        for function in Function::all(good) {
            for (which, &(kind, exact)) in function.read.iter().enumerate() {
                for length in lengths(exact.len()) {
                    let mut read = function.read();
                    read[which].resize(length, 0);
                    let told = kind.told(exact.len(), length, function.chips);
                    let none = vec![&[][..]; function.lent.len()];
                    let written = if told == SUCCESS {
                        &function.lent
                    } else {
                        &none
                    };
                    let case = format!("slice {which} that is read of {length} bytes");
                    for side in Side::BOTH {
                        let handed_in = (&read[..], &function.lengths()[..]);
                        function.check(handed_in, side, (told, written), &case);
                    }
                }
            }
        }
    }
}

#[test]
fn every_length_of_a_slice_that_is_lent() {
    for good in &Good::all() {
        for function in Function::all(good) {
            for (which, exact) in function.lent.iter().enumerate() {
                for length in lengths(exact.len()) {
                    let mut lent = function.lengths();
                    lent[which] = length;
                    let (told, written) = function.told_lent(which, length);
                    let case = format!("slice {which} that is lent of {length} bytes");
                    for side in Side::BOTH {
                        let handed_in = (&function.read()[..], &lent[..]);
                        function.check(handed_in, side, (told, &written), &case);
                    }
                }
            }
        }
    }
}

/// Rust's empty slice points to no memory at all.
#[test]
fn no_bytes_need_no_place() {
    for good in &Good::all() {
        for function in Function::all(good) {
            let call = |no_read: usize, no_lent: usize| {
                let mut read: Vec<&[u8]> = function.read.iter().map(|slice| slice.1).collect();
                let mut lent: Vec<Vec<u8>> = function
                    .lent
                    .iter()
                    .map(|bytes| vec![7; bytes.len()])
                    .collect();
                let mut places: Vec<&mut [u8]> = lent.iter_mut().map(Vec::as_mut_slice).collect();
                read.get_mut(no_read)
                    .into_iter()
                    .for_each(|slice| *slice = &[]);
                places
                    .get_mut(no_lent)
                    .into_iter()
                    .for_each(|slice| *slice = &mut []);
                (function.call)(&read, function.order, &mut places)
            };
            for (which, (kind, exact)) in function.read.iter().enumerate() {
                let told = kind.told(exact.len(), 0, function.chips);
                assert_eq!(
                    call(which, usize::MAX),
                    told,
                    "{}, read {which}",
                    function.name
                );
            }
            for which in 0..function.lent.len() {
                let told = call(usize::MAX, which);
                assert_eq!(told, SHORT_BUFFER, "{}, lent {which}", function.name);
            }
        }
    }
}

/// A read-back of a slot that is stored as the good one is, but for what is changed.
fn clears(good: &Good, slot: &StoredSlot, wanted: u64) {
    let [counted, marks] = [slot.lengths(0).iter().sum(), slot.marks(0)];
    let record = slot.to_bytes();
    for side in Side::BOTH {
        for more in [[0, 0], [1, 0], [0, 1], [5, 5000]] {
            let (mut shown, mut stored) = (Shown::default(), Shown::default());
            shown.put(&record, side);
            stored.put(&good.table, side);
            let mut buffers = [Lent::default(), Lent::default()];
            let [output, mark] = &mut buffers;
            let places = (
                output.lend(counted + more[0], side),
                mark.lend(marks + more[1], side),
            );
            let told = unscramble_slot_into(
                shown.bytes(),
                stored.bytes(),
                good.order,
                places.0,
                places.1,
            );
            assert_eq!(told >> 48, wanted, "{}, {more:?}, {side:?}", good.name);
            let (rom, address) = (told >> 32 & 0xFFFF, told & 0xFFFF_FFFF);
            assert!(rom < good.chips && address < marks as u64);
            for (buffer, cleared) in buffers.iter().zip([counted, marks]) {
                assert_eq!(buffer.front(cleared), vec![0; cleared], "{}", good.name);
                assert!(buffer.is_kept_past(cleared), "{}", good.name);
            }
        }
    }
}

#[test]
fn an_entry_that_disagrees_clears_the_words_counted() {
    for good in &Good::all() {
        // Without its last line a ROM has half the words, each with two entries.
        let mut slot = good.stored.clone();
        for rom in &mut slot.roms {
            let map = rom.map.as_mut().expect("a map");
            let lines = map.address.iter().take_while(|&&gpio| gpio != 255).count();
            map.address[lines - 1] = 255;
        }
        clears(good, &slot, INCONSISTENT);
    }
}

#[test]
fn a_word_without_entry_clears_the_words_counted() {
    const FORCED_LOW: u8 = 2 << 6;
    for good in &Good::all() {
        let mut slot = good.stored.clone();
        let Map { address, .. } = slot.roms[0].map.expect("a map");
        slot.overrides = vec![FORCED_LOW | address[0]];
        clears(good, &slot, UNSERVED);
    }
}

/// Two address lines on one GPIO: the table is built, and half of the words have no entry.
fn unserved() -> Good {
    let mut slot = described(SAMPLE);
    slot.socket[22] = slot.socket[20];
    let mut good = Good::of("unserved", &slot, LowFirst);
    good.output.fill(0);
    good.marks.fill(0);
    good
}

#[test]
fn a_round_trip_without_an_entry_keeps_its_table() {
    let good = unserved();
    let [.., function, wiring] = Function::all(&good);
    let read = function.read();
    let told = UNSERVED << 48 | 1024;
    wiring.check(
        (&wiring.read(), &[]),
        Side::Upper,
        (NO, &[]),
        "lines joined",
    );
    for side in Side::BOTH {
        for more in [0, 1, 5000] {
            let lent: Vec<usize> = (function.lengths().iter())
                .map(|length| length + more)
                .collect();
            let case = format!("{more} more than needed");
            function.check((&read, &lent), side, (told, &function.lent), &case);
        }
        for which in 0..3 {
            let mut lent = function.lengths();
            lent[which] -= 1;
            let (told, written) = function.told_lent(which, lent[which]);
            function.check((&read, &lent), side, (told, &written), "one short");
        }
    }
}

#[test]
fn a_plugin_needs_no_marks() {
    let good = Good::of("plugin", &described(SAMPLE), LowFirst);
    let bytes = chip(1, 5000);
    let mut slot = good.stored.clone();
    (slot.kind, slot.size) = (SlotKind::UserPlugin, bytes.len() as u32);
    let function = |order: ByteOrder| Function {
        name: format!("plugin, {order}"),
        call: unscramble,
        order: order.number(),
        chips: 1,
        read: Vec::new(),
        lent: vec![&bytes, &[]],
        early: 0,
    };
    let read = [slot.to_bytes().to_vec(), bytes.clone()];
    for (function, side) in ByteOrder::BOTH
        .map(function)
        .iter()
        .flat_map(|function| Side::BOTH.map(|side| (function, side)))
    {
        for length in lengths(bytes.len()) {
            for marks in [0, 1, 5000] {
                let (told, written) = function.told_lent(0, length);
                let case = format!("{length} bytes and {marks} marks lent");
                function.check((&read, &[length, marks]), side, (told, &written), &case);
            }
        }
    }
}
