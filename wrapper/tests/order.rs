//! The byte order of dumps: which byte of a word is which, what does not go by it, and that any other
//! number is refused before all else.

mod slot;

use onerom::description::{Candidates, Chip, Description, Kind, SetType};
use onerom::fence::{Lent, Shown, Side};
use onerom::images::{Span, joined, spans_record};
use onerom::slot::SlotKind;
use onerom::{
    AddrLayout, ByteOrder, CsDataLayout, StoredSlot, build_rom_image, build_rom_image_into,
    derive_addr_layout, derive_cs_data_layout, round_trip, round_trip_into, unscramble_slot,
    unscramble_slot_into,
};
use slot::single;

use ByteOrder::{HighFirst, LowFirst};

const OUT_OF_DOMAIN: u64 = 1 << 48;

/// Numbers of no order: the next ones, and such as are 0 or 1 in their low bits.
const OTHERS: [u64; 8] = [2, 3, 255, 256, 257, 1 << 32, (1 << 32) + 1, u64::MAX];

/// What the pad leaves in an entry of two bytes.
const PAD: [u8; 2] = [0xAA; 2];

/// A chip of three address lines on GPIOs 0 to 2 and so many bytes, of words of one or two. Bit k of an
/// entry is line k.
fn sample(word_bytes: u8, size: u32) -> Description {
    let (data, first) = (8 * word_bytes, word_bytes - 1);
    let address_pins: Vec<u8> = (1..=3 + first).collect();
    let data_pins: Vec<u8> = (5..5 + data).collect();
    let mut socket = [Candidates::Absent; 40];
    let lines = address_pins[usize::from(first)..].iter().zip(0..);
    for (&pin, gpio) in lines.chain(data_pins.iter().zip(16..)).chain([(&24, 8)]) {
        socket[usize::from(pin) - 1] = Candidates::One(gpio);
    }
    let chip = Chip {
        size,
        address_pins,
        data_pins,
        control: vec![(Kind::Ce, 24)],
    };
    Description {
        word_bytes,
        largest_table: 512,
        ..single(socket, chip)
    }
}

fn layouts(slot: &Description) -> (AddrLayout, CsDataLayout) {
    let addr = derive_addr_layout(slot).expect("an address layout");
    let cs_data = derive_cs_data_layout(slot, Some(&addr)).expect("a layout");
    (addr, cs_data)
}

fn table(slot: &Description, rom: &[u8], order: ByteOrder) -> Vec<u8> {
    let (addr, cs_data) = layouts(slot);
    build_rom_image(slot, &addr, &cs_data, &[Some(rom)], order).expect("a table")
}

fn stored(slot: &Description) -> StoredSlot {
    let (addr, cs_data) = layouts(slot);
    StoredSlot::of_layouts(slot, &addr, &cs_data)
}

fn read(slot: &Description, table: &[u8], order: ByteOrder) -> Vec<u8> {
    let roms = unscramble_slot(&stored(slot), table, order);
    roms.expect("it reads back").concat()
}

#[test]
fn an_order_has_a_number_and_words() {
    assert_eq!((LowFirst.number(), HighFirst.number()), (0, 1));
    assert_eq!(ByteOrder::default(), LowFirst);
    assert_eq!(ByteOrder::BOTH, [LowFirst, HighFirst]);
    let words = ByteOrder::BOTH.map(|order| order.to_string());
    assert_eq!(words, ["low byte first", "high byte first"]);
}

#[test]
fn each_byte_of_a_word_has_its_place() {
    let slot = sample(2, 16);
    let rom: Vec<u8> = (0x10..0x20).collect();
    let (low, high) = (table(&slot, &rom, LowFirst), table(&slot, &rom, HighFirst));
    // Entries are low byte first under both: of the first word 1110 in one and 1011 in the other.
    assert_eq!(
        (&low[..2], &high[..2]),
        (&[0x10, 0x11][..], &[0x11, 0x10][..])
    );
    for (number, word) in rom.chunks(2).enumerate() {
        assert_eq!(low[2 * number..][..2], *word);
        assert_eq!(high[2 * number..][..2], [word[1], word[0]]);
    }
    assert_eq!(
        (read(&slot, &low, LowFirst), read(&slot, &high, HighFirst)),
        (rom.clone(), rom.clone())
    );
    let swapped: Vec<u8> = rom.chunks(2).flat_map(|word| [word[1], word[0]]).collect();
    assert_eq!(read(&slot, &low, HighFirst), swapped);
    assert_eq!(read(&slot, &high, LowFirst), swapped);
    for (order, table) in [(LowFirst, low), (HighFirst, high)] {
        let trip = round_trip(&slot, &[Some(&rom)], order).expect("it reads back");
        assert_eq!((trip.table, trip.output), (table, rom.clone()), "{order}");
        assert_eq!(trip.marks, [[1; 8], [0; 8]].concat(), "{order}");
    }
}

#[test]
fn an_odd_last_byte_is_in_no_word() {
    let slot = sample(2, 15);
    let mut rom: Vec<u8> = (0x10..0x1F).collect();
    for order in ByteOrder::BOTH {
        let built = table(&slot, &rom, order);
        assert_eq!(built[14..16], PAD, "{order}");
        assert_eq!(read(&slot, &built, order), rom[..14], "{order}");
        rom[14] ^= 0xFF;
        assert_eq!(table(&slot, &rom, order), built, "{order}");
    }
}

/// Each chip of a set has its own first byte, at an odd place of the lent bytes too.
#[test]
fn words_are_counted_from_each_chip() {
    let mut slot = sample(2, 16);
    slot.set_type = SetType::Banked;
    slot.x[0] = Candidates::One(3);
    slot.chips.push(slot.chips[0].clone());
    let (addr, cs_data) = layouts(&slot);
    let images: Vec<u8> = (0..0x30).collect();
    let span = |start| Span {
        present: true,
        start,
        length: 16,
    };
    let spans = spans_record([span(1), span(0x20)]);
    let (description, addr, cs_data) = (slot.to_bytes(), addr.to_bytes(), cs_data.to_bytes());
    let mut table = [0; 512];
    let read = [&description[..], &addr, &cs_data, &spans, &images];
    assert_eq!(build(read, HighFirst.number(), [&mut table]), 0);
    assert_eq!(
        (&table[..2], &table[16..18]),
        (&[2, 1][..], &[0x21, 0x20][..])
    );
    let [mut output, mut marks] = [40, 20].map(|length| (0..length).collect::<Vec<u8>>());
    let lent = [&mut [0; 512][..], &mut output, &mut marks];
    let read = [&description[..], &spans, &images];
    assert_eq!(trip(read, HighFirst.number(), lent), 0);
    let later: Vec<u8> = (32..40).collect();
    assert_eq!(output, [&images[1..17], &images[0x20..], &later].concat());
    assert_eq!(marks, [[1; 16].as_slice(), &[16, 17, 18, 19]].concat());
}

/// No two bytes behind the words are the same, so that a pair of them which is swapped shows.
#[test]
fn later_bytes_stay() {
    let slot = sample(2, 16);
    let rom: Vec<u8> = (0x10..0x20).collect();
    let record = stored(&slot).to_bytes();
    for order in ByteOrder::BOTH {
        let built = table(&slot, &rom, order);
        let [mut output, mut marks] = [24, 12].map(|length| (0..length).collect::<Vec<u8>>());
        let lent = [&mut output[..], &mut marks];
        assert_eq!(read_back([&record, &built], order.number(), lent), 0);
        let later: Vec<u8> = (16..24).collect();
        assert_eq!(output, [&rom[..], &later].concat(), "{order}");
        assert_eq!(marks, [[1; 8].as_slice(), &[8, 9, 10, 11]].concat());
        let (spans, images) = joined(&[Some(&rom)]);
        let (addr, cs_data) = layouts(&slot);
        let mut lent: Vec<u8> = (0..520).map(|place: u32| place as u8).collect();
        let later = lent[512..].to_vec();
        let [description, addr, cs_data] = [
            &slot.to_bytes()[..],
            &addr.to_bytes()[..],
            &cs_data.to_bytes()[..],
        ];
        let read = [description, addr, cs_data, &spans, &images];
        assert_eq!(build(read, order.number(), [&mut lent]), 0);
        assert_eq!(lent, [built, later].concat(), "{order}");
    }
}

#[test]
fn words_of_one_byte_and_plugins_have_no_order() {
    let slot = sample(1, 8);
    let rom: Vec<u8> = (0x10..0x18).collect();
    let built = table(&slot, &rom, LowFirst);
    assert_eq!(table(&slot, &rom, HighFirst), built);
    assert_eq!(read(&slot, &built, HighFirst), rom);
    let trips = ByteOrder::BOTH.map(|order| round_trip(&slot, &[Some(&rom)], order));
    assert_eq!(trips[0], trips[1]);
    let plugin = plugin(4);
    for order in ByteOrder::BOTH {
        let copied = unscramble_slot(&plugin, &[1, 2, 3, 4], order);
        assert_eq!(copied, Ok(vec![vec![1, 2, 3, 4]]), "{order}");
    }
}

/// A plugin whose record says words of two bytes, which is not looked at.
fn plugin(size: u32) -> StoredSlot {
    StoredSlot {
        size,
        kind: SlotKind::UserPlugin,
        ..stored(&sample(2, 16))
    }
}

/// The entries of a word disagree, or none has it: number and place do not go by the order.
#[test]
fn refusals_of_a_word_have_no_order() {
    let slot = sample(2, 16);
    let mut built = table(&slot, &[0; 16], LowFirst);
    built[2 * (8 + 5)] = 1;
    let told = ByteOrder::BOTH.map(|order| unscramble_slot(&stored(&slot), &built, order));
    assert_eq!(told[0], told[1]);
    let refusal = told[0].as_ref().expect_err("a refusal");
    assert_eq!((refusal.number, refusal.place), (23, 5));
    let mut forced = stored(&slot);
    forced.overrides = vec![0xC0];
    let told = ByteOrder::BOTH.map(|order| unscramble_slot(&forced, &built, order));
    assert_eq!(told[0], told[1]);
    let refusal = told[0].as_ref().expect_err("a refusal");
    assert_eq!((refusal.number, refusal.place), (23, 5));
    let whole = table(&slot, &[0; 16], LowFirst);
    let told = ByteOrder::BOTH.map(|order| unscramble_slot(&forced, &whole, order));
    assert_eq!(told[0], told[1]);
    let refusal = told[0].as_ref().expect_err("a refusal");
    assert_eq!((refusal.number, refusal.place), (24, 0));
}

/// A call on the slices that are read, with a byte order and what is lent.
type Call<const READ: usize, const LENT: usize> = fn([&[u8]; READ], u64, [&mut [u8]; LENT]) -> u64;

/// Each other number is refusal 1 at both guard pages, and every buffer stays as it was.
fn refuses<const READ: usize, const LENT: usize>(
    what: &str,
    call: Call<READ, LENT>,
    read: [&[u8]; READ],
    lengths: [usize; LENT],
) {
    let mut shown: [Shown; READ] = std::array::from_fn(|_| Shown::default());
    let mut lent: [Lent; LENT] = std::array::from_fn(|_| Lent::default());
    for side in Side::BOTH {
        for (shown, bytes) in shown.iter_mut().zip(read) {
            shown.put(bytes, side);
        }
        for order in OTHERS {
            let mut lengths = lengths.into_iter();
            let lend = |own| Lent::lend(own, lengths.next().unwrap_or(0), side);
            let buffers = lent.each_mut().map(lend);
            let told = call(shown.each_ref().map(Shown::bytes), order, buffers);
            assert_eq!(told, OUT_OF_DOMAIN, "{what}, order {order}");
            let kept = lent.iter().all(|own| own.has_only(&[]));
            assert!(kept, "{what}, order {order}");
        }
    }
}

fn build(
    [description, addr, cs_data, spans, images]: [&[u8]; 5],
    order: u64,
    [table]: [&mut [u8]; 1],
) -> u64 {
    build_rom_image_into(description, addr, cs_data, spans, images, order, table)
}

fn read_back([slot, stored]: [&[u8]; 2], order: u64, [output, marks]: [&mut [u8]; 2]) -> u64 {
    unscramble_slot_into(slot, stored, order, output, marks)
}

fn trip(
    [description, spans, images]: [&[u8]; 3],
    order: u64,
    [table, output, marks]: [&mut [u8]; 3],
) -> u64 {
    round_trip_into(description, spans, images, order, table, output, marks)
}

#[test]
fn other_numbers_are_refused() {
    for (word_bytes, size) in [(1, 8), (2, 16)] {
        let slot = sample(word_bytes, size);
        let (addr, cs_data) = layouts(&slot);
        let rom = vec![7; size as usize];
        let (spans, images) = joined(&[Some(&rom)]);
        let (description, addr, cs_data) = (slot.to_bytes(), addr.to_bytes(), cs_data.to_bytes());
        let read = [&description[..], &addr, &cs_data, &spans, &images];
        assert_eq!(build(read, 1, [&mut [0; 512]]), 0);
        refuses("build", build, read, [512]);
        let table = table(&slot, &rom, LowFirst);
        let record = stored(&slot).to_bytes();
        let read = [&record[..], &table];
        assert_eq!(read_back(read, 1, [&mut [0; 16], &mut [0; 8]]), 0);
        refuses("read-back", read_back, read, [16, 8]);
        let read = [&description[..], &spans, &images];
        assert_eq!(trip(read, 1, [&mut [0; 512], &mut [0; 16], &mut [0; 8]]), 0);
        refuses("round trip", trip, read, [512, 16, 8]);
    }
    let record = plugin(2).to_bytes();
    assert_eq!(read_back([&record, &[1, 2]], 1, [&mut [0; 2], &mut []]), 0);
    refuses("plugin", read_back, [&record, &[1, 2]], [2, 0]);
}

/// In place of 11, 14, 15, 16, 17 and 18, and with no record at all.
#[test]
fn other_numbers_are_refused_before_all_else() {
    let mut slot = sample(2, 16);
    let (addr, cs_data) = layouts(&slot);
    let (addr, cs_data) = (addr.to_bytes(), cs_data.to_bytes());
    let records = [slot.to_bytes(), {
        slot.largest_table = 256;
        slot.to_bytes()
    }];
    for description in &records {
        for image in [None, Some(&[7; 15][..]), Some(&[7; 16][..])] {
            let (spans, images) = joined(&[image]);
            let read = [&description[..], &addr, &cs_data, &spans, &images];
            assert_ne!(build(read, 0, [&mut []]), OUT_OF_DOMAIN);
            refuses("build", build, read, [0]);
            let read = [&description[..], &spans, &images];
            assert_ne!(trip(read, 0, [&mut [], &mut [], &mut []]), OUT_OF_DOMAIN);
            refuses("round trip", trip, read, [0; 3]);
        }
    }
    let mut unknown = plugin(3);
    unknown.kind = SlotKind::Unknown(9);
    for (slot, number) in [
        (plugin(3), 17),
        (plugin(2), 16),
        (StoredSlot { size: 2, ..unknown }, 18),
    ] {
        let record = slot.to_bytes();
        let told = read_back([&record, &[1, 2]], 0, [&mut [], &mut []]);
        assert_eq!(told >> 48, number);
        refuses("read-back", read_back, [&record, &[1, 2]], [0; 2]);
    }
    refuses("build", build, [&[]; 5], [0]);
    refuses("read-back", read_back, [&[]; 2], [0; 2]);
    refuses("round trip", trip, [&[]; 3], [0; 3]);
}
