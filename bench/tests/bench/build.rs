//! The build: the record of the chips' spans, tables of few entries, and the build's answers.

use onerom::description::SetType;
use onerom::images::{self, Span};
use onerom::layout::cs_data::{Line, Role};
use onerom::{
    AddrLayout, ByteOrder, Call, CsDataLayout, Description, Refusal, build_rom_image,
    build_rom_image_into, derive_addr_layout, derive_cs_data_layout, table_length,
};
use onerom_bench::text;

const PAD: u8 = 0xAA;

fn sample() -> Description {
    text::read(include_str!("../../sample/2764.txt")).expect("the sample is a description")
}

/// What a build goes by.
struct Slot {
    description: Description,
    addr: AddrLayout,
    cs_data: CsDataLayout,
}

/// Single, one chip of four bytes, both address lines at the low bits of an index of two, the data
/// lines in order.
fn plain() -> Slot {
    let mut description = sample();
    description.chips[0].size = 4;
    Slot {
        description,
        addr: AddrLayout {
            base: 10,
            pins: 2,
            x1: None,
            x2: None,
            lines: vec![10, 11],
            excess: vec![],
        },
        cs_data: CsDataLayout {
            base: 16,
            base_data_pin: 4,
            data: (20..28).collect(),
            base_cs_pin: 0,
            cs_pins: 1,
            ignore_index: None,
            qualifiers: None,
            select: vec![Line {
                role: Role::Ce,
                gpio: 14,
            }],
            commoned: vec![],
        },
    }
}

impl Slot {
    fn build(&self, images: &[Option<&[u8]>]) -> Result<Vec<u8>, Refusal> {
        build_rom_image(
            &self.description,
            &self.addr,
            &self.cs_data,
            images,
            ByteOrder::LowFirst,
        )
    }

    fn table(&self, images: &[&[u8]]) -> Vec<u8> {
        let images: Vec<Option<&[u8]>> = images.iter().copied().map(Some).collect();
        self.build(&images).expect("a table")
    }

    fn refused(&self, images: &[Option<&[u8]>]) -> String {
        let refusal = self.build(images).expect_err("a refusal");
        assert_eq!(refusal.call, Call::Build);
        refusal.to_string()
    }

    fn set(mut self, set_type: SetType, chips: usize) -> Self {
        self.description.set_type = set_type;
        self.description.multi = text::read(MULTI).expect("a description").multi;
        let chip = self.description.chips[0].clone();
        self.description.chips = vec![chip; chips];
        self
    }
}

const MULTI: &str = "socket 24\nset multi\nmulti select ce\nchip size 2\naddress 1\ndata 2\n";

#[test]
fn places_of_the_spans() {
    let (spans, bytes) = images::joined(&[Some(&[1, 2, 3]), None, Some(&[]), Some(&[4])]);
    assert_eq!(bytes, [1, 2, 3, 4]);
    assert_eq!(spans[..12], [1, 0, 0, 0, 0, 0, 0, 0, 3, 0, 0, 0]);
    assert_eq!(spans[12..24], [0, 0, 0, 0, 3, 0, 0, 0, 0, 0, 0, 0]);
    assert_eq!(spans[24..36], [1, 0, 0, 0, 3, 0, 0, 0, 0, 0, 0, 0]);
    assert_eq!(spans[36..], [1, 0, 0, 0, 3, 0, 0, 0, 1, 0, 0, 0]);
    let span = Span {
        present: true,
        start: 0x0403_0201,
        length: 0x0807_0605,
    };
    assert_eq!(span.to_bytes(), [1, 0, 0, 0, 1, 2, 3, 4, 5, 6, 7, 8]);
}

#[test]
fn what_no_chip_has_is_left_out() {
    let one: Option<&[u8]> = Some(&[7]);
    let (_, bytes) = images::joined(&[one; 6]);
    assert_eq!(bytes, [7; 4]);
    let long = vec![1; (1 << 24) + 1];
    let (spans, bytes) = images::joined(&[Some(&long), one]);
    assert_eq!(bytes.len(), (1 << 24) + 1);
    assert_eq!(spans[8..12], [0, 0, 0, 1]);
    assert_eq!(spans[16..20], [0, 0, 0, 1]);
}

#[test]
fn the_sample_is_built() {
    let description = sample();
    let addr = derive_addr_layout(&description).expect("an address layout");
    let cs_data = derive_cs_data_layout(&description, Some(&addr)).expect("a layout");
    let slot = Slot {
        description,
        addr,
        cs_data,
    };
    let image: Vec<u8> = (0..8192u32).map(|n| ((n * 7919) >> 5) as u8).collect();
    let table = slot.table(&[&image]);
    assert_eq!(table.len(), 8192);
    // A0 to A7 on GPIOs 21 to 14, A8 and A9 on 13 and 12, A10 to A12 on 9 to 11; the base is 9.
    let bits = [12, 11, 10, 9, 8, 7, 6, 5, 4, 3, 0, 1, 2];
    for (index, &entry) in table.iter().enumerate() {
        let lines = bits.iter().enumerate();
        let address: usize = lines.map(|(line, bit)| (index >> bit & 1) << line).sum();
        assert_eq!(entry, image[address], "{index}");
    }
}

#[test]
fn data_lines_are_scrambled() {
    let mut slot = plain();
    slot.cs_data.data.reverse();
    assert_eq!(
        slot.table(&[&[0xAA, 0x01, 0x80, 0x0F]]),
        [0x55, 0x80, 0x01, 0xF0]
    );
    slot.addr.lines.reverse();
    assert_eq!(
        slot.table(&[&[0xAA, 0x01, 0x80, 0x0F]]),
        [0x55, 0x01, 0x80, 0xF0]
    );
    // Two lines on one position are joined, and what is past the word is lost.
    slot.cs_data.data = vec![20, 20, 28];
    assert_eq!(slot.table(&[&[0, 1, 2, 4]]), [0, 1, 1, 0]);
}

#[test]
fn addresses_past_the_chip() {
    let mut slot = plain();
    slot.description.chips[0].size = 3;
    assert_eq!(slot.table(&[&[1, 2, 3]]), [1, 2, 3, PAD]);
    slot.description.chips[0].size = 2;
    assert_eq!(slot.table(&[&[1, 2]]), [1, 2, 1, 2]);
    slot.description.chips[0].size = 0;
    assert_eq!(slot.table(&[&[]]), [PAD; 4]);
    slot.cs_data.data.reverse();
    assert_eq!(slot.table(&[&[]]), [0x55; 4]);
    let mut slot = plain();
    slot.addr.lines.pop();
    assert_eq!(slot.table(&[&[1, 2, 3, 4]]), [1, 2, 1, 2]);
}

#[test]
fn words_are_low_byte_first() {
    let mut slot = plain();
    slot.description.word_bytes = 2;
    slot.addr.pins = 1;
    slot.addr.lines = vec![10];
    slot.cs_data.data = (20..36).collect();
    assert_eq!(slot.table(&[&[1, 2, 3, 4]]), [1, 2, 3, 4]);
    slot.cs_data.data.reverse();
    assert_eq!(slot.table(&[&[1, 0, 0, 1]]), [0, 0x80, 0x80, 0]);
}

#[test]
fn x_pins_pick_the_bank() {
    let mut slot = plain().set(SetType::Banked, 3);
    (slot.addr.x1, slot.addr.x2) = (Some(11), Some(10));
    slot.addr.lines.clear();
    assert_eq!(slot.table(&[&[1; 4], &[2; 4], &[3; 4]]), [1, 3, 2, PAD]);
    let mut slot = slot.set(SetType::Banked, 2);
    slot.addr.x2 = None;
    assert_eq!(slot.table(&[&[1; 4], &[2; 4]]), [1, 1, 2, 2]);
}

#[test]
fn one_line_of_a_multi_set_picks_the_chip() {
    let mut slot = plain().set(SetType::Multi, 3);
    slot.addr.pins = 3;
    slot.addr.lines.clear();
    slot.cs_data.select[0].gpio = 12;
    (slot.addr.x1, slot.addr.x2) = (Some(10), Some(11));
    let table = slot.table(&[&[1; 4], &[2; 4], &[3; 4]]);
    assert_eq!(table, [PAD, 2, 3, PAD, 1, PAD, PAD, PAD]);
}

#[test]
fn refusals_before_the_bytes() {
    let mut slot = plain();
    slot.addr.pins = 20;
    let said = "11 RomTableTooLarge, place 0: the table is larger than the limit";
    assert_eq!(slot.refused(&[None]), said);

    let slot = plain().set(SetType::Single, 2);
    assert!(
        slot.refused(&[None])
            .starts_with("12 InvalidConfig, place 0: ")
    );

    let bad_position = "13 BadPosition, place 0: a line's position is not 0 to 31, \
        or a needed X pin or select line is absent";
    let mut slot = plain().set(SetType::Single, 2);
    slot.addr.lines[1] = 9;
    assert_eq!(slot.refused(&[None]), bad_position);
    let slot = plain().set(SetType::Banked, 2);
    assert_eq!(slot.refused(&[None]), bad_position);
    let mut slot = plain();
    slot.cs_data.data[3] = 19;
    assert_eq!(slot.refused(&[None]), bad_position);
}

#[test]
fn refusals_of_the_bytes_name_the_chip() {
    let mut slot = plain().set(SetType::Banked, 3);
    (slot.addr.x1, slot.addr.x2) = (Some(10), Some(11));
    let (whole, short): (Option<&[u8]>, Option<&[u8]>) = (Some(&[0; 4]), Some(&[0; 3]));
    let missing = "14 MissingImageData, place 2 (chip 2): a chip has no bytes";
    assert_eq!(slot.refused(&[whole, short, None]), missing);
    assert_eq!(slot.refused(&[whole, short]), missing);
    let too_few = "15 ShortImageData, place 1 (chip 1): a chip has fewer bytes than its size";
    assert_eq!(slot.refused(&[whole, short, short]), too_few);
}

/// The plain build by these spans and images.
fn by_spans(spans: &[u8], images: &[u8]) -> (u64, [u8; 4]) {
    let slot = plain();
    let mut table = [7; 4];
    let result = build_rom_image_into(
        &slot.description.to_bytes(),
        &slot.addr.to_bytes(),
        &slot.cs_data.to_bytes(),
        spans,
        images,
        0,
        &mut table,
    );
    (result, table)
}

fn span(start: u32, length: u32) -> [u8; 48] {
    images::spans_record([Span {
        present: true,
        start,
        length,
    }])
}

#[test]
fn bytes_stand_where_the_span_says() {
    let images = [9, 9, 1, 2, 3, 4, 9];
    assert_eq!(by_spans(&span(2, 4), &images), (0, [1, 2, 3, 4]));
    // More than the chip's size is fine, also past the end.
    assert_eq!(by_spans(&span(2, 5), &images), (0, [1, 2, 3, 4]));
    assert_eq!(by_spans(&span(2, u32::MAX), &images), (0, [1, 2, 3, 4]));
    for (start, length) in [(2, 3), (4, 4), (7, 4), (8, 4), (u32::MAX, u32::MAX)] {
        let told = by_spans(&span(start, length), &images);
        assert_eq!(told, (15 << 48, [7; 4]), "{start}, {length}");
    }
}

#[test]
fn what_is_no_record_of_spans_is_out_of_domain() {
    let good = span(0, 4);
    let out_of_domain = (1 << 48, [7; 4]);
    for length in [0, 47, 49] {
        let mut spans = good.to_vec();
        spans.resize(length, 0);
        assert_eq!(by_spans(&spans, &[0; 4]), out_of_domain);
    }
    for place in (0..48).filter(|place| place % 12 < 4) {
        let mut spans = good;
        spans[place] = 2;
        assert_eq!(by_spans(&spans, &[0; 4]), out_of_domain, "{place}");
    }
}

#[test]
fn buffers_keep_what_is_not_theirs() {
    let slot = plain();
    let (spans, bytes) = images::joined(&[Some(&[1, 2, 3, 4])]);
    let call = |table: &mut [u8]| {
        build_rom_image_into(
            &slot.description.to_bytes(),
            &slot.addr.to_bytes(),
            &slot.cs_data.to_bytes(),
            &spans,
            &bytes,
            0,
            table,
        )
    };
    let mut long = [7; 6];
    assert_eq!((call(&mut long), long), (0, [1, 2, 3, 4, 7, 7]));
    let mut short = [7; 3];
    assert_eq!((call(&mut short), short), (16 << 48, [7; 3]));
    assert_eq!(call(&mut []), 16 << 48);
}

#[test]
fn any_records_are_taken() {
    let refused = |description: &[u8], addr: &[u8], cs_data: &[u8]| {
        let (spans, bytes) = images::joined(&[Some(&[0; 4])]);
        build_rom_image_into(description, addr, cs_data, &spans, &bytes, 0, &mut [0; 4]) >> 48
    };
    let slot = plain();
    let (description, addr) = (slot.description.to_bytes(), slot.addr.to_bytes());
    let cs_data = slot.cs_data.to_bytes();
    assert_eq!(refused(&[], &addr, &cs_data), 1);
    assert_eq!(refused(&description, &[], &cs_data), 1);
    assert_eq!(refused(&description, &addr, &[]), 1);
    for (pins, number) in [(20, 11), (21, 11), (48, 11), (49, 1), (64, 1), (255, 1)] {
        let mut addr = addr;
        addr[1] = pins;
        assert_eq!(refused(&description, &addr, &cs_data), number, "{pins}");
    }
    for byte in [0, 1, 254, 255] {
        assert_eq!(refused(&[byte; 424], &[byte; 36], &[byte; 100]), 1);
    }
}

#[test]
fn lengths_of_tables() {
    let description = sample().to_bytes();
    assert_eq!(table_length(&description, &[0, 20]), 1 << 20);
    assert_eq!(table_length(&description, &[0, 21]), 0);
    assert_eq!(table_length(&description, &[0, 255]), 0);
    assert_eq!(table_length(&description, &[0]), 0);
    assert_eq!(table_length(&[], &[0, 4]), 0);
}
