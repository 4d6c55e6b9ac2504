//! The numbers and calls of docs/INTERFACE.md. Rendered from that page: edit it, and see README.md.

/// The version of the interface: an older caller is answered as before while it stays.
pub const INTERFACE_VERSION: u32 = 2;

/// Numbers of the refusals.
pub mod refusals {
    /// A record of another length, or a number that no board or chip can have.
    pub const OUT_OF_DOMAIN: u16 = 1;
    /// No line selects the chip, or a line of the Multi set is not on it.
    pub const NO_SELECT_LINE: u16 = 2;
    /// A needed pin has no GPIO. Place: the pin: socket pin in the address search, chip pin in the
    /// select search.
    pub const UNMAPPED_PIN: u16 = 3;
    /// A needed X pin has no GPIO. Place: 1 or 2, for X1 or X2.
    pub const MISSING_X_PIN: u16 = 4;
    /// Qualifiers are given without an address layout.
    pub const MISSING_ADDR_PIN_GPIOS: u16 = 5;
    /// Excess address lines need cs1, which is ignored.
    pub const ROM_TOO_LARGE_NO_CS_CONFIG: u16 = 6;
    /// The select GPIOs leave a gap that cannot be served. Place: the set of GPIOs, bit g for GPIO
    /// g.
    pub const NON_CONTIGUOUS_SELECT: u16 = 7;
    /// An ignored line lies between the select lines. Place: its GPIO.
    pub const INTERIOR_IGNORED_LINE: u16 = 8;
    /// No choice of GPIOs fits one PIO window.
    pub const NO_VALID_LAYOUT: u16 = 9;
    /// The chip does not go into this socket.
    pub const INCOMPATIBLE_PIN_COUNT: u16 = 10;
    /// The table is larger than the limit.
    pub const ROM_TABLE_TOO_LARGE: u16 = 11;
    /// The set type does not take this number of chips.
    pub const INVALID_CONFIG: u16 = 12;
    /// A line's position is not 0 to 31, or a needed X pin or select line is absent.
    pub const BAD_POSITION: u16 = 13;
    /// A chip has no bytes. Place: the chip, from 0.
    pub const MISSING_IMAGE_DATA: u16 = 14;
    /// A chip has fewer bytes than its size. Place: the chip, from 0.
    pub const SHORT_IMAGE_DATA: u16 = 15;
    /// A lent buffer is too short.
    pub const SHORT_BUFFER: u16 = 16;
    /// The data's length is not the declared size.
    pub const WRONG_SIZE: u16 = 17;
    /// The slot's kind is unknown.
    pub const UNKNOWN_SLOT_TYPE: u16 = 18;
    /// There is no layout, or a ROM has no pin map.
    pub const MISSING_LAYOUT: u16 = 19;
    /// An algorithm or bit mode is unknown.
    pub const UNKNOWN_ALGORITHM: u16 = 20;
    /// The layout contradicts itself.
    pub const BAD_LAYOUT: u16 = 21;
    /// Not exactly one GPIO of an X pin is in the table's window. Place: 1 or 2, for X1 or X2.
    pub const X_PIN: u16 = 22;
    /// Two entries give different values for one word. Place: ROM * 2^32 + address, the address
    /// counting words.
    pub const INCONSISTENT: u16 = 23;
    /// No entry gives a word. Place: ROM * 2^32 + address, the address counting words.
    pub const UNSERVED: u16 = 24;
    /// The Multi set has no active line.
    pub const NO_ACTIVE_LINE: u16 = 25;
    /// A line is no record of Intel HEX, or the end record is missing.
    pub const BAD_RECORD: u16 = 26;
    /// A record's bytes do not sum to zero.
    pub const BAD_CHECKSUM: u16 = 27;
    /// A record has a data byte past the chip.
    pub const PAST_CHIP: u16 = 28;
}

/// What single bytes of the records say, and the numbers that calls take.
pub mod values {
    /// A byte that names no GPIO.
    pub const GPIO_NONE: u8 = 255;
    /// A setting that is not given, or that its form does not use.
    pub const NOT_GIVEN: u8 = 255;
    /// A select layout without an ignore index.
    pub const NO_IGNORE_INDEX: u8 = 255;
    /// The RP2350B, GPIOs 0 to 47.
    pub const PACKAGE_B: u8 = 0;
    /// The RP2350A, GPIOs 0 to 29.
    pub const PACKAGE_A: u8 = 1;
    /// One chip.
    pub const SET_SINGLE: u8 = 0;
    /// 2 to 4 chips, picked by X1 and X2 as the bits of a bank.
    pub const SET_BANKED: u8 = 1;
    /// 2 or 3 chips, each with a select line of its own.
    pub const SET_MULTI: u8 = 2;
    /// Settings of cs1 to cs4.
    pub const FORM_CHIP_SELECTS: u8 = 0;
    /// Ce and oe, both active low.
    pub const FORM_CE_OE: u8 = 1;
    /// Settings of ce and oe.
    pub const FORM_EXPLICIT: u8 = 2;
    /// Asserted when low.
    pub const ACTIVE_LOW: u8 = 0;
    /// Asserted when high.
    pub const ACTIVE_HIGH: u8 = 1;
    /// No select line.
    pub const IGNORED: u8 = 2;
    /// Chip enable.
    pub const KIND_CE: u8 = 0;
    /// Output enable.
    pub const KIND_OE: u8 = 1;
    /// Chip select 1.
    pub const KIND_CS1: u8 = 2;
    /// Chip select 2.
    pub const KIND_CS2: u8 = 3;
    /// Chip select 3.
    pub const KIND_CS3: u8 = 4;
    /// Chip select 4.
    pub const KIND_CS4: u8 = 5;
    /// Any other, never a select.
    pub const KIND_OTHER: u8 = 6;
    /// Chip enable.
    pub const ROLE_CE: u8 = 0;
    /// Output enable.
    pub const ROLE_OE: u8 = 1;
    /// Chip select 1.
    pub const ROLE_CS1: u8 = 2;
    /// Chip select 2.
    pub const ROLE_CS2: u8 = 3;
    /// Chip select 3.
    pub const ROLE_CS3: u8 = 4;
    /// Chip select 4.
    pub const ROLE_CS4: u8 = 5;
    /// X1, the second chip's select.
    pub const ROLE_X1: u8 = 6;
    /// X2, the third chip's select.
    pub const ROLE_X2: u8 = 7;
    /// An excess address line.
    pub const ROLE_HALF_SELECT: u8 = 8;
    /// A table of one ROM.
    pub const SLOT_SINGLE_ROM: u8 = 0;
    /// Read as a Single ROM.
    pub const SLOT_SINGLE_RAM: u8 = 1;
    /// A table of 2 to 4 ROMs.
    pub const SLOT_BANKED: u8 = 2;
    /// A table of 2 or 3 ROMs.
    pub const SLOT_MULTI: u8 = 3;
    /// Bytes that are copied as they are.
    pub const SLOT_SYSTEM_PLUGIN: u8 = 4;
    /// Bytes that are copied as they are.
    pub const SLOT_USER_PLUGIN: u8 = 5;
    /// Bytes that are copied as they are.
    pub const SLOT_PIO_PLUGIN: u8 = 6;
    /// Words of one byte.
    pub const BIT_MODE_8: u8 = 0;
    /// Words of two bytes.
    pub const BIT_MODE_16: u8 = 1;
    /// A word's low byte comes first in a dump.
    pub const ORDER_LOW_FIRST: u8 = 0;
    /// A word's high byte comes first in a dump.
    pub const ORDER_HIGH_FIRST: u8 = 1;
    /// The GPIO as it is.
    pub const OVERRIDE_NORMAL: u8 = 0;
    /// Inverted; counts for nothing in a read-back.
    pub const OVERRIDE_INVERT: u8 = 1;
    /// Forced low.
    pub const OVERRIDE_LOW: u8 = 2;
    /// Forced high, which beats low.
    pub const OVERRIDE_HIGH: u8 = 3;
}

/// The description record: A board's socket, the chips of one slot on it, and which GPIOs can serve
/// each pin. Another length is refusal 1, and so is a byte that is none of the values named here,
/// in every call that takes the record; but onerom_well_wired looks at the length, the package, set
/// type, offset, form and settings, the flag of the Multi configuration, the places kept, and that
/// no second candidate is without a first, and takes other numbers as they stand. Two rules depend
/// on the call. Qualifiers are held against the lines of an address layout, so that only a call
/// which has one tests them: a build always, the select search if a layout is handed in. More than
/// 8 of them, an index that is not below the layout's lines in use, or GPIOs of which two are more
/// than 7 apart are refusal 1 there. The address search does not look at them, and a select search
/// without a layout answers 5 to any count but 0. Each search counts the two-candidate pins among
/// the pins that it lists, and more than 16 are refusal 1. The address search lists its lines, one
/// off the socket with the candidates of the X pin that stands in for it, and the X pins that pick;
/// the select search lists data pins, select lines and, in Multi, the X pins that select and the
/// commoned lines. A build lists none. On package A a candidate above GPIO 29 is refusal 1, in
/// every call that takes the record: at each of the 40 socket pins, those past the board's socket
/// too, at X1 and at X2, first or second, whether a line is on the pin or not. In all else package
/// A answers as B. Only candidates are bound: a layout that is handed in may name GPIOs up to 47,
/// and the pins of an address layout that is found may reach past 29, since there are 8 at least. A
/// stored slot has no package.
pub mod description {
    use std::ops::Range;

    /// Bytes of the record.
    pub const RECORD_SIZE: usize = 424;
    /// Pins of the board's socket. Values: 24, 28, 32 or 40.
    pub const BOARD_PINS: usize = 0;
    /// Package of the RP2350. Values: 0 B, 1 A.
    pub const PACKAGE: usize = 1;
    /// Set type. Values: 0 Single, 1 Banked, 2 Multi.
    pub const SET_TYPE: usize = 2;
    /// Bytes in a word. Values: 1 or 2.
    pub const WORD_BYTES: usize = 3;
    /// Socket pin less chip pin. Values: 0 to 4, or 252 to 255 for -4 to -1.
    pub const PIN_OFFSET: usize = 4;
    /// Number of chips. Values: 1 to 4.
    pub const CHIP_COUNT: usize = 5;
    /// Number of qualifiers. Values: 0 for no list, or 1 to 8 where they are tested.
    pub const QUALIFIER_COUNT: usize = 6;
    /// Multi configuration present; if not, its places count for nothing. Values: 0 no, 1 yes; in a
    /// Multi set yes.
    pub const MULTI_GIVEN: usize = 7;
    /// 4 bytes: largest table in bytes. Values: 256 to 2^20.
    pub const LARGEST_TABLE: Range<usize> = 8..12;
    /// 4 bytes: marks of inverted address lines, a bit a line. Values: 0 (kept).
    pub const INVERTED: Range<usize> = 12..16;
    /// Form of chip 0's select settings. Values: 0 chip selects, 1 ce and oe, 2 explicit ce and oe.
    pub const FORM: usize = 16;
    /// Setting of ce. Values: form 2: 0 active low, 1 active high, 2 ignored; other forms: 255.
    pub const CE_SETTING: usize = 17;
    /// Setting of oe. Values: as above.
    pub const OE_SETTING: usize = 18;
    /// Setting of cs1. Values: form 0: 0, 1, 2 as above; other forms: 255.
    pub const CS1_SETTING: usize = 19;
    /// 3 bytes: settings of cs2, cs3, cs4. Values: form 0: 0, 1, 2 as above, or 255 for not given;
    /// other forms: 255.
    pub const CS_SETTINGS: Range<usize> = 20..23;
    /// Multi: kind of the select line. Values: 0 to 5.
    pub const MULTI_SELECT: usize = 23;
    /// Multi: number of commoned lines. Values: 0 to 6.
    pub const MULTI_COMMONED_COUNT: usize = 24;
    /// Multi: number of ignored lines. Values: 0 to 6.
    pub const MULTI_IGNORED_COUNT: usize = 25;
    /// 2 bytes: nothing. Values: 0 (kept).
    pub const SPARE: Range<usize> = 26..28;
    /// 8 bytes: Multi: kinds of the commoned lines. Values: 0 to 5.
    pub const MULTI_COMMONED: Range<usize> = 28..36;
    /// 8 bytes: Multi: kinds of the ignored lines. Values: 0 to 5.
    pub const MULTI_IGNORED: Range<usize> = 36..44;
    /// 8 bytes: qualifiers: indices of address lines in use. Values: below the lines in use where
    /// they are tested.
    pub const QUALIFIERS: Range<usize> = 44..52;
    /// 80 bytes: candidates of socket pins 1 to 40, two bytes a pin. Values: 255 255 none; g 255
    /// one; g h two; GPIOs 0 to 47 that differ, on package A 0 to 29.
    pub const SOCKET: Range<usize> = 52..132;
    /// 2 bytes: candidates of X1. Values: as above.
    pub const X1: Range<usize> = 132..134;
    /// 2 bytes: candidates of X2. Values: as above.
    pub const X2: Range<usize> = 134..136;
    /// 288 bytes: chips 0 to 3, 72 bytes a chip. Values: a chip record each.
    pub const CHIPS: Range<usize> = 136..424;
}

/// The chip record: A chip of a description, at place 136 + 72 * n for chip n.
pub mod chip {
    use std::ops::Range;

    /// Bytes of the record.
    pub const RECORD_SIZE: usize = 72;
    /// 4 bytes: size in bytes. Values: 0 to 2^24.
    pub const BYTES: Range<usize> = 0..4;
    /// Number of address pins. Values: 1 to 24, in 16-bit mode 2 to 24.
    pub const ADDRESS_COUNT: usize = 4;
    /// Number of data pins. Values: 1 to 16.
    pub const DATA_COUNT: usize = 5;
    /// Number of control lines. Values: 0 to 8.
    pub const CONTROL_COUNT: usize = 6;
    /// Nothing. Values: 0 (kept).
    pub const SPARE: usize = 7;
    /// 24 bytes: address pins, lowest line first; in 16-bit mode the first is not used. Values: 1
    /// to 40.
    pub const ADDRESS: Range<usize> = 8..32;
    /// 16 bytes: data pins, lowest line first. Values: 1 to 40.
    pub const DATA: Range<usize> = 32..48;
    /// 24 bytes: control lines, three bytes a line: kind, pin, fixed level. Values: kind 0 to 6,
    /// each of 0 to 5 at most once; pin 1 to 40; level: 0 (kept for the fixed level).
    pub const CONTROL: Range<usize> = 48..72;
}

/// The address layout record: Which GPIOs the address PIO reads. A line is an address line of chip
/// 0; in 16-bit mode the first of them is at address pin 1. A record that is handed in has just
/// this length, and 0 at the places kept; anything else is refusal 1.
pub mod addr_layout {
    use std::ops::Range;

    /// Bytes of the record.
    pub const RECORD_SIZE: usize = 36;
    /// Lowest GPIO of the window, bit 0 of the table's index. Values: 0 to 47.
    pub const BASE: usize = 0;
    /// Number of GPIOs that the address PIO reads, the bits of the table's index. Values: 0 to 48.
    pub const PINS: usize = 1;
    /// GPIO of X1 where it picks a bank or a chip. Values: 0 to 47, or 255 for none.
    pub const X1: usize = 2;
    /// GPIO of X2 where it picks a bank or a chip. Values: 0 to 47, or 255 for none.
    pub const X2: usize = 3;
    /// Number of lines in use. Values: 0 to 24, with the excess lines.
    pub const LINE_COUNT: usize = 4;
    /// Number of excess lines. Values: 0 to 24, with the lines in use.
    pub const EXCESS_COUNT: usize = 5;
    /// 2 bytes: nothing. Values: 0 (kept).
    pub const SPARE: Range<usize> = 6..8;
    /// 24 bytes: GPIOs of the lines in use, then of the excess lines; 0 past them where the library
    /// writes it. Values: 0 to 47.
    pub const LINES: Range<usize> = 8..32;
    /// 4 bytes: marks of inverted address lines, a bit a line. Values: 0 (kept).
    pub const INVERTED: Range<usize> = 32..36;
}

/// The select layout record: Which GPIOs select the chip and carry its data. Base pins are counted
/// from the base. A record that is handed in has just this length, and 0 or 1 at place 8; anything
/// else is refusal 1. The three places after it count for nothing where it is 0.
pub mod cs_data_layout {
    use std::ops::Range;

    /// Bytes of the record.
    pub const RECORD_SIZE: usize = 100;
    /// First GPIO of the PIO window. Values: 0 or 16 if found; 0 to 47 if handed in.
    pub const BASE: usize = 0;
    /// Lowest data GPIO less the base. Values: 0 to 47.
    pub const BASE_DATA_PIN: usize = 1;
    /// Number of data lines. Values: 1 to 16.
    pub const DATA_COUNT: usize = 2;
    /// Lowest GPIO of select and commoned lines less the base. Values: 0 to 47.
    pub const BASE_CS_PIN: usize = 3;
    /// Number of GPIOs from the lowest of these to the highest. Values: any.
    pub const CS_PINS: usize = 4;
    /// Which of these GPIOs is no select line, from 0. Values: any; 255 none.
    pub const IGNORE_INDEX: usize = 5;
    /// Number of select lines. Values: 0 to 30.
    pub const SELECT_COUNT: usize = 6;
    /// Number of commoned lines. Values: 0 to 6.
    pub const COMMONED_COUNT: usize = 7;
    /// Whether there are qualifiers. Values: 1 with qualifiers, else 0.
    pub const QUALIFIED: usize = 8;
    /// Lowest qualifier GPIO less the base. Values: 0 to 47; 0 without qualifiers.
    pub const BASE_QUALIFIER_PIN: usize = 9;
    /// Number of GPIOs from the lowest qualifier to the highest. Values: any; 0 without qualifiers.
    pub const QUALIFIER_PINS: usize = 10;
    /// A bit for each qualifier GPIO, bit 0 the lowest. Values: any; 0 without qualifiers.
    pub const QUALIFIER_PATTERN: usize = 11;
    /// 16 bytes: GPIOs of the data lines, lowest line first; 0 past them where the library writes
    /// it. Values: 0 to 47.
    pub const DATA: Range<usize> = 12..28;
    /// 60 bytes: select lines, two bytes a line: role, GPIO; excess address lines last; 0 past them
    /// where the library writes it. Values: role 0 to 8, GPIO 0 to 47.
    pub const SELECT: Range<usize> = 28..88;
    /// 12 bytes: commoned lines in the same way. Values: role 0 to 8, GPIO 0 to 47.
    pub const COMMONED: Range<usize> = 88..100;
}

/// The pin page: A text of 48 rows, which says what each GPIO serves. It is written, and never
/// handed in.
pub mod pin_page {
    use std::ops::Range;

    /// Bytes of the record.
    pub const RECORD_SIZE: usize = 432;
    /// 432 bytes: rows of GPIOs 0 to 47, 9 bytes a row. Values: a row each.
    pub const ROWS: Range<usize> = 0..432;
}

/// The row of a pin page: A GPIO of a pin page, at place 9 * g for GPIO g, in ASCII.
pub mod pin_page_row {
    use std::ops::Range;

    /// Bytes of the record.
    pub const RECORD_SIZE: usize = 9;
    /// 2 bytes: the GPIO in two decimal digits. Values: 00 to 47.
    pub const GPIO: Range<usize> = 0..2;
    /// A space. Values: 32.
    pub const GAP: usize = 2;
    /// 5 bytes: its role, and spaces behind it. Values: A0 to A23, D0 to D15, X1, X2, CE, OE, CS1
    /// to CS4, HALF, or -.
    pub const ROLE: Range<usize> = 3..8;
    /// A line feed. Values: 10.
    pub const END: usize = 8;
}

/// The image spans record: Where in the bytes that are lent for all chips each chip's stand: chips
/// 0 to 3, an image span each. Another length is refusal 1.
pub mod image_spans {
    use std::ops::Range;

    /// Bytes of the record.
    pub const RECORD_SIZE: usize = 48;
    /// 48 bytes: chips 0 to 3, 12 bytes a chip. Values: an image span each.
    pub const CHIPS: Range<usize> = 0..48;
}

/// The image span: A chip of an image spans record, at place 12 * n for chip n. A value that is not
/// named here is refusal 1, in a chip past the number of chips too. Of a span that reaches past the
/// end of the lent bytes the chip has the bytes that are there. Spans may overlap.
pub mod image_span {
    use std::ops::Range;

    /// Bytes of the record.
    pub const RECORD_SIZE: usize = 12;
    /// Whether the chip has bytes; if not, start and length count for nothing. Values: 0 no, 1 yes.
    pub const GIVEN: usize = 0;
    /// 3 bytes: nothing. Values: 0 (kept).
    pub const SPARE: Range<usize> = 1..4;
    /// 4 bytes: place of the chip's first byte in the lent bytes. Values: any.
    pub const START: Range<usize> = 4..8;
    /// 4 bytes: number of bytes. Values: any.
    pub const LENGTH: Range<usize> = 8..12;
}

/// The stored slot record: A slot as it is stored, with the board's X pins. Another length is
/// refusal 1, and so is another value than named here at place 5, at the candidates or at a count.
/// Of each of the four ROMs, those past the number of ROMs too, MAP_GIVEN is 0 or 1 and the places
/// kept are 0, or the record is refusal 1; a size is looked at in the ROMs below that number only.
pub mod stored_slot {
    use std::ops::Range;

    /// Bytes of the record.
    pub const RECORD_SIZE: usize = 376;
    /// 4 bytes: declared size in bytes. Values: any.
    pub const BYTES: Range<usize> = 0..4;
    /// Slot kind. Values: 0 Single ROM, 1 Single RAM, 2 Banked, 3 Multi, 4 to 6 plugin, any other:
    /// unknown.
    pub const KIND: usize = 4;
    /// Layout present. Values: 0 no, 1 yes.
    pub const LAYOUT_GIVEN: usize = 5;
    /// Address algorithm. Values: 0, any other: unknown.
    pub const ADDR_ALGORITHM: usize = 6;
    /// Base of the address window. Values: any.
    pub const ADDR_BASE: usize = 7;
    /// First address pin, counted from that base. Values: any.
    pub const BASE_ADDR_PIN: usize = 8;
    /// Number of address pins. Values: any.
    pub const ADDR_PINS: usize = 9;
    /// Data algorithm. Values: 0 or 1, any other: unknown.
    pub const DATA_ALGORITHM: usize = 10;
    /// Base of the data window. Values: any.
    pub const DATA_BASE: usize = 11;
    /// First data pin, counted from that base. Values: any.
    pub const BASE_DATA_PIN: usize = 12;
    /// DMA algorithm. Values: 0, any other: unknown.
    pub const DMA_ALGORITHM: usize = 13;
    /// Bit mode. Values: 0 or 1, any other: unknown.
    pub const BIT_MODE: usize = 14;
    /// Select algorithm, looked at in Multi only. Values: 0, any other: refused there.
    pub const CS_ALGORITHM: usize = 15;
    /// Base of the select window, looked at in Multi only. Values: any.
    pub const CS_BASE: usize = 16;
    /// Pin of the first ROM's select, counted from that base. Values: any.
    pub const FIRST_CS_PIN: usize = 17;
    /// Number of overrides. Values: 0 to 64.
    pub const OVERRIDE_COUNT: usize = 18;
    /// 64 bytes: overrides, a byte each: GPIO in the low six bits, kind in the top two. Values:
    /// any.
    pub const OVERRIDES: Range<usize> = 19..83;
    /// 2 bytes: candidates of X1. Values: 255 255 none; g 255 one; g h two; GPIOs 0 to 47 that
    /// differ.
    pub const X1: Range<usize> = 83..85;
    /// 2 bytes: candidates of X2. Values: as above.
    pub const X2: Range<usize> = 85..87;
    /// Number of ROMs. Values: 0 to 4.
    pub const ROM_COUNT: usize = 87;
    /// 288 bytes: ROMs 0 to 3, 72 bytes a ROM. Values: a stored ROM each.
    pub const ROMS: Range<usize> = 88..376;
}

/// The stored ROM: A ROM of a stored slot, at place 88 + 72 * n for ROM n. GPIOs behind a 255 count
/// for nothing; a list that fills its 32 places has no 255.
pub mod stored_rom {
    use std::ops::Range;

    /// Bytes of the record.
    pub const RECORD_SIZE: usize = 72;
    /// Whether the ROM has a pin map. Values: 0 no, 1 yes.
    pub const MAP_GIVEN: usize = 0;
    /// 3 bytes: nothing. Values: 0 (kept).
    pub const SPARE: Range<usize> = 1..4;
    /// 4 bytes: size in bytes. Values: 0 to 2^24.
    pub const BYTES: Range<usize> = 4..8;
    /// 32 bytes: GPIOs of the address lines, lowest line first, ended by 255. Values: any.
    pub const ADDRESS: Range<usize> = 8..40;
    /// 32 bytes: GPIOs of the data lines, lowest line first, ended by 255. Values: any.
    pub const DATA: Range<usize> = 40..72;
}

unsafe extern "C" {
    /// Finds the address layout of the slot that a description record describes: the one with the
    /// lowest score, of equals the earliest choice.
    pub(crate) fn onerom_derive_addr_layout(
        description: *const u8,
        description_len: usize,
        layout: *mut u8,
        layout_len: usize,
    ) -> u64;

    /// Finds the select and data layout of the slot that a description record describes: the one
    /// with the lowest preference, of equals the lowest span, of equals the earliest choice.
    pub(crate) fn onerom_derive_cs_data_layout(
        description: *const u8,
        description_len: usize,
        addr_layout: *const u8,
        addr_layout_len: usize,
        layout: *mut u8,
        layout_len: usize,
    ) -> u64;

    /// Builds the table of a slot: for each index the word of the chip that it picks, each bit
    /// where the data lines read it. It has 2^pins entries, pins being byte 1 of the address layout
    /// record, and an entry has as many bytes as a word, byte 3 of the description record. Of the
    /// description a build goes by the set type, the bytes in a word, the number of chips, their
    /// sizes and the largest table; which GPIOs carry what, it takes from the layouts. All of the
    /// description is tested all the same, and so are its qualifiers against the address layout's
    /// lines.
    pub(crate) fn onerom_build_rom_image(
        description: *const u8,
        description_len: usize,
        addr_layout: *const u8,
        addr_layout_len: usize,
        cs_data_layout: *const u8,
        cs_data_layout_len: usize,
        spans: *const u8,
        spans_len: usize,
        images: *const u8,
        images_len: usize,
        order: u64,
        table: *mut u8,
        table_len: usize,
    ) -> u64;

    /// Reads back what a slot stores: the words of its ROMs, ROM after ROM, and a mark for each. A
    /// ROM has as many words as its size has, rounded down, and at most 2^lines, lines being the
    /// GPIOs of its address map. A word has w bytes, 1 in bit mode 0 and 2 in bit mode 1. The words
    /// of all ROMs together are those counted below.
    pub(crate) fn onerom_unscramble_slot(
        slot: *const u8,
        slot_len: usize,
        stored: *const u8,
        stored_len: usize,
        order: u64,
        output: *mut u8,
        output_len: usize,
        marks: *mut u8,
        marks_len: usize,
    ) -> u64;

    /// Runs both searches, the build and the read-back in turn. The select search is given the
    /// found address layout, and the build both layouts. Build and read-back are given the same
    /// byte order. Read-back is given the table's own bytes, and a slot of the found layouts: the
    /// table's length as its size, the kind of the set type, base and pins of the address layout,
    /// base and base data pin of the select layout, algorithms 0, the bit mode of the word bytes,
    /// the first select line's GPIO as select base, base pins 0 for address and select, no
    /// overrides, the description's X candidates, and for each chip its size and the maps of the
    /// address lines in use and of the data lines.
    pub(crate) fn onerom_round_trip(
        description: *const u8,
        description_len: usize,
        spans: *const u8,
        spans_len: usize,
        images: *const u8,
        images_len: usize,
        order: u64,
        table: *mut u8,
        table_len: usize,
        output: *mut u8,
        output_len: usize,
        marks: *mut u8,
        marks_len: usize,
    ) -> u64;

    /// Tests whether a slot is well wired with the address layout that was found for it: no GPIO is
    /// a candidate of two pins of the board; the address lines in use, and in Multi the select, lie
    /// on different chip pins, and so do the data lines, 8 for each byte of a word; in Multi the
    /// select's pin has no second candidate, and there are no qualifiers; X1 in Banked and Multi,
    /// and X2 with three chips or more, has just one candidate among the GPIOs that the address
    /// layout reads. What is then laid out, built and read back is proved to be the chips' words.
    pub(crate) fn onerom_well_wired(
        description: *const u8,
        description_len: usize,
        addr_layout: *const u8,
        addr_layout_len: usize,
    ) -> u64;

    /// Writes the pin page of two layouts: for each GPIO, used or not, the role that it has there.
    /// A0 to A23 is an address line in use, numbered by its place among them, so that in 16-bit
    /// mode A0 is the line at address pin 1. D0 to D15 is a data line, numbered in the same way. X1
    /// and X2 are the address layout's GPIOs for them, and every select and commoned line with that
    /// role. CE, OE and CS1 to CS4 are select and commoned lines by their roles. HALF is an excess
    /// line of the address layout, and every select and commoned line with the role of one. A GPIO
    /// shows - exactly if it has none of these. A GPIO with several shows the first of address
    /// line, data line, X pin, select line, commoned line. HALF counts as a select line, whichever
    /// list has it. Of address and of data lines the lowest number is shown, X1 goes before X2, and
    /// of select and of commoned lines the first of CE, OE, CS1, CS2, CS3, CS4, HALF is shown: HALF
    /// and a select CS1 show CS1, HALF and a commoned CE show HALF.
    pub(crate) fn onerom_write_page(
        addr_layout: *const u8,
        addr_layout_len: usize,
        cs_data_layout: *const u8,
        cs_data_layout_len: usize,
        page: *mut u8,
        page_len: usize,
    ) -> u64;

    /// Reads a text of Intel HEX into a chip's bytes. The chip is the whole lent slice. A byte that
    /// no record names is 255, and where several records name one the last counts. A line is what
    /// stands up to a line feed, or up to the text's end; a carriage return just before the line
    /// feed belongs to the line's end. Every line is a record: a colon and two hex digits a byte,
    /// of either case. The bytes are a count, two of an offset with the high one first, a type, as
    /// many data bytes as the count says, and a checksum, by which all of them sum to 0 modulo 256.
    /// Type 00 has data bytes from the offset on, up to offset 65535, in a block of 64 KiB: block
    /// 0, or the one that the last type 04 before it names. Type 04 has two data bytes, a block's
    /// number with the high byte first, and type 01 has none and ends the text; both have offset 0.
    pub(crate) fn onerom_read_hex(
        text: *const u8,
        text_len: usize,
        chip: *mut u8,
        chip_len: usize,
    ) -> u64;

    /// Writes a chip's bytes as a text of Intel HEX, which onerom_read_hex reads as the same bytes.
    /// The text has records of type 00 with 16 data bytes, the last one with what is left, a record
    /// of type 04 ahead of each block of 64 KiB but the first, and at the end :00000001FF;
    /// capitals, and a line feed behind each record. Of n bytes the text has 12 * ceil(n / 16) + 2
    /// * n + 16 * max(ceil(n / 65536) - 1, 0) + 12 characters: 12 of none, 46141436 of 2^24.
    pub(crate) fn onerom_write_hex(
        chip: *const u8,
        chip_len: usize,
        text: *mut u8,
        text_len: usize,
    ) -> u64;

    /// Says which line of a text of Intel HEX is the first at fault, where onerom_read_hex answers
    /// 26, 27 or 28 to the text and a chip of this size. Lines are counted from 1. Where no line is
    /// of type 01, and nothing else is at fault, it is the line behind the last.
    pub(crate) fn onerom_hex_fault_line(text: *const u8, text_len: usize, chip_size: u64) -> u64;
}
