//! The pin page: which role a GPIO shows, by slots as they are described and by layouts put together by
//! hand, and each bound of the domain just kept and just passed, between guard pages. What the commands
//! make of it is in page_files.rs.

#[path = "../../src/compare/page_fenced.rs"]
mod fenced;
#[allow(dead_code, reason = "the page takes the layouts only")]
#[path = "../../src/plain.rs"]
mod plain;

use std::process::Command;

use super::slots::{SAMPLE, banked, multi, wide, wired};
use fenced::Pages;
use onerom::fence::Side;
use onerom::interface::{addr_layout, cs_data_layout};
use onerom::layout::cs_data::{Line, Qualifiers, Role};
use onerom::page::LENGTH;
use onerom::{AddrLayout, CsDataLayout, derive_addr_layout, derive_cs_data_layout, pin_page};
use onerom_bench::text;

const OUT_OF_DOMAIN: u64 = 1;
const SHORT_BUFFER: u64 = 16;

/// The roles of all GPIOs from 0 on, up to the last that has one. Each row has to be nine bytes.
pub fn roles(page: &[u8]) -> String {
    assert_eq!(page.len(), LENGTH);
    let (rows, _) = page.as_chunks::<9>();
    let role = |(gpio, row): (usize, &[u8; 9])| {
        let row = str::from_utf8(row).expect("ASCII");
        let role = row[3..8].trim_end_matches(' ').to_string();
        assert_eq!(row, format!("{gpio:02} {role:<5}\n"));
        role
    };
    let roles: Vec<String> = rows.iter().enumerate().map(role).collect();
    let used = roles.iter().rposition(|role| role != "-");
    roles[..used.map_or(0, |last| last + 1)].join(" ")
}

/// Both layouts of a described slot.
fn found(description: &str) -> (AddrLayout, CsDataLayout) {
    let slot = text::read(description).expect("a description");
    let addr = derive_addr_layout(&slot).expect("an address layout");
    let cs_data = derive_cs_data_layout(&slot, Some(&addr)).expect("a layout");
    (addr, cs_data)
}

fn shows(description: &str) -> String {
    let (addr, cs_data) = found(description);
    roles(&pin_page(&addr, &cs_data).expect("a page"))
}

#[test]
fn slots_of_each_set_type() {
    let (data, lines) = (
        "D0 D1 D2 D3 D4 D5 D6 D7",
        "A10 A11 A12 A9 A8 A7 A6 A5 A4 A3 A2 A1 A0",
    );
    assert_eq!(shows(SAMPLE), format!("{data} - {lines} CE OE"));
    // X1 and X2 beside the address lines, ce behind oe.
    assert_eq!(shows(&banked()), format!("{data} X1 {lines} X2 OE CE"));
    assert_eq!(shows(&multi()), format!("{data} - {lines} CE OE X1 X2"));
}

/// The first address pin, A-1, is no line.
#[test]
fn words_of_two_bytes_count_from_the_second_address_pin() {
    let shown = "A0 A1 A2 A3 A4 A5 A6 A7 A8 - - - - - - - \
        D0 D1 D2 D3 D4 D5 D6 D7 D8 D9 D10 D11 D12 D13 D14 D15 CE";
    assert_eq!(shows(&wide([30, 31])), shown);
    // Lines that are swapped are numbered as the chip has them.
    let swapped = shown.replace("D14 D15", "D15 D14");
    assert_eq!(shows(&wide([31, 30])), swapped);
}

/// A chip of 512 bytes under a limit of 256: A8 is past it. Ce and oe are on GPIOs 10 and 11, A8 on 12.
pub fn excess(set: &str) -> String {
    let head = format!(
        "socket 24\nlimit 256\n{set}\nx1 gpio 8\nx2 gpio 9\nchip size 512\naddress 1 2 3 4 5 6 7 8 9\n\
         data 10 11 12 13 14 15 16 17\ncontrol ce 18\ncontrol oe 19\n"
    );
    wired(&head, (0..8).chain([12]).chain(16..24).chain([10, 11]))
}

#[test]
fn excess_lines_show_half() {
    let (lines, data) = ("A0 A1 A2 A3 A4 A5 A6 A7", "- - - D0 D1 D2 D3 D4 D5 D6 D7");
    let single = format!("{lines} - - CE OE HALF {data}");
    assert_eq!(shows(&excess("set single")), single);
    let three = "\nchip again\nchip again\n";
    let banked = excess("set banked") + three;
    assert_eq!(shows(&banked), single.replacen("- -", "X1 X2", 1));
    // X1 and X2 are selects here, and lie beside the others.
    let multi = excess("set multi\nmulti select ce commoned oe") + three;
    assert_eq!(shows(&multi), single.replacen("- -", "X1 X2", 1));
}

/// All of it in one slot: three chips, words of two bytes, A9 past the limit.
#[test]
fn a_multi_slot_with_everything() {
    let head = "socket 40\nword 2\nlimit 1024\nset multi\nmulti select ce commoned oe\nx1 gpio 11\n\
        x2 gpio 12\nchip size 2048\naddress 29 1 2 3 4 5 6 7 8 9 10\n\
        data 11 12 13 14 15 16 17 18 19 20 21 22 23 24 25 26\ncontrol ce 27\ncontrol oe 28\n\
        chip again\nchip again\n";
    let gpios = (0..9).chain([13]).chain(16..32).chain([9, 10]);
    let shown = "A0 A1 A2 A3 A4 A5 A6 A7 A8 CE OE X1 X2 HALF - - \
        D0 D1 D2 D3 D4 D5 D6 D7 D8 D9 D10 D11 D12 D13 D14 D15";
    assert_eq!(shows(&wired(head, gpios)), shown);
}

/// Layouts that have D0 on GPIO 40 and nothing else.
fn bare() -> (AddrLayout, CsDataLayout) {
    let addr = AddrLayout {
        base: 0,
        pins: 0,
        x1: None,
        x2: None,
        lines: vec![],
        excess: vec![],
    };
    let cs_data = CsDataLayout {
        base: 0,
        base_data_pin: 0,
        data: vec![40],
        base_cs_pin: 0,
        cs_pins: 0,
        ignore_index: None,
        qualifiers: None,
        select: vec![],
        commoned: vec![],
    };
    (addr, cs_data)
}

/// Gives a GPIO a role.
type Way = fn(&mut AddrLayout, &mut CsDataLayout, u8);

/// A line of a list in the place of this number, those before it on GPIO 40.
fn put(lines: &mut Vec<u8>, number: usize, gpio: u8) {
    lines.resize(lines.len().max(number + 1), 40);
    lines[number] = gpio;
}

/// Every way to have a role, in the order in which one is shown before another. Of those that show the
/// same, any is as good.
const WAYS: [(&str, Way); 31] = [
    ("A0", |addr, _, gpio| put(&mut addr.lines, 0, gpio)),
    ("A3", |addr, _, gpio| put(&mut addr.lines, 3, gpio)),
    ("A22", |addr, _, gpio| put(&mut addr.lines, 22, gpio)),
    ("D0", |_, cs_data, gpio| put(&mut cs_data.data, 0, gpio)),
    ("D9", |_, cs_data, gpio| put(&mut cs_data.data, 9, gpio)),
    ("D15", |_, cs_data, gpio| put(&mut cs_data.data, 15, gpio)),
    ("X1", |addr, _, gpio| addr.x1 = Some(gpio)),
    ("X1", |_, cs_data, gpio| select(cs_data, Role::X1, gpio)),
    ("X1", |_, cs_data, gpio| common(cs_data, Role::X1, gpio)),
    ("X2", |addr, _, gpio| addr.x2 = Some(gpio)),
    ("X2", |_, cs_data, gpio| select(cs_data, Role::X2, gpio)),
    ("X2", |_, cs_data, gpio| common(cs_data, Role::X2, gpio)),
    ("CE", |_, cs_data, gpio| select(cs_data, Role::Ce, gpio)),
    ("OE", |_, cs_data, gpio| select(cs_data, Role::Oe, gpio)),
    ("CS1", |_, cs_data, gpio| select(cs_data, Role::Cs1, gpio)),
    ("CS2", |_, cs_data, gpio| select(cs_data, Role::Cs2, gpio)),
    ("CS3", |_, cs_data, gpio| select(cs_data, Role::Cs3, gpio)),
    ("CS4", |_, cs_data, gpio| select(cs_data, Role::Cs4, gpio)),
    ("HALF", |addr, _, gpio| addr.excess = vec![gpio]),
    ("HALF", |_, cs_data, gpio| select(cs_data, HALF, gpio)),
    ("HALF", |_, cs_data, gpio| common(cs_data, HALF, gpio)),
    ("CE", |_, cs_data, gpio| common(cs_data, Role::Ce, gpio)),
    ("OE", |_, cs_data, gpio| common(cs_data, Role::Oe, gpio)),
    ("CS1", |_, cs_data, gpio| common(cs_data, Role::Cs1, gpio)),
    ("CS2", |_, cs_data, gpio| common(cs_data, Role::Cs2, gpio)),
    ("CS3", |_, cs_data, gpio| common(cs_data, Role::Cs3, gpio)),
    ("CS4", |_, cs_data, gpio| common(cs_data, Role::Cs4, gpio)),
    // None of these is a role.
    ("-", |addr, _, gpio| (addr.base, addr.pins) = (gpio, 48)),
    ("-", |_, cs_data, gpio| {
        (cs_data.base, cs_data.base_data_pin) = (gpio, gpio);
    }),
    ("-", |_, cs_data, gpio| {
        (cs_data.base_cs_pin, cs_data.cs_pins) = (gpio, 2);
        cs_data.ignore_index = Some(0);
    }),
    ("-", |_, cs_data, gpio| {
        cs_data.qualifiers = Some(Qualifiers {
            base_pin: gpio,
            pins: 1,
            pattern: 1,
        });
    }),
];

const HALF: Role = Role::HalfSelect;

fn select(cs_data: &mut CsDataLayout, role: Role, gpio: u8) {
    cs_data.select.push(Line { role, gpio });
}

fn common(cs_data: &mut CsDataLayout, role: Role, gpio: u8) {
    cs_data.commoned.push(Line { role, gpio });
}

/// What a GPIO shows that has its roles in these ways.
fn shown(ways: &[usize], gpio: u8) -> String {
    let (mut addr, mut cs_data) = bare();
    for &way in ways {
        WAYS[way].1(&mut addr, &mut cs_data, gpio);
    }
    let page = pin_page(&addr, &cs_data).expect("a page");
    let row = str::from_utf8(&page[9 * usize::from(gpio)..][..9]).expect("ASCII");
    row[3..8].trim_end_matches(' ').to_string()
}

#[test]
fn each_role_shows_on_each_gpio() {
    for (way, (role, _)) in WAYS.iter().enumerate() {
        for gpio in (0..48).filter(|&gpio| gpio != 40) {
            assert_eq!(shown(&[way], gpio), *role, "way {way}, GPIO {gpio}");
        }
    }
}

#[test]
fn of_several_roles_the_first_is_shown() {
    for (first, (role, _)) in WAYS.iter().enumerate() {
        for second in first..WAYS.len() {
            for ways in [[first, second], [second, first]] {
                assert_eq!(shown(&ways, 7), *role, "{ways:?}");
            }
        }
        // The next ones too, as many as the commoned lines can be.
        let next = first..WAYS.len().min(first + 6);
        let ways: Vec<usize> = next.rev().collect();
        assert_eq!(shown(&ways, 7), *role, "{ways:?}");
    }
}

/// The order of the roles, sentence by sentence.
#[test]
fn roles_beside_each_other() {
    let beside = |lines: &[u8], data: &[u8], select: &[Role], common: &[Role]| {
        let (mut addr, mut cs_data) = bare();
        addr.lines = lines.to_vec();
        cs_data.data = data.to_vec();
        let line = |&role: &Role| Line { role, gpio: 7 };
        cs_data.select = select.iter().map(line).collect();
        cs_data.commoned = common.iter().map(line).collect();
        let shown = roles(&pin_page(&addr, &cs_data).expect("a page"));
        shown.split(' ').nth(7).unwrap_or("-").to_string()
    };
    let (line, data) = ([1, 2, 3, 7], [7]);
    assert_eq!(beside(&line, &data, &[], &[]), "A3");
    assert_eq!(beside(&[1, 7, 7], &[40], &[], &[]), "A1");
    assert_eq!(beside(&[], &[40, 7, 7], &[Role::X1], &[]), "D1");
    assert_eq!(beside(&[], &[40], &[HALF, Role::Cs1], &[]), "CS1");
    assert_eq!(beside(&[], &[40], &[HALF], &[Role::Ce]), "HALF");
    assert_eq!(beside(&[], &[40], &[Role::Cs4], &[Role::Ce]), "CS4");
    assert_eq!(beside(&[], &[40], &[Role::Ce], &[Role::X2]), "X2");
    assert_eq!(beside(&[], &[40], &[Role::X2], &[Role::X1]), "X1");
    assert_eq!(beside(&[], &[40], &[], &[Role::Oe, HALF]), "HALF");
    assert_eq!(beside(&[], &[40], &[], &[Role::Cs4, Role::Oe]), "OE");
    assert_eq!(beside(&[], &[40], &[], &[]), "-");
}

type Records = (Vec<u8>, Vec<u8>);

fn records((addr, cs_data): &(AddrLayout, CsDataLayout)) -> Records {
    (addr.to_bytes().to_vec(), cs_data.to_bytes().to_vec())
}

/// As many lines of each kind as there can be, on GPIOs 0 to 47, with qualifiers.
fn full() -> (AddrLayout, CsDataLayout) {
    let (mut addr, mut cs_data) = bare();
    (addr.base, addr.pins) = (47, 48);
    (addr.x1, addr.x2) = (Some(0), Some(47));
    addr.lines = (25..48).collect();
    addr.excess = vec![47];
    (cs_data.base, cs_data.base_data_pin, cs_data.base_cs_pin) = (47, 47, 47);
    cs_data.qualifiers = Some(Qualifiers {
        base_pin: 47,
        pins: 255,
        pattern: 255,
    });
    cs_data.data = (0..16).collect();
    let line = |number: u8| Line {
        role: Role::of(number % 9),
        gpio: 10 + number,
    };
    cs_data.select = (0..30).map(line).collect();
    cs_data.commoned = (30..36).map(line).collect();
    (addr, cs_data)
}

/// What the model writes for records that are in the domain.
fn modelled((addr, cs_data): &Records, lent: usize) -> Result<Vec<u8>, u64> {
    let addr = AddrLayout::read(addr[..].try_into().expect("a record"));
    let cs_data = CsDataLayout::read(cs_data[..].try_into().expect("a record"));
    let (address, select) = (plain::address(addr), plain::select(cs_data));
    let page = oracle::model::page::page(&address, &select, lent)?;
    Ok(page.text())
}

/// Makes the call at both guard pages: this is told, and nothing else stands in the lent bytes.
fn check(
    pages: &mut Pages,
    (addr, cs_data): &Records,
    lent: usize,
    wanted: &Result<Vec<u8>, u64>,
    case: &str,
) {
    for side in Side::BOTH {
        let wanted = wanted.as_deref().map_err(|&number| number);
        let told = pages.write([addr, cs_data], lent, wanted, side);
        assert!(told.is_ok(), "{case}, {side:?}: {told:?}");
    }
}

/// Whether docs/INTERFACE.md has a byte at a place of the full layouts' address layout record.
fn is_in_addr_layout(place: usize, byte: u8) -> bool {
    match place {
        addr_layout::BASE => byte <= 47,
        addr_layout::PINS => byte <= 48,
        addr_layout::X1 | addr_layout::X2 => byte <= 47 || byte == 255,
        // Of 24 lines in all one is an excess line.
        addr_layout::LINE_COUNT => byte <= 23,
        addr_layout::EXCESS_COUNT => byte <= 1,
        _ if addr_layout::LINES.contains(&place) => byte <= 47,
        _ => byte == 0,
    }
}

/// The same of their select layout record.
fn is_in_cs_data_layout(place: usize, byte: u8) -> bool {
    use cs_data_layout as at;
    match place {
        at::DATA_COUNT => (1..=16).contains(&byte),
        at::SELECT_COUNT => byte <= 30,
        at::COMMONED_COUNT => byte <= 6,
        at::QUALIFIED => byte <= 1,
        at::CS_PINS | at::IGNORE_INDEX | at::QUALIFIER_PINS | at::QUALIFIER_PATTERN => true,
        _ if place >= at::SELECT.start && place.is_multiple_of(2) => byte <= 8,
        _ => byte <= 47,
    }
}

#[test]
fn every_byte_at_every_place() {
    let (good, mut pages) = (records(&full()), Pages::default());
    let mut taken = 0;
    for place in 0..136 {
        for byte in 0..=255 {
            let mut handed_in = good.clone();
            let is_in = match place {
                0..36 => {
                    handed_in.0[place] = byte;
                    is_in_addr_layout(place, byte)
                }
                _ => {
                    handed_in.1[place - 36] = byte;
                    is_in_cs_data_layout(place - 36, byte)
                }
            };
            let wanted = match is_in {
                true => modelled(&handed_in, LENGTH),
                false => Err(OUT_OF_DOMAIN),
            };
            taken += u32::from(wanted.is_ok());
            let case = format!("byte {byte} at place {place} of 136");
            check(&mut pages, &handed_in, LENGTH, &wanted, &case);
        }
    }
    // The bounds of the address layout record, then of the select layout record.
    let addr = 48 + 49 + 2 * 49 + 24 + 2 + 6 + 24 * 48;
    let cs_data = 4 * 48 + 16 + 31 + 7 + 2 + 4 * 256 + 16 * 48 + 36 * (9 + 48);
    assert_eq!(taken, addr + cs_data);
}

#[test]
fn the_counts_of_address_lines_are_bound_together() {
    let mut pages = Pages::default();
    let counts = (0..=255).flat_map(|in_use| (0..=255).map(move |excess| (in_use, excess)));
    // Up to the bound and just past it, and what comes to as much in a byte.
    let near = counts.filter(|(in_use, excess)| (in_use + excess) % 256 <= 26);
    for (in_use, excess) in near {
        let mut handed_in = records(&full());
        handed_in.0[addr_layout::LINE_COUNT] = in_use as u8;
        handed_in.0[addr_layout::EXCESS_COUNT] = excess as u8;
        let wanted = match in_use + excess {
            0..=24 => modelled(&handed_in, LENGTH),
            _ => Err(OUT_OF_DOMAIN),
        };
        let case = format!("{in_use} lines in use, {excess} excess lines");
        check(&mut pages, &handed_in, LENGTH, &wanted, &case);
    }
}

#[test]
fn bytes_past_the_counts_count_for_nothing() {
    let mut pages = Pages::default();
    let wanted = modelled(&records(&bare()), LENGTH);
    assert!(wanted.is_ok());
    for byte in 0..=255 {
        let mut handed_in = records(&bare());
        handed_in.0[addr_layout::LINES].fill(byte);
        // Behind D0, and the qualifiers, which are none.
        handed_in.1[cs_data_layout::DATA.start + 1..].fill(byte);
        let qualifiers = cs_data_layout::BASE_QUALIFIER_PIN..cs_data_layout::DATA.start;
        handed_in.1[qualifiers].fill(byte);
        check(&mut pages, &handed_in, LENGTH, &wanted, &format!("{byte}"));
    }
}

#[test]
fn a_short_buffer_is_told_last() {
    let (good, mut pages) = (records(&full()), Pages::default());
    let mut wrong = good.clone();
    wrong.1[cs_data_layout::DATA_COUNT] = 0;
    let page = modelled(&good, LENGTH);
    for lent in (0..450).chain([4095, 4096, 4097]) {
        let wanted = match lent {
            ..LENGTH => &Err(SHORT_BUFFER),
            _ => &page,
        };
        let case = format!("{lent} bytes lent");
        check(&mut pages, &good, lent, wanted, &case);
        check(&mut pages, &wrong, lent, &Err(OUT_OF_DOMAIN), &case);
    }
}

/// How many pairs from a seed. A debug build takes its time, and is there to be tried at all.
const COUNT: u64 = if cfg!(debug_assertions) {
    2000
} else {
    100_000
};

#[test]
fn no_pair_of_layouts_differs() {
    let mut program = Command::new(env!("CARGO_BIN_EXE_onerom-bench"));
    let told = program
        .args(["compare-page", "1", &COUNT.to_string()])
        .output();
    let told = told.expect("the program runs");
    let said = String::from_utf8_lossy(&told.stdout);
    assert_eq!(told.status.code(), Some(0), "{said}");
    for answer in ["page", "refusal 1", "refusal 16"] {
        assert!(said.contains(&format!("\n  {answer} ")), "{said}");
    }
    let (_, shared) = said
        .split_once("\n  GPIOs with two roles or more: ")
        .expect("a line");
    let shared: u64 = shared
        .split(' ')
        .next()
        .unwrap_or("")
        .parse()
        .expect("a number");
    assert!(shared > COUNT, "{said}");
    let ends = format!("\n{COUNT} pairs of layouts, 0 differences\n");
    assert!(said.ends_with(&ends), "{said}");
}
