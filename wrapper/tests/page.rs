//! The pin page from Rust: what the safe function writes and refuses, and what the call leaves in a buffer.
//! Which role a GPIO shows is tried in ../bench.

use onerom::fence::{Lent, Shown, Side};
use onerom::layout::cs_data::{Line, Role};
use onerom::page::LENGTH;
use onerom::{AddrLayout, Call, CsDataLayout, pin_page, write_page_into};

const SHORT_BUFFER: u64 = 16 << 48;

const KINDS: [Role; 6] = [
    Role::Ce,
    Role::Oe,
    Role::Cs1,
    Role::Cs2,
    Role::Cs3,
    Role::Cs4,
];

/// 24 address lines from GPIO 0 on, so many of them in use, and data lines from 24 on.
fn layouts(in_use: u8, data: u8) -> (AddrLayout, CsDataLayout) {
    let addr = AddrLayout {
        base: 0,
        pins: 24,
        x1: None,
        x2: None,
        lines: (0..in_use).collect(),
        excess: (in_use..24).collect(),
    };
    let cs_data = CsDataLayout {
        base: 16,
        base_data_pin: 8,
        data: (24..24 + data).collect(),
        base_cs_pin: 0,
        cs_pins: 0,
        ignore_index: None,
        qualifiers: None,
        select: vec![],
        commoned: vec![],
    };
    (addr, cs_data)
}

/// A layout with every role, in the order of the roles, and one GPIO that has none.
fn every_role() -> (AddrLayout, CsDataLayout) {
    let (mut addr, mut cs_data) = layouts(23, 15);
    (addr.x1, addr.x2) = (Some(39), Some(40));
    let lines = KINDS.into_iter().zip(41..);
    cs_data.select = lines.map(|(role, gpio)| Line { role, gpio }).collect();
    (addr, cs_data)
}

const EVERY_ROLE: &str = "\
00 A0   \n01 A1   \n02 A2   \n03 A3   \n04 A4   \n05 A5   \n06 A6   \n07 A7   \n08 A8   \n09 A9   \n\
10 A10  \n11 A11  \n12 A12  \n13 A13  \n14 A14  \n15 A15  \n16 A16  \n17 A17  \n18 A18  \n19 A19  \n\
20 A20  \n21 A21  \n22 A22  \n23 HALF \n24 D0   \n25 D1   \n26 D2   \n27 D3   \n28 D4   \n29 D5   \n\
30 D6   \n31 D7   \n32 D8   \n33 D9   \n34 D10  \n35 D11  \n36 D12  \n37 D13  \n38 D14  \n39 X1   \n\
40 X2   \n41 CE   \n42 OE   \n43 CS1  \n44 CS2  \n45 CS3  \n46 CS4  \n47 -    \n";

#[test]
fn every_role_has_its_row() {
    let (addr, cs_data) = every_role();
    let page = pin_page(&addr, &cs_data).expect("a page");
    assert_eq!(std::str::from_utf8(&page), Ok(EVERY_ROLE));
}

/// As many lines of each kind as a layout can have.
#[test]
fn the_last_of_each_kind_is_shown() {
    let (addr, mut cs_data) = layouts(24, 16);
    let half = Line {
        role: Role::HalfSelect,
        gpio: 40,
    };
    cs_data.select = vec![half; 30];
    cs_data.commoned = vec![Line { gpio: 47, ..half }; 6];
    let page = pin_page(&addr, &cs_data).expect("a page");
    let row = |gpio: usize| std::str::from_utf8(&page[9 * gpio..][..9]);
    assert_eq!((row(23), row(39)), (Ok("23 A23  \n"), Ok("39 D15  \n")));
    assert_eq!((row(40), row(47)), (Ok("40 HALF \n"), Ok("47 HALF \n")));
    assert_eq!((row(41), row(46)), (Ok("41 -    \n"), Ok("46 -    \n")));
}

#[test]
fn a_layout_outside_the_domain_is_refused() {
    type Change = fn(&mut AddrLayout, &mut CsDataLayout);
    const CHANGES: [Change; 8] = [
        |addr, _| addr.lines[22] = 48,
        |addr, _| addr.x2 = Some(255),
        |addr, _| addr.excess.push(0),
        |addr, _| addr.lines = vec![0; 300],
        |_, cs_data| cs_data.data.clear(),
        |_, cs_data| cs_data.select[5].role = Role::Unknown(9),
        |_, cs_data| cs_data.select = vec![cs_data.select[0]; 31],
        |_, cs_data| cs_data.commoned = vec![cs_data.select[0]; 7],
    ];
    let said = "1 OutOfDomain, place 0: a record of another length, or a number that no board or chip can have";
    for (number, change) in CHANGES.iter().enumerate() {
        let (mut addr, mut cs_data) = every_role();
        change(&mut addr, &mut cs_data);
        let refusal = pin_page(&addr, &cs_data).expect_err("a refusal");
        let told = (refusal.call, refusal.to_string());
        assert_eq!(told, (Call::Page, said.into()), "change {number}");
    }
    assert_eq!(Call::Page.to_string(), "pin page");
}

#[test]
fn a_page_stands_at_the_front_of_what_is_lent() {
    let (addr, cs_data) = every_role();
    let mut shown = [Shown::default(), Shown::default()];
    let mut lent = Lent::default();
    for side in Side::BOTH {
        shown[0].put(&addr.to_bytes(), side);
        shown[1].put(&cs_data.to_bytes(), side);
        let [addr, cs_data] = shown.each_ref().map(Shown::bytes);
        for length in [0, 1, LENGTH - 1] {
            let told = write_page_into(addr, cs_data, lent.lend(length, side));
            assert_eq!(told, SHORT_BUFFER, "{length} bytes, {side:?}");
            assert!(lent.has_only(&[]), "{length} bytes, {side:?}");
        }
        for length in [LENGTH, LENGTH + 1, LENGTH + 8, 5000] {
            let told = write_page_into(addr, cs_data, lent.lend(length, side));
            assert_eq!(told, LENGTH as u64, "{length} bytes, {side:?}");
            assert!(
                lent.has_only(EVERY_ROLE.as_bytes()),
                "{length} bytes, {side:?}"
            );
        }
    }
}
