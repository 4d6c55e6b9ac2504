//! The package of a description: its place in the record, and what each function says of a GPIO that
//! the package has not.

mod slot;

use onerom::description::{Candidates, Chip, Description, Kind, Package};
use onerom::{
    ByteOrder, Refusal, build_rom_image, derive_addr_layout, derive_cs_data_layout, round_trip,
    well_wired,
};
use slot::single;

/// A chip of 8 bytes: its address lines on GPIOs 27 to 29, the last of package A, data on 16 to 23,
/// ce on 24.
fn sample(package: Package) -> Description {
    let mut socket = [Candidates::Absent; 40];
    for (pin, gpio) in (1..).zip((27..30).chain(16..25)) {
        socket[pin - 1] = Candidates::One(gpio);
    }
    let chip = Chip {
        size: 8,
        address_pins: (1..=3).collect(),
        data_pins: (4..=11).collect(),
        control: vec![(Kind::Ce, 12)],
    };
    Description {
        package,
        ..single(socket, chip)
    }
}

#[test]
fn a_package_has_a_number_a_name_and_a_last_gpio() {
    for (package, number, name, last) in [
        (Package::B, 0, "RP2350B", 47),
        (Package::A, 1, "RP2350A", 29),
    ] {
        assert_eq!(sample(package).to_bytes()[1], number);
        assert_eq!(package.to_string(), name);
        assert_eq!(package.last_gpio(), last);
    }
    assert_eq!(Package::default(), Package::B);
}

#[test]
fn candidates_are_told_one_by_one() {
    let gpios = |own: Candidates| own.gpios().collect::<Vec<u8>>();
    assert_eq!(gpios(Candidates::Absent), []);
    assert_eq!(gpios(Candidates::One(7)), [7]);
    assert_eq!(gpios(Candidates::Two(34, 10)), [34, 10]);
}

#[test]
fn both_packages_answer_alike_below_30() {
    let [a, b] = [Package::A, Package::B].map(sample);
    let addr = derive_addr_layout(&a).expect("an address layout");
    assert_eq!((addr.base, addr.pins), (27, 8));
    assert_eq!(derive_addr_layout(&b), Ok(addr.clone()));
    let found = derive_cs_data_layout(&a, Some(&addr)).expect("a layout");
    assert_eq!(derive_cs_data_layout(&b, Some(&addr)), Ok(found.clone()));
    let rom = [3, 1, 4, 1, 5, 9, 2, 6];
    let table =
        build_rom_image(&a, &addr, &found, &[Some(&rom)], ByteOrder::LowFirst).expect("a table");
    let other = build_rom_image(&b, &addr, &found, &[Some(&rom)], ByteOrder::LowFirst);
    assert_eq!(other.expect("a table"), table);
    for slot in [&a, &b] {
        let trip = round_trip(slot, &[Some(&rom)], ByteOrder::LowFirst).expect("it reads back");
        assert_eq!((trip.table, trip.output), (table.clone(), rom.to_vec()));
        assert_eq!(well_wired(slot, &addr), Ok(true));
    }
}

#[test]
fn no_function_takes_a_gpio_that_package_a_has_not() {
    let rom = [0; 8];
    let addr = derive_addr_layout(&sample(Package::B)).expect("an address layout");
    let cs_data = derive_cs_data_layout(&sample(Package::B), Some(&addr)).expect("a layout");
    let numbers = |slot: &Description| {
        let number = |refusal: Option<Refusal>| refusal.map_or(0, |refusal| refusal.number);
        [
            number(derive_addr_layout(slot).err()),
            number(derive_cs_data_layout(slot, Some(&addr)).err()),
            number(
                build_rom_image(slot, &addr, &cs_data, &[Some(&rom)], ByteOrder::LowFirst).err(),
            ),
            number(round_trip(slot, &[Some(&rom)], ByteOrder::LowFirst).err()),
            number(well_wired(slot, &addr).err()),
        ]
    };
    // A pin past the socket, and X2: no line is on either.
    for candidates in [Candidates::One(30), Candidates::Two(3, 47)] {
        for package in [Package::A, Package::B] {
            let mut slot = sample(package);
            slot.socket[39] = candidates;
            let mut other = sample(package);
            other.x[1] = candidates;
            let wanted = if package == Package::A { 1 } else { 0 };
            assert_eq!(numbers(&slot), [wanted; 5]);
            assert_eq!(numbers(&other), [wanted; 5]);
        }
    }
}
