//! A slot through the four calls: a chip of 256 bytes on a 24-pin board is laid out, its table is
//! built and read back.

use onerom::description::{Candidates, Chip, Kind, Package, SetType, Setting, Settings};
use onerom::{ByteOrder, Description, Refusal, derive_addr_layout, round_trip};

/// Socket pins 1 to 8 are the address lines, on GPIOs 0 to 7; 9 to 16 the data lines, on 16 to 23;
/// 20 is cs1, on 8.
fn slot() -> Description {
    let mut socket = [Candidates::Absent; 40];
    for (pin, gpio) in (1..=16).zip((0..8).chain(16..24)).chain([(20, 8)]) {
        socket[pin - 1] = Candidates::One(gpio);
    }
    Description {
        board_pins: 24,
        package: Package::B,
        set_type: SetType::Single,
        word_bytes: 1,
        pin_offset: 0,
        largest_table: 256,
        settings: Settings::ChipSelects {
            cs1: Setting::ActiveLow,
            others: [None; 3],
        },
        multi: None,
        qualifiers: vec![],
        socket,
        x: [Candidates::Absent; 2],
        chips: vec![Chip {
            size: 256,
            address_pins: (1..=8).collect(),
            data_pins: (9..=16).collect(),
            control: vec![(Kind::Cs1, 20)],
        }],
    }
}

fn main() -> Result<(), Refusal> {
    let slot = slot();
    let layout = derive_addr_layout(&slot)?;
    let (pins, base) = (layout.pins, layout.base);
    println!("address lines on {pins} GPIOs from GPIO {base}");

    let rom: Vec<u8> = (0..=255).map(|n: u8| n.wrapping_mul(37)).collect();
    let trip = round_trip(&slot, &[Some(&rom)], ByteOrder::LowFirst)?;
    let same = trip.output == rom;
    println!(
        "{}",
        if same {
            "reads back"
        } else {
            "does not read back"
        }
    );
    Ok(())
}
