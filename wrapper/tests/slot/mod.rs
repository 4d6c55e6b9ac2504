//! The slot that several tests go by.

use onerom::description::{Candidates, Chip, Description, Package, SetType, Settings};

/// A chip by itself, selected by ce and oe, in a socket of 24 pins on package B.
pub fn single(socket: [Candidates; 40], chip: Chip) -> Description {
    Description {
        board_pins: 24,
        package: Package::B,
        set_type: SetType::Single,
        word_bytes: 1,
        pin_offset: 0,
        largest_table: 256,
        settings: Settings::CeOe,
        multi: None,
        qualifiers: vec![],
        socket,
        x: [Candidates::Absent; 2],
        chips: vec![chip],
    }
}
