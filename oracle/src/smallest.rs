//! The smallest case of each difference in docs/DIFFERENCES.md.

use crate::answer::answer;
use crate::case::{Build, Case, MultiSelect, ReadBack};
use crate::description::{
    BANKED, Chip, Description, MULTI, Multi, NO_PIN, NONE, Package, SINGLE, Settings,
};
use crate::layout::{AddressLayout, SelectLayout};
use crate::model::Model;
use crate::original::Original;
use crate::slot::{ChipBytes, FIRST_PLUGIN, Slot};

/// Prints the smallest case of each difference with both answers.
pub fn print() {
    for (number, case) in smallest() {
        println!("difference {number}");
        println!("  case     {}", case.line());
        println!("  original {}", answer(&Original, &case));
        println!("  01       {}", answer(&Model::LOW_FIRST, &case));
    }
}

pub fn smallest() -> Vec<(u32, Case)> {
    vec![
        (1, no_select()),
        (2, build(|case, _| case.address.pins = 32)),
        (2, found_table_of_32_pins()),
        (3, build(|_, slot| slot.set_type = BANKED)),
        (4, build(|case, _| case.address.base = 1)),
        (4, found_select_below_the_base()),
        (5, build(line_out_of_reach_of_two_chips)),
        (6, build(line_out_of_reach_without_bytes)),
        (7, build(|_, slot| slot.chips[0].size = 2)),
        (7, build(one_byte_for_two_words)),
        (8, build(|case, _| case.table_length = 0)),
        (9, plugin_without_room()),
    ]
}

/// Single, one chip of one byte, one address line and one data line.
pub fn plain() -> Description {
    let chip = Chip {
        size: 1,
        address_pins: vec![1],
        data_pins: vec![1],
        control: Vec::new(),
    };
    Description {
        board_pins: 24,
        package: Package::B,
        set_type: SINGLE,
        word_bytes: 1,
        offset: 0,
        largest_table: 256,
        settings: by_enable(),
        multi: None,
        qualifiers: Vec::new(),
        socket: [NO_PIN; 40],
        x: [NO_PIN; 2],
        chips: vec![chip],
    }
}

/// A build of a table of one entry, changed in what a difference is about.
fn build(change: fn(&mut Build, &mut Description)) -> Case {
    let mut slot = plain();
    let mut case = one_entry();
    change(&mut case, &mut slot);
    *case.record = slot.write();
    Case::Build(Box::new(case))
}

/// Wires the first socket pins, one GPIO each.
pub fn wire(slot: &mut Description, gpios: impl IntoIterator<Item = u8>) {
    for (pin, gpio) in slot.socket.iter_mut().zip(gpios) {
        *pin = [gpio, NONE];
    }
}

/// Address lines on GPIOs 0 and 31, data on 1, ce on 2.
fn found_table_of_32_pins() -> Case {
    let mut slot = plain();
    slot.chips[0].address_pins = vec![1, 2];
    slot.chips[0].data_pins = vec![3];
    slot.chips[0].control = vec![(0, 4)];
    wire(&mut slot, [0, 31, 1, 2]);
    Case::Chain(Box::new(slot.write()), one_entry().images)
}

/// Eight address lines on GPIOs 8 to 15, four data lines on 0 to 3. The address search takes X1 at
/// 16 and the select's first candidate, 17; the select search takes 6 and 7.
fn found_select_below_the_base() -> Case {
    let mut slot = plain();
    slot.set_type = MULTI;
    slot.largest_table = 1024;
    slot.chips[0].address_pins = (1..=8).collect();
    slot.chips[0].data_pins = (9..=12).collect();
    slot.chips[0].control = vec![(0, 13)];
    slot.multi = Some(Multi {
        select: 0,
        commoned: Vec::new(),
        ignored: Vec::new(),
    });
    wire(&mut slot, (8..=15).chain(0..=3));
    slot.socket[12] = [17, 7];
    slot.x[0] = [16, 6];
    slot.chips.push(slot.chips[0].clone());
    Case::Chain(Box::new(slot.write()), one_entry().images)
}

fn by_enable() -> Settings {
    Settings {
        form: 1,
        lines: [NONE; 6],
    }
}

pub fn one_entry() -> Build {
    let image = ChipBytes {
        present: true,
        length: 1,
        seed: 0,
    };
    Build {
        record: Box::new([0; crate::description::LENGTH]),
        address: AddressLayout {
            base: 0,
            pins: 0,
            x1: None,
            x2: None,
            lines: vec![0],
            excess: Vec::new(),
        },
        select: SelectLayout {
            base: 0,
            base_data_pin: 0,
            base_cs_pin: 0,
            cs_pins: 0,
            ignore: None,
            qualifier: None,
            data: vec![0],
            select: Vec::new(),
            commoned: Vec::new(),
        },
        images: [image; 4],
        table_length: 1,
    }
}

fn line_out_of_reach_of_two_chips(case: &mut Build, slot: &mut Description) {
    case.address.lines[0] = 32;
    slot.chips.push(slot.chips[0].clone());
}

fn line_out_of_reach_without_bytes(case: &mut Build, _slot: &mut Description) {
    case.address.lines[0] = 32;
    case.images[0].present = false;
}

fn one_byte_for_two_words(case: &mut Build, slot: &mut Description) {
    slot.chips[0].size = 2;
    case.address.pins = 1;
    case.table_length = 2;
}

fn no_select() -> Case {
    Case::MultiSelect(MultiSelect {
        kinds: Vec::new(),
        primary: by_enable(),
        secondary: by_enable(),
    })
}

fn plugin_without_room() -> Case {
    let slot = Slot {
        size: 1,
        kind: FIRST_PLUGIN,
        has_layout: false,
        address_algorithm: 0,
        address_base: 0,
        base_address_pin: 0,
        pins: 0,
        data_algorithm: 0,
        data_base: 0,
        base_data_pin: 0,
        dma_algorithm: 0,
        bit_mode: 0,
        select_algorithm: 0,
        select_base: 0,
        first_select_pin: 0,
        overrides: Vec::new(),
        x: [NO_PIN; 2],
        roms: Vec::new(),
    };
    Case::ReadBack(Box::new(ReadBack {
        slot,
        output_length: 0,
        mark_length: 0,
        data: vec![0],
    }))
}

#[cfg(test)]
mod tests {
    use super::*;
    use crate::differences::number;

    #[test]
    fn each_smallest_case_shows_its_difference() {
        for (wanted, case) in smallest() {
            let (original, model) = (answer(&Original, &case), answer(&Model::LOW_FIRST, &case));
            assert_ne!(original, model, "{wanted}");
            assert_eq!(number(&case, &original, &model), Some(wanted));
        }
    }

    #[test]
    fn a_case_line_reads_back_as_itself() {
        for number in 0..900 {
            let line = crate::generate::case(5, number, &[1, 2, 3, 4, 5, 6, 7, 8, 9]).line();
            let read = Case::read(&line).map(|case| case.line());
            assert_eq!(read, Some(line));
        }
    }
}
