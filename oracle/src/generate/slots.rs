//! Cases over a description: select search, build, and the chain of all four.

use super::{tables, wiring};
use crate::case::{Build, Case};
use crate::description::Description;
use crate::layout::{AddressLayout, SelectLayout};
use crate::model::{address, domain, select};
use crate::random::Random;
use crate::slot::ChipBytes;

/// Shortens the qualifier list until it is in the domain of the layout.
fn within_qualifiers(slot: &mut Description, layout: &AddressLayout) {
    while !slot.qualifiers.is_empty() && !domain::address_layout(slot, layout) {
        slot.qualifiers.pop();
    }
}

fn any_layout(random: &mut Random) -> AddressLayout {
    let x = |random: &mut Random| random.chance(70).then(|| random.gpio());
    let lines = random.between(0, 16);
    let excess = random.pick(&[0, 0, 1, 1, 2, 3, 8]);
    let near = random.below(40);
    AddressLayout {
        base: random.gpio(),
        pins: random.between(0, 48) as u8,
        x1: x(random),
        x2: x(random),
        lines: (0..lines).map(|_| random.gpio()).collect(),
        excess: (0..excess)
            .map(|_| (near + random.below(8)) as u8)
            .collect(),
    }
}

pub fn select_search(random: &mut Random) -> Case {
    let mut slot = wiring::description(random);
    let layout = match address::search(&slot) {
        _ if random.chance(8) => None,
        Ok(layout) if random.chance(85) => Some(layout),
        _ => Some(any_layout(random)),
    };
    if let Some(layout) = &layout {
        within_qualifiers(&mut slot, layout);
    }
    Case::SelectSearch(Box::new(slot.write()), layout)
}

/// Bytes for each chip: mostly as many as its size, now and then none, fewer or more.
pub fn images(random: &mut Random, slot: &Description) -> [ChipBytes; 4] {
    let whole = random.chance(75);
    std::array::from_fn(|n| {
        let size = slot.chips.get(n).map_or(0, |chip| chip.size);
        let length = match random.below(16) {
            _ if whole => size,
            0 => size / 2,
            1 => size.saturating_sub(1),
            2 | 3 => size + random.below(40) as u32,
            _ => size,
        };
        ChipBytes {
            present: whole || !random.chance(8),
            length,
            seed: random.next() as u32,
        }
    })
}

pub fn chain(random: &mut Random) -> Case {
    let mut slot = wiring::description(random);
    if let Ok(layout) = address::search(&slot) {
        within_qualifiers(&mut slot, &layout);
    }
    let images = images(random, &slot);
    Case::Chain(Box::new(slot.write()), images)
}

/// What both searches find, the qualifier list shortened to what the first of them leaves.
pub fn found(slot: &mut Description) -> Option<(AddressLayout, SelectLayout)> {
    let address = address::search(slot).ok()?;
    within_qualifiers(slot, &address);
    let select = select::search(slot, Some(&address)).ok()?;
    Some((address, select))
}

pub fn build(random: &mut Random) -> Case {
    let mut slot = wiring::description(random);
    let (mut address, mut select) = match found(&mut slot) {
        Some(found) if random.chance(50) => found,
        _ => tables::layouts(random, &slot),
    };
    if random.chance(40) {
        tables::damage_layouts(random, &mut address, &mut select);
    }
    within_qualifiers(&mut slot, &address);
    build_case(random, slot, address, select)
}

/// A table of 512 KiB over a window whose GPIOs nearly all count.
pub fn large_build(random: &mut Random) -> Case {
    let mut slot = wiring::description(random);
    slot.largest_table = 1 << 19;
    let (address, select) = tables::large_layouts(random, &slot);
    tables::words_fit(random, &mut slot, address.lines.len());
    within_qualifiers(&mut slot, &address);
    build_case(random, slot, address, select)
}

/// The case with bytes for the chips and a table lent, mostly as long as needed.
fn build_case(
    random: &mut Random,
    slot: Description,
    address: AddressLayout,
    select: SelectLayout,
) -> Case {
    let length = (1u64 << address.pins) * u64::from(slot.word_bytes);
    let length = length.min(1 << 21) as u32;
    let table_length = match random.below(40) {
        0 => length - 1,
        1 => length / 2,
        2..=5 => length + random.below(9) as u32,
        _ => length,
    };
    Case::Build(Box::new(Build {
        record: Box::new(slot.write()),
        address,
        select,
        images: images(random, &slot),
        table_length,
    }))
}
