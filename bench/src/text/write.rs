//! A stored slot's lines.

use super::facts::ORDER;
use super::words::{NO_NUMBERS, ORDERS, OVERRIDES, SLOT_KINDS};
use onerom::ByteOrder;
use onerom::description::Candidates;
use onerom::interface::values::GPIO_NONE;
use onerom::slot::{Layout, MOST_LINES, Rom, SlotKind, StoredSlot};

/// GPIO of an override, below its kind.
const GPIO: u8 = 0x3f;

pub fn lines(slot: &StoredSlot, order: ByteOrder) -> Vec<String> {
    let mut lines = vec![
        format!("slot {}", kind(slot.kind)),
        format!("size {}", slot.size),
    ];
    lines.extend(unusual(order));
    lines.extend(slot.layout.iter().flat_map(layout));
    lines.extend(slot.overrides.iter().map(|&byte| forced(byte)));
    for (name, x) in ["x1", "x2"].into_iter().zip(slot.x) {
        lines.extend(candidates(name, x));
    }
    let mut before = None;
    for one in &slot.roms {
        match before {
            Some(other) if other == one => lines.push("rom again".into()),
            _ => lines.extend(rom(one)),
        }
        before = Some(one);
    }
    lines
}

fn kind(kind: SlotKind) -> String {
    let named = SLOT_KINDS.iter().find(|(_, one)| *one == kind);
    named.map_or(kind.number().to_string(), |(name, _)| name.to_string())
}

/// A line with a byte order that is not the usual one.
fn unusual(order: ByteOrder) -> Option<String> {
    let (name, _) = ORDERS.iter().find(|(_, own)| *own == order)?;
    (order != ByteOrder::default()).then(|| format!("{ORDER} {name}"))
}

fn layout(layout: &Layout) -> [String; 5] {
    let Layout {
        addr_algorithm,
        addr_base,
        base_addr_pin,
        addr_pins,
        data_algorithm,
        data_base,
        base_data_pin,
        dma_algorithm,
        bit_mode,
        cs_algorithm,
        cs_base,
        first_cs_pin,
    } = layout;
    [
        format!(
            "address algorithm {addr_algorithm} base {addr_base} pin {base_addr_pin} \
             pins {addr_pins}"
        ),
        format!("data algorithm {data_algorithm} base {data_base} pin {base_data_pin}"),
        format!("dma {dma_algorithm}"),
        format!("bit-mode {bit_mode}"),
        format!("select algorithm {cs_algorithm} base {cs_base} pin {first_cs_pin}"),
    ]
}

fn forced(byte: u8) -> String {
    let named = OVERRIDES.iter().find(|(_, kind)| *kind == byte & !GPIO);
    // The table has all four.
    let name = named.map_or("", |(name, _)| name);
    format!("override gpio {} {name}", byte & GPIO)
}

fn candidates(name: &str, candidates: Candidates) -> Option<String> {
    match candidates {
        Candidates::Absent => None,
        Candidates::One(one) => Some(format!("{name} gpio {one}")),
        Candidates::Two(one, two) => Some(format!("{name} gpio {one} {two}")),
    }
}

fn rom(rom: &Rom) -> Vec<String> {
    let mut lines = vec![format!("rom size {}", rom.size)];
    if let Some(map) = &rom.map {
        lines.push(format!("address {}", gpios(&map.address)));
        lines.push(format!("data {}", gpios(&map.data)));
    }
    lines
}

/// All that stands before the last run of 255.
fn gpios(list: &[u8; MOST_LINES]) -> String {
    let last = list.iter().rposition(|&gpio| gpio != GPIO_NONE);
    match last {
        Some(last) => {
            let words: Vec<String> = list[..=last].iter().map(u8::to_string).collect();
            words.join(" ")
        }
        None => NO_NUMBERS.into(),
    }
}
