//! What a refusal's number and place leave open, by a look at what was asked for: which GPIOs no
//! window holds, which line is off the socket, how many bytes were expected.

use onerom::description::{Candidates, Chip, Description, Kind, SetType, Setting};
use onerom::interface::refusals::{
    INVALID_CONFIG, NO_VALID_LAYOUT, ROM_TABLE_TOO_LARGE, SHORT_IMAGE_DATA,
};
use onerom::layout::cs_data::Role;
use onerom::{Call, Refusal, derive_addr_layout};
use onerom_bench::show::setting;

use crate::ending::Fault;

/// The GPIOs that a PIO can read: 32 from either base.
const WINDOWS: [(u8, u8); 2] = [(0, 31), (16, 47)];

/// The fewest GPIOs that the address PIO reads, and the last GPIO.
const FEWEST: u8 = 8;
const LAST_GPIO: u8 = 47;

/// A refusal of a call on a slot, with what there is to say of it.
pub fn hinted(slot: &Description, images: &[Option<&[u8]>], refusal: Refusal) -> Fault {
    match hint(slot, images, &refusal) {
        Some(hint) => Fault::Hinted(refusal, hint),
        None => Fault::Refused(refusal),
    }
}

fn hint(slot: &Description, images: &[Option<&[u8]>], refusal: &Refusal) -> Option<String> {
    let chip = slot.chips.first()?;
    match (refusal.call, refusal.number) {
        (Call::Address, NO_VALID_LAYOUT) => Some(no_address_layout(slot, chip)),
        (Call::Select, NO_VALID_LAYOUT) => no_select_layout(slot, chip),
        (Call::Build, SHORT_IMAGE_DATA) => {
            let number = refusal.place as usize;
            let size = slot.chips.get(number)?.size;
            let length = images.get(number).copied().flatten()?.len();
            Some(format!("its size is {size}, and there are {length} bytes"))
        }
        (Call::Build, ROM_TABLE_TOO_LARGE) => {
            let bytes = derive_addr_layout(slot)
                .ok()?
                .table_bytes(slot.word_bytes)?;
            let limit = slot.largest_table;
            Some(format!("it has {bytes} bytes, and the limit is {limit}"))
        }
        (Call::Build, INVALID_CONFIG) => {
            let taken = match slot.set_type {
                SetType::Single => "Single takes 1",
                SetType::Banked => "Banked takes 2 to 4",
                SetType::Multi => "Multi takes 2 or 3",
            };
            Some(format!("{taken}, and there are {}", slot.chips.len()))
        }
        _ => None,
    }
}

/// A line that a search gives a GPIO.
struct Line {
    name: String,
    gpios: Vec<u8>,
}

impl Line {
    fn of(name: impl Into<String>, candidates: Candidates) -> Self {
        let name = name.into();
        let gpios = candidates.gpios().collect();
        Self { name, gpios }
    }

    fn is_within(&self, (from, to): (u8, u8)) -> bool {
        let within = |gpio: &u8| (from..=to).contains(gpio);
        self.gpios.is_empty() || self.gpios.iter().any(within)
    }

    fn words(&self) -> String {
        let gpios: Vec<String> = self.gpios.iter().map(u8::to_string).collect();
        format!("{} on GPIO {}", self.name, gpios.join(" or "))
    }
}

/// The candidates of a chip's pin; none off the socket.
fn under(slot: &Description, chip_pin: u8) -> Option<Candidates> {
    let pin = i16::from(chip_pin) + i16::from(slot.pin_offset);
    let is_there = (1..=i16::from(slot.board_pins)).contains(&pin);
    let place = usize::try_from(pin - 1).ok().filter(|_| is_there)?;
    slot.socket.get(place).copied()
}

/// The chip's address lines by number and pin. In 16-bit mode the first pin is none.
fn address_lines<'a>(slot: &Description, chip: &'a Chip) -> impl Iterator<Item = (usize, u8)> + 'a {
    let skipped = usize::from(slot.word_bytes == 2);
    chip.address_pins.iter().copied().skip(skipped).enumerate()
}

fn no_address_layout(slot: &Description, chip: &Chip) -> String {
    let off: Vec<String> = address_lines(slot, chip)
        .filter(|&(_, pin)| under(slot, pin).is_none())
        .map(|(line, pin)| format!("A{line} (chip pin {pin})"))
        .collect();
    let served = if slot.set_type == SetType::Single {
        2
    } else {
        0
    };
    if off.len() > served {
        let pins = slot.board_pins;
        return format!(
            "off the socket of {pins} pins: {}; X1 and X2 serve such lines, two at most and in \
             Single alone",
            off.join(", ")
        );
    }
    let lines = spanned(slot, chip);
    no_window(&lines).unwrap_or_else(|| {
        format!("a PIO reads {FEWEST} GPIOs or more from the lowest on, and they end past GPIO {LAST_GPIO}")
    })
}

/// The lines that the table's index spans.
fn spanned(slot: &Description, chip: &Chip) -> Vec<Line> {
    let (mut lines, _) = address_candidates(slot, chip);
    lines.extend(picking_pins(slot));
    let first = |mut line: Line| {
        if line.gpios.len() > 1 {
            line.name += ", of which only the first candidate counts here,";
            line.gpios.truncate(1);
        }
        line
    };
    let multi = slot.multi.iter();
    let multi = multi.filter(|_| slot.set_type == SetType::Multi);
    let kinds = multi.flat_map(|multi| [&[multi.select], &multi.commoned[..]].concat());
    lines.extend(kinds.filter_map(|kind| control_line(slot, chip, kind).map(first)));
    lines
}

/// The address lines in range, then the excess ones. A line off the socket takes X1, the next X2.
fn address_candidates(slot: &Description, chip: &Chip) -> (Vec<Line>, Vec<Line>) {
    let words = slot.largest_table / u32::from(slot.word_bytes.max(1));
    let in_range = words.max(1).ilog2() as usize;
    let mut x = (1..).zip(slot.x);
    let mut lines: Vec<Line> = address_lines(slot, chip)
        .map(|(line, pin)| match under(slot, pin) {
            Some(candidates) => Line::of(format!("A{line}"), candidates),
            None => {
                let (number, candidates) = x.next().unwrap_or_default();
                Line::of(format!("A{line} by X{number}"), candidates)
            }
        })
        .collect();
    let excess = lines.split_off(in_range.min(lines.len()));
    (lines, excess)
}

/// X1 and X2 where they pick a bank or a chip.
fn picking_pins(slot: &Description) -> impl Iterator<Item = Line> {
    let count = match (slot.set_type, slot.chips.len()) {
        (SetType::Single, _) => 0,
        (_, ..3) => 1,
        (_, 3..) => 2,
    };
    let x = (1..).zip(slot.x).take(count);
    x.map(|(number, own)| Line::of(format!("X{number}"), own))
}

/// A control line of the chip; none if the chip has it not, or off the socket.
fn control_line(slot: &Description, chip: &Chip, kind: Kind) -> Option<Line> {
    let &(_, pin) = chip.control.iter().find(|line| line.0 == kind)?;
    Some(Line::of(name(kind), under(slot, pin)?))
}

/// Kinds and roles have the same numbers up to cs4.
fn name(kind: Kind) -> String {
    Role::of(kind as u8).to_string()
}

/// For each window a line that is outside; none if one window has a GPIO for every line.
fn no_window(lines: &[Line]) -> Option<String> {
    let outside = WINDOWS.map(|window| {
        let line = lines.iter().find(|line| !line.is_within(window))?;
        Some(format!(
            "{} is outside GPIOs {} to {}",
            line.words(),
            window.0,
            window.1
        ))
    });
    let [Some(one), Some(other)] = outside else {
        return None;
    };
    Some(format!("{one}, {other}"))
}

fn no_select_layout(slot: &Description, chip: &Chip) -> Option<String> {
    let data = (0..).zip(&chip.data_pins);
    let line = |(number, &pin): (usize, &u8)| {
        let candidates = under(slot, pin)?;
        Some(Line::of(format!("D{number}"), candidates))
    };
    let mut lines: Vec<Line> = data.filter_map(line).collect();
    if !is_gapless_somehow(&lines) {
        let words: Vec<String> = lines.iter().map(Line::words).collect();
        return Some(format!("the data lines leave a gap: {}", words.join(", ")));
    }
    lines.extend(selects(slot, chip));
    no_window(&lines)
}

/// The lines that stand beside the data: selects, commoned and excess lines.
fn selects(slot: &Description, chip: &Chip) -> Vec<Line> {
    let kinds = match &slot.multi {
        Some(multi) if slot.set_type == SetType::Multi => {
            [&[multi.select], &multi.commoned[..]].concat()
        }
        _ => {
            let kinds = chip.control.iter().map(|line| line.0);
            let is_select = |kind: &Kind| {
                let setting = setting(&slot.settings, Role::of(*kind as u8));
                *kind != Kind::Other && setting != Some(Setting::Ignored)
            };
            kinds.filter(is_select).collect()
        }
    };
    let kinds = kinds.into_iter();
    let mut lines: Vec<Line> = kinds
        .filter_map(|kind| control_line(slot, chip, kind))
        .collect();
    if slot.set_type == SetType::Multi {
        // One chip needs none of them here, though the address search reads X1.
        let others = slot.chips.len().saturating_sub(1);
        lines.extend(picking_pins(slot).take(others));
    }
    lines.extend(address_candidates(slot, chip).1);
    lines
}

/// Whether some choice of candidates takes GPIOs without a gap between them.
fn is_gapless_somehow(lines: &[Line]) -> bool {
    let with = |sets: Vec<u64>, line: &Line| {
        let mut more: Vec<u64> = (sets.iter())
            .flat_map(|set| line.gpios.iter().map(move |gpio| set | 1 << gpio))
            .collect();
        more.sort_unstable();
        more.dedup();
        more
    };
    let sets = lines.iter().fold(vec![0], with);
    let is_gapless = |set: &u64| {
        let low = set >> set.trailing_zeros().min(63);
        low & (low + 1) == 0
    };
    sets.iter().any(is_gapless)
}
