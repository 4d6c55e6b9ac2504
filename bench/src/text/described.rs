//! A description that grows line by line.

use super::facts::{Draft, ORDER, Told, add_part, missing, wrong};
use super::included::Place;
use super::words::{KINDS, Words};
use super::{Ordered, TextError};
use onerom::ByteOrder;
use onerom::description::{
    Candidates, Chip, Description, Kind, Multi, Package, SOCKET_PINS, SetType, Setting, Settings,
};

const LINES: &str = "socket, package, pin, x1, x2, set, word, order, offset, limit, chip, address, data, \
    control, settings, qualifiers, multi or include";

/// The original's largest table.
const USUAL_LIMIT: u32 = 512 * 1024;

const SET_TYPES: [(&str, SetType); 3] = [
    ("single", SetType::Single),
    ("banked", SetType::Banked),
    ("multi", SetType::Multi),
];

#[derive(Clone, Copy)]
enum Form {
    ChipSelects,
    CeOe,
    Explicit,
}

const FORMS: [(&str, Form); 3] = [
    ("ce-oe", Form::CeOe),
    ("explicit", Form::Explicit),
    ("chip-select", Form::ChipSelects),
];

/// How many kinds of lines a Multi set can name: all but the other lines. A list has no more.
const NAMED: usize = 6;

/// The packages of the RP2350.
const PACKAGES: [(&str, Package); 2] = [("a", Package::A), ("b", Package::B)];

/// The fact that a line with one of them tells.
const RP2350: &str = "package of the RP2350";

/// Pins that a socket or a chip's package has.
const PIN_COUNTS: [(&str, u8); 4] = [("24", 24), ("28", 28), ("32", 32), ("40", 40)];

/// What a chip's `package` line has.
const CHIP_PACKAGE: &str = "the package's pins";

/// The highest pin of any package.
const HIGHEST_PIN: u8 = 40;

pub struct DescriptionDraft {
    pub slot: Description,
    /// The byte order of the chips' files, where it is told.
    pub order: Option<ByteOrder>,
    pub told: Told,
    /// Pins of each chip's own package, where they are told.
    pub packages: Vec<Option<u8>>,
    /// The line on which each chip begins.
    pub chip_lines: Vec<Place>,
}

impl Default for DescriptionDraft {
    fn default() -> Self {
        let slot = Description {
            board_pins: 0,
            package: Package::B,
            set_type: SetType::Single,
            word_bytes: 1,
            pin_offset: 0,
            largest_table: USUAL_LIMIT,
            settings: Settings::CeOe,
            multi: None,
            qualifiers: Vec::new(),
            socket: [Candidates::Absent; SOCKET_PINS],
            x: [Candidates::Absent; 2],
            chips: Vec::new(),
        };
        Self {
            slot,
            order: None,
            told: Told::default(),
            packages: Vec::new(),
            chip_lines: Vec::new(),
        }
    }
}

impl Draft for DescriptionDraft {
    type Whole = Ordered<Description>;

    fn line(&mut self, head: &str, words: &mut Words) -> Result<(), TextError> {
        match head {
            "pin" => return self.pin(words),
            "chip" => return self.chip(words),
            "package" => return self.either_package(words),
            "address" | "data" | "control" => return self.chip_pins(head, words),
            "word" | "settings" | ORDER => return self.shared(head, words),
            _ => {}
        }
        self.told.once(head.into(), words)?;
        let slot = &mut self.slot;
        match head {
            "socket" => slot.board_pins = words.one_of("the socket's pins", &PIN_COUNTS)?,
            "x1" => slot.x[0] = words.candidates()?,
            "x2" => slot.x[1] = words.candidates()?,
            "set" => slot.set_type = words.one_of("a set type", &SET_TYPES)?,
            "offset" => slot.pin_offset = words.number("an offset", -4..=4)? as i8,
            "limit" => slot.largest_table = words.number("bytes", 256..=1 << 20)? as u32,
            "qualifiers" => slot.qualifiers = words.bytes("an address line", 0..=23, 8)?,
            "multi" => slot.multi = Some(multi(words)?),
            _ => return Err(words.expected(LINES, Some(head))),
        }
        Ok(())
    }

    fn finished(mut self, last: usize) -> Result<Ordered<Description>, TextError> {
        self.whole_socket(last)?;
        self.within_package()?;
        self.whole_chips(last)?;
        let slot = &self.slot;
        if slot.set_type == SetType::Multi && slot.multi.is_none() {
            let set = self.told.place("set");
            return missing(
                set.unwrap_or_else(|| last.into()),
                "a `multi` line for this set",
            );
        }
        self.slot.pin_offset = self.offset()?;
        Ok(Ordered {
            order: self.told.named_order(self.order),
            slot: self.slot,
        })
    }
}

/// Socket pin less chip pin where a package sits at the bottom of a socket, or hangs over both ends
/// of a smaller one. With 40 pins only 40 go: the power is elsewhere there.
pub fn seat(socket: u8, package: u8) -> Option<i8> {
    let mixed = (socket == 40) != (package == 40);
    let difference = i16::from(socket) - i16::from(package);
    (!mixed).then_some((difference / 2) as i8)
}

impl DescriptionDraft {
    /// Tells what is wrong with the socket.
    pub fn whole_socket(&self, last: usize) -> Result<(), TextError> {
        let pins = self.slot.board_pins;
        if pins == 0 {
            return missing(last, "a `socket` line");
        }
        for pin in pins + 1..=SOCKET_PINS as u8 {
            if let Some(place) = self.told.place(&format!("pin {pin}")) {
                let what = format!("expected a pin of the socket, 1 to {pins}, found `{pin}`");
                return wrong(place, what);
            }
        }
        Ok(())
    }

    /// Tells of a candidate that the package of the RP2350 has not.
    pub fn within_package(&self) -> Result<(), TextError> {
        let package = self.slot.package;
        let socket = (1..).zip(self.slot.socket);
        let socket = socket.map(|(pin, own): (u8, _)| (format!("pin {pin}"), own));
        let x = (1..).zip(self.slot.x);
        let x = x.map(|(number, own): (u8, _)| (format!("x{number}"), own));
        for (fact, candidates) in socket.chain(x) {
            let past = candidates.gpios().find(|&gpio| gpio > package.last_gpio());
            if let (Some(gpio), Some(place)) = (past, self.told.place(&fact)) {
                let what = self.past_package(gpio, &place);
                return wrong(place, what);
            }
        }
        Ok(())
    }

    /// What is said of a GPIO past the package, on this line.
    fn past_package(&self, gpio: u8, place: &Place) -> String {
        let package = self.slot.package;
        let own = PACKAGES.iter().find(|(_, own)| *own == package);
        let name = own.map_or("", |(name, _)| *name);
        let told = self.told.place(RP2350);
        let told = told.map_or(String::new(), |told| {
            format!(
                "; `package {name}` stands on {}",
                told.seen_from(&place.part)
            )
        });
        let last = package.last_gpio();
        format!("expected a GPIO of the {package}, 0 to {last}, found `{gpio}`{told}")
    }

    /// Tells what is missing of the chips, or wrong with one.
    pub fn whole_chips(&self, last: usize) -> Result<(), TextError> {
        let chips = &self.slot.chips;
        if chips.is_empty() {
            return missing(last, "a `chip` line");
        }
        for (chip, place) in chips.iter().zip(&self.chip_lines) {
            if chip.address_pins.is_empty() {
                return missing(place.clone(), "an `address` line of this chip");
            }
            if chip.data_pins.is_empty() {
                return missing(place.clone(), "a `data` line of this chip");
            }
            let slip = slip(chip, self.slot.word_bytes);
            slip.map_or(Ok(()), |what| wrong(place.clone(), what))?;
        }
        Ok(())
    }

    /// The offset that is told, else the one of the first chip's package, else none.
    fn offset(&self) -> Result<i8, TextError> {
        let package = self.packages.first().copied().flatten();
        let place = self.told.place("package of chip 0");
        let (None, Some(package), Some(place)) = (self.told.place("offset"), package, place) else {
            return Ok(self.slot.pin_offset);
        };
        let socket = self.slot.board_pins;
        seat(socket, package).map_or_else(
            || {
                let what = format!(
                    "an `offset` line, since {package} pins have no place of their own in a \
                     socket of {socket}"
                );
                missing(place, &what)
            },
            Ok,
        )
    }

    /// A fact that each chip's file has: the chips of a set share it.
    fn shared(&mut self, head: &str, words: &mut Words) -> Result<(), TextError> {
        let elsewhere = self.told.elsewhere(head, words)?;
        let slot = &mut self.slot;
        let before = (slot.word_bytes, slot.settings, self.order);
        match head {
            "word" => slot.word_bytes = words.byte("bytes in a word", 1..=2)?,
            ORDER => self.order = Some(words.byte_order()?),
            _ => slot.settings = settings(words)?,
        }
        match elsewhere {
            Some(place) if (slot.word_bytes, slot.settings, self.order) != before => {
                let place = place.seen_from(&words.part);
                Err(words.error(format!(
                    "expected `{head}` as on {place}: the chips of a set share it"
                )))
            }
            _ => Ok(()),
        }
    }

    /// A number has the pins of the last chip's package, a letter is the RP2350's.
    fn either_package(&mut self, words: &mut Words) -> Result<(), TextError> {
        if words.is_number() {
            return self.chip_pins("package", words);
        }
        let names: Vec<&str> = PIN_COUNTS.iter().map(|(name, _)| *name).collect();
        let pins = format!("the pins of a chip's package ({})", names.join(", "));
        self.board_package(&format!("{pins} or the RP2350's package"), words)
    }

    /// The package of the RP2350; what was expected is said of any other word.
    pub fn board_package(&mut self, what: &str, words: &mut Words) -> Result<(), TextError> {
        self.told.once(RP2350.into(), words)?;
        self.slot.package = words.one_of(what, &PACKAGES)?;
        Ok(())
    }

    /// The pins of the last chip's package; any other word is told, ahead of a missing `chip` line.
    pub fn chip_package(&mut self, words: &mut Words) -> Result<(), TextError> {
        if words.is_number() {
            return self.chip_pins("package", words);
        }
        words.one_of(CHIP_PACKAGE, &PIN_COUNTS).map(drop)
    }

    fn pin(&mut self, words: &mut Words) -> Result<(), TextError> {
        let pin = words.byte("a socket pin", 1..=SOCKET_PINS as u8)?;
        self.told.once(format!("pin {pin}"), words)?;
        self.slot.socket[usize::from(pin) - 1] = words.candidates()?;
        Ok(())
    }

    fn chip(&mut self, words: &mut Words) -> Result<(), TextError> {
        let of_size = |size: u32| Chip {
            size,
            ..Chip::default()
        };
        let before = self.packages.last().copied().flatten();
        self.packages
            .push(before.filter(|_| words.is_next("again")));
        add_part(&mut self.slot.chips, "chip", words, of_size)?;
        self.chip_lines.push(words.place());
        Ok(())
    }

    /// The pins of the last chip, and how many its package has.
    fn chip_pins(&mut self, head: &str, words: &mut Words) -> Result<(), TextError> {
        let Some(last) = self.slot.chips.len().checked_sub(1) else {
            return Err(words.error(format!("expected a `chip` line before `{head}`")));
        };
        if head != "control" {
            self.told.once(format!("{head} of chip {last}"), words)?;
        }
        let highest = self.packages[last].unwrap_or(HIGHEST_PIN);
        let chip = &mut self.slot.chips[last];
        match head {
            "package" => self.packages[last] = Some(package(chip, words)?),
            "address" => chip.address_pins = words.bytes("a chip pin", 1..=highest, 24)?,
            "data" => chip.data_pins = words.bytes("a chip pin", 1..=highest, 16)?,
            _ if chip.control.len() == 8 => {
                return Err(words.error("expected at most 8 control lines on a chip"));
            }
            _ => {
                let kind = words.one_of("a control line", &KINDS)?;
                let is_there = chip.control.iter().any(|line| line.0 == kind);
                if is_there && kind != Kind::Other {
                    return Err(words.error("expected another control line, this one is told"));
                }
                let pin = words.byte("a chip pin", 1..=highest)?;
                chip.control.push((kind, pin));
            }
        }
        Ok(())
    }
}

/// What no chip can be: of no bytes or of half a word, or with two lines on one pin.
fn slip(chip: &Chip, word_bytes: u8) -> Option<String> {
    let (size, word) = (chip.size, u32::from(word_bytes));
    if size == 0 || !size.is_multiple_of(word) {
        return Some(format!(
            "expected a chip of whole words, found {size} bytes with {word} in a word"
        ));
    }
    // In 16-bit mode the first address pin is no line: it can be that of the last data line.
    let address = (0..).zip(chip.address_pins.iter().skip(usize::from(word_bytes) - 1));
    let address = address.map(|(line, &pin): (usize, _)| (format!("A{line}"), pin));
    let data = (0..).zip(&chip.data_pins);
    let data = data.map(|(line, &pin): (usize, _)| (format!("D{line}"), pin));
    let named = |kind: Kind| {
        let own = KINDS.iter().find(|(_, own)| *own == kind);
        own.map_or("", |(name, _)| *name).to_string()
    };
    let control = chip.control.iter().map(|&(kind, pin)| (named(kind), pin));
    let lines: Vec<(String, u8)> = address.chain(data).chain(control).collect();
    lines.iter().enumerate().find_map(|(place, (name, pin))| {
        let (other, _) = lines[..place].iter().find(|(_, own)| own == pin)?;
        Some(format!(
            "expected each line on a pin of its own, found {other} and {name} on chip pin {pin}"
        ))
    })
}

/// The pins of a package: no line that was told before lies above them.
fn package(chip: &Chip, words: &mut Words) -> Result<u8, TextError> {
    let pins = words.one_of(CHIP_PACKAGE, &PIN_COUNTS)?;
    let lines = chip.address_pins.iter().chain(&chip.data_pins);
    let highest = lines.chain(chip.control.iter().map(|(_, pin)| pin)).max();
    match highest {
        Some(&pin) if pin > pins => Err(words.error(format!(
            "expected a package with pin {pin}, which a line of the chip is on, found `{pins}`"
        ))),
        _ => Ok(pins),
    }
}

fn settings(words: &mut Words) -> Result<Settings, TextError> {
    let named = |words: &mut Words, name: &str| -> Result<Setting, TextError> {
        words.word(name)?;
        words.setting()
    };
    Ok(match words.one_of("a form of settings", &FORMS)? {
        Form::CeOe => Settings::CeOe,
        Form::Explicit => Settings::Explicit {
            ce: named(words, "ce")?,
            oe: named(words, "oe")?,
        },
        Form::ChipSelects => {
            let cs1 = named(words, "cs1")?;
            let mut others = [None; 3];
            for (other, name) in others.iter_mut().zip(["cs2", "cs3", "cs4"]) {
                if words.takes(name) {
                    *other = Some(words.setting()?);
                }
            }
            Settings::ChipSelects { cs1, others }
        }
    })
}

fn multi(words: &mut Words) -> Result<Multi, TextError> {
    words.word("select")?;
    let select = named_kind(words)?;
    let mut lists = [Vec::new(), Vec::new()];
    for (list, name) in lists.iter_mut().zip(["commoned", "ignored"]) {
        if words.takes(name) {
            *list = named_kinds(words)?;
        }
    }
    let [commoned, ignored] = lists;
    Ok(Multi {
        select,
        commoned,
        ignored,
    })
}

fn named_kind(words: &mut Words) -> Result<Kind, TextError> {
    words.one_of("a control line", &KINDS[..NAMED])
}

/// One kind at least, up to the end or the next list.
fn named_kinds(words: &mut Words) -> Result<Vec<Kind>, TextError> {
    let mut kinds = vec![named_kind(words)?];
    while !words.is_empty() && !words.is_next("ignored") {
        kinds.push(named_kind(words)?);
    }
    if kinds.len() > NAMED {
        return Err(words.error(format!("expected at most {NAMED} lines in a list")));
    }
    Ok(kinds)
}
