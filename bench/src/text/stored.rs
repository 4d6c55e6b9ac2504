//! A stored slot that grows line by line.

use super::facts::{Draft, ORDER, Told, add_part, missing};
use super::words::{NO_NUMBERS, OVERRIDES, SLOT_KINDS, Words};
use super::{Ordered, TextError};
use onerom::ByteOrder;
use onerom::description::Candidates;
use onerom::interface::values::GPIO_NONE;
use onerom::slot::{Layout, MOST_LINES, MOST_OVERRIDES, Map, Rom, SlotKind, StoredSlot};

const LINES: &str =
    "slot, size, order, address, data, dma, bit-mode, select, override, x1, x2 or rom";

/// The word by which a layout's line is told from a ROM's.
const ALGORITHM: &str = "algorithm";

/// The facts of a layout: all of them are told, or none.
const LAYOUT: [&str; 5] = [
    "address algorithm",
    "data algorithm",
    "dma",
    "bit-mode",
    "select",
];

/// The GPIOs of some lines, ended by 255.
type List = [u8; MOST_LINES];

#[derive(Clone)]
struct RomDraft {
    size: u32,
    address: Option<List>,
    data: Option<List>,
}

#[derive(Default)]
pub struct StoredDraft {
    told: Told,
    kind: Option<SlotKind>,
    size: Option<u32>,
    order: Option<ByteOrder>,
    layout: Layout,
    overrides: Vec<u8>,
    x: [Candidates; 2],
    roms: Vec<RomDraft>,
    /// The line on which each ROM begins.
    rom_lines: Vec<usize>,
}

impl Draft for StoredDraft {
    type Whole = Ordered<StoredSlot>;

    fn line(&mut self, head: &str, words: &mut Words) -> Result<(), TextError> {
        if self.kind.is_none() && head != "slot" {
            return Err(words.expected("`slot`", Some(head)));
        }
        match head {
            "rom" => return self.rom(words),
            "override" => return self.forced(words),
            "address" | "data" if !words.is_next(ALGORITHM) => return self.map(head, words),
            "address" | "data" => self.told.once(format!("{head} {ALGORITHM}"), words)?,
            _ => self.told.once(head.into(), words)?,
        }
        match head {
            "slot" => self.kind = Some(kind(words)?),
            "size" => self.size = Some(words.number("bytes", 0..=u32::MAX.into())? as u32),
            ORDER => self.order = Some(words.byte_order()?),
            "x1" => self.x[0] = words.candidates()?,
            "x2" => self.x[1] = words.candidates()?,
            "address" | "data" | "dma" | "bit-mode" | "select" => self.layout(head, words)?,
            _ => return Err(words.expected(LINES, Some(head))),
        }
        Ok(())
    }

    fn finished(self, last: usize) -> Result<Ordered<StoredSlot>, TextError> {
        let Some(kind) = self.kind else {
            return missing(last, "a `slot` line");
        };
        let Some(size) = self.size else {
            return missing(last, "a `size` line");
        };
        let roms = self.roms.iter().zip(&self.rom_lines);
        let slot = StoredSlot {
            size,
            kind,
            layout: self.whole_layout(last)?,
            roms: roms.map(whole_rom).collect::<Result<_, _>>()?,
            overrides: self.overrides,
            x: self.x,
        };
        let order = self.told.named_order(self.order);
        Ok(Ordered { slot, order })
    }
}

impl StoredDraft {
    /// The numbers of a layout's line.
    fn layout(&mut self, head: &str, words: &mut Words) -> Result<(), TextError> {
        let layout = &mut self.layout;
        match head {
            "address" => {
                layout.addr_algorithm = named(words, ALGORITHM)?;
                layout.addr_base = named(words, "base")?;
                layout.base_addr_pin = named(words, "pin")?;
                layout.addr_pins = named(words, "pins")?;
            }
            "data" => {
                layout.data_algorithm = named(words, ALGORITHM)?;
                layout.data_base = named(words, "base")?;
                layout.base_data_pin = named(words, "pin")?;
            }
            "dma" => layout.dma_algorithm = any_byte(words)?,
            "bit-mode" => layout.bit_mode = any_byte(words)?,
            _ => {
                layout.cs_algorithm = named(words, ALGORITHM)?;
                layout.cs_base = named(words, "base")?;
                layout.first_cs_pin = named(words, "pin")?;
            }
        }
        Ok(())
    }

    fn whole_layout(&self, last: usize) -> Result<Option<Layout>, TextError> {
        let untold = LAYOUT.iter().filter(|fact| self.told.place(fact).is_none());
        let untold: Vec<&&str> = untold.collect();
        match untold[..] {
            [] => Ok(Some(self.layout)),
            [first, ..] if untold.len() < LAYOUT.len() => {
                missing(last, &format!("the line `{first}` of the layout"))
            }
            _ => Ok(None),
        }
    }

    fn forced(&mut self, words: &mut Words) -> Result<(), TextError> {
        if self.overrides.len() == MOST_OVERRIDES {
            return Err(words.error(format!("expected at most {MOST_OVERRIDES} overrides")));
        }
        words.word("gpio")?;
        let gpio = words.byte("a GPIO", 0..=63)?;
        let kind = words.one_of("an override", &OVERRIDES)?;
        self.overrides.push(kind | gpio);
        Ok(())
    }

    fn rom(&mut self, words: &mut Words) -> Result<(), TextError> {
        let of_size = |size: u32| RomDraft {
            size,
            address: None,
            data: None,
        };
        add_part(&mut self.roms, "rom", words, of_size)?;
        self.rom_lines.push(words.line);
        Ok(())
    }

    /// The GPIOs of the last ROM's lines.
    fn map(&mut self, head: &str, words: &mut Words) -> Result<(), TextError> {
        let Some(last) = self.roms.len().checked_sub(1) else {
            return Err(words.error(format!(
                "expected `{ALGORITHM}` or a `rom` line before `{head}`"
            )));
        };
        self.told.once(format!("{head} of rom {last}"), words)?;
        let rom = &mut self.roms[last];
        let list = match head {
            "address" => &mut rom.address,
            _ => &mut rom.data,
        };
        *list = Some(gpios(words)?);
        Ok(())
    }
}

fn whole_rom((rom, &line): (&RomDraft, &usize)) -> Result<Rom, TextError> {
    let map = match (rom.address, rom.data) {
        (Some(address), Some(data)) => Some(Map { address, data }),
        (None, None) => None,
        (None, _) => return missing(line, "an `address` line of this rom"),
        (_, None) => return missing(line, "a `data` line of this rom"),
    };
    Ok(Rom {
        size: rom.size,
        map,
    })
}

/// A kind by its name or, as for one that has none, by its number.
fn kind(words: &mut Words) -> Result<SlotKind, TextError> {
    if words.is_number() {
        return any_byte(words).map(SlotKind::of);
    }
    words.one_of("a number or a slot kind", &SLOT_KINDS)
}

fn any_byte(words: &mut Words) -> Result<u8, TextError> {
    words.byte("a number", 0..=u8::MAX)
}

fn named(words: &mut Words, name: &str) -> Result<u8, TextError> {
    words.word(name)?;
    any_byte(words)
}

/// A list is any bytes: what stands behind a 255 goes to the library too.
fn gpios(words: &mut Words) -> Result<List, TextError> {
    let mut list = [GPIO_NONE; MOST_LINES];
    if !words.takes(NO_NUMBERS) {
        let told = words.bytes("a GPIO", 0..=u8::MAX, MOST_LINES)?;
        list[..told.len()].copy_from_slice(&told);
    }
    Ok(list)
}
