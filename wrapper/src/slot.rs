//! A slot as it is stored, with the board's X pins, and its record.

use crate::bytes::{count, put};
use crate::description::{Candidates, Chip, Description, MOST_CHIPS, SetType, pair};
use crate::images::LARGEST_CHIP;
use crate::interface::values::{self, GPIO_NONE};
use crate::interface::{stored_rom as rom_at, stored_slot as at};
use crate::layout::addr::AddrLayout;
use crate::layout::cs_data::CsDataLayout;

/// Bytes of the stored slot record.
pub const LENGTH: usize = at::RECORD_SIZE;

/// Where the ROMs begin.
pub const ROMS: usize = at::ROMS.start;

/// Bytes of the record for one ROM.
pub const ROM: usize = rom_at::RECORD_SIZE;

/// How many GPIOs each list of a map has places for.
pub const MOST_LINES: usize = rom_at::ADDRESS.end - rom_at::ADDRESS.start;

/// How many overrides the record has places for.
pub const MOST_OVERRIDES: usize = 64;

/// What a slot holds.
#[derive(Debug, Clone, Copy, PartialEq, Eq)]
pub enum SlotKind {
    /// The table of one ROM.
    SingleRom,
    /// Read as a Single ROM.
    SingleRam,
    /// The table of two to four ROMs.
    Banked,
    /// The table of two or three ROMs.
    Multi,
    /// Bytes that are copied as they are.
    SystemPlugin,
    /// Bytes that are copied as they are.
    UserPlugin,
    /// Bytes that are copied as they are.
    PioPlugin,
    /// A number that no kind has, which is refused.
    Unknown(u8),
}

/// Each kind with its number in the record.
const KINDS: [(SlotKind, u8); 7] = [
    (SlotKind::SingleRom, values::SLOT_SINGLE_ROM),
    (SlotKind::SingleRam, values::SLOT_SINGLE_RAM),
    (SlotKind::Banked, values::SLOT_BANKED),
    (SlotKind::Multi, values::SLOT_MULTI),
    (SlotKind::SystemPlugin, values::SLOT_SYSTEM_PLUGIN),
    (SlotKind::UserPlugin, values::SLOT_USER_PLUGIN),
    (SlotKind::PioPlugin, values::SLOT_PIO_PLUGIN),
];

impl SlotKind {
    /// The kind that has this number in the record.
    pub fn of(number: u8) -> Self {
        let row = KINDS.iter().find(|row| row.1 == number);
        row.map_or(Self::Unknown(number), |row| row.0)
    }

    /// Its number in the record.
    pub fn number(self) -> u8 {
        match self {
            Self::Unknown(number) => number,
            known => (KINDS.iter().find(|row| row.0 == known)).map_or(u8::MAX, |row| row.1),
        }
    }

    /// Whether its bytes are copied as they are, without a table.
    pub fn is_plugin(self) -> bool {
        matches!(
            self,
            Self::SystemPlugin | Self::UserPlugin | Self::PioPlugin
        )
    }
}

impl From<SetType> for SlotKind {
    fn from(set_type: SetType) -> Self {
        match set_type {
            SetType::Single => Self::SingleRom,
            SetType::Banked => Self::Banked,
            SetType::Multi => Self::Multi,
        }
    }
}

/// By which algorithms the slot is served, and on which GPIOs. Any byte goes to the library.
#[derive(Debug, Clone, Copy, PartialEq, Eq, Default)]
pub struct Layout {
    /// 0, or refused.
    pub addr_algorithm: u8,
    /// The address window's base.
    pub addr_base: u8,
    /// The first address pin, counted from that base.
    pub base_addr_pin: u8,
    /// How many GPIOs are read: the bits of the table's index.
    pub addr_pins: u8,
    /// 0 or 1, or refused.
    pub data_algorithm: u8,
    /// The data window's base.
    pub data_base: u8,
    /// The first data pin, counted from that base.
    pub base_data_pin: u8,
    /// 0, or refused.
    pub dma_algorithm: u8,
    /// 0 is 8 bits, 1 is 16.
    pub bit_mode: u8,
    /// Looked at in Multi only: 0, or refused.
    pub cs_algorithm: u8,
    /// The select window's base.
    pub cs_base: u8,
    /// The pin of the first ROM's select, counted from that base.
    pub first_cs_pin: u8,
}

impl Layout {
    fn put(&self, record: &mut [u8; LENGTH]) {
        record[at::LAYOUT_GIVEN] = 1;
        record[at::ADDR_ALGORITHM] = self.addr_algorithm;
        record[at::ADDR_BASE] = self.addr_base;
        record[at::BASE_ADDR_PIN] = self.base_addr_pin;
        record[at::ADDR_PINS] = self.addr_pins;
        record[at::DATA_ALGORITHM] = self.data_algorithm;
        record[at::DATA_BASE] = self.data_base;
        record[at::BASE_DATA_PIN] = self.base_data_pin;
        record[at::DMA_ALGORITHM] = self.dma_algorithm;
        record[at::BIT_MODE] = self.bit_mode;
        record[at::CS_ALGORITHM] = self.cs_algorithm;
        record[at::CS_BASE] = self.cs_base;
        record[at::FIRST_CS_PIN] = self.first_cs_pin;
    }
}

/// GPIOs of a ROM's lines, lowest line first, each list ended by 255.
#[derive(Debug, Clone, Copy, PartialEq, Eq)]
pub struct Map {
    /// Those of the address lines in use.
    pub address: [u8; MOST_LINES],
    /// Those of the data lines.
    pub data: [u8; MOST_LINES],
}

impl Map {
    /// None if a list has more GPIOs than there are places.
    pub fn of(address: &[u8], data: &[u8]) -> Option<Self> {
        Some(Self {
            address: ended(address)?,
            data: ended(data)?,
        })
    }
}

fn ended(gpios: &[u8]) -> Option<[u8; MOST_LINES]> {
    let mut list = [GPIO_NONE; MOST_LINES];
    put(&mut list, gpios.iter().copied());
    (gpios.len() <= MOST_LINES).then_some(list)
}

/// A ROM of a slot.
#[derive(Debug, Clone, Copy, PartialEq, Eq)]
pub struct Rom {
    /// In bytes.
    pub size: u32,
    /// Which GPIOs serve its lines; a ROM without it is refused.
    pub map: Option<Map>,
}

/// How many words of a ROM of this size so many address lines reach; none of words without bytes.
pub fn words(size: u32, word_bytes: usize, lines: usize) -> usize {
    let lines = u32::try_from(lines).unwrap_or(u32::MAX);
    let reach = 1usize.checked_shl(lines).unwrap_or(usize::MAX);
    let has = (size as usize).checked_div(word_bytes).unwrap_or(0);
    reach.min(has)
}

impl Rom {
    /// How many words it reads back as: none without a map, or larger than any chip, since it is
    /// refused then.
    fn words(&self, word_bytes: usize) -> usize {
        let Some(map) = self.map.filter(|_| self.size as usize <= LARGEST_CHIP) else {
            return 0;
        };
        let lines = (map.address.iter()).take_while(|&&gpio| gpio != GPIO_NONE);
        words(self.size, word_bytes, lines.count())
    }

    fn bytes(&self) -> [u8; ROM] {
        let mut bytes = [0; ROM];
        put(&mut bytes[rom_at::BYTES], self.size.to_le_bytes());
        if let Some(map) = self.map {
            bytes[rom_at::MAP_GIVEN] = 1;
            put(&mut bytes[rom_at::ADDRESS], map.address);
            put(&mut bytes[rom_at::DATA], map.data);
        }
        bytes
    }
}

/// A slot as it is stored, with the board's X pins.
#[derive(Debug, Clone, PartialEq, Eq)]
pub struct StoredSlot {
    /// Declared size in bytes.
    pub size: u32,
    /// What the slot holds.
    pub kind: SlotKind,
    /// How the table is laid out; only a plugin goes without.
    pub layout: Option<Layout>,
    /// GPIO in the low six bits; in the top two 0 as it is, 1 inverted, 2 forced low, 3 forced
    /// high.
    pub overrides: Vec<u8>,
    /// X1 and X2.
    pub x: [Candidates; 2],
    /// Four at most.
    pub roms: Vec<Rom>,
}

impl StoredSlot {
    /// The slot that stores the table of a description, built by the layouts found for it.
    pub fn of_layouts(slot: &Description, addr: &AddrLayout, cs_data: &CsDataLayout) -> Self {
        let map = Map::of(&addr.lines, &cs_data.data);
        // A longer table is not built.
        let size = addr.table_bytes(slot.word_bytes);
        Self {
            size: size.and_then(|size| size.try_into().ok()).unwrap_or(0),
            kind: slot.set_type.into(),
            layout: Some(Layout {
                addr_base: addr.base,
                addr_pins: addr.pins,
                data_base: cs_data.base,
                base_data_pin: cs_data.base_data_pin,
                bit_mode: slot.word_bytes.wrapping_sub(1),
                cs_base: cs_data.select.first().map_or(0, |line| line.gpio),
                ..Layout::default()
            }),
            overrides: Vec::new(),
            x: slot.x,
            roms: (slot.chips.iter())
                .map(|&Chip { size, .. }| Rom { size, map })
                .collect(),
        }
    }

    /// The record. Lists that are too long for its places keep their counts, cut at 255, so that
    /// the library refuses them.
    pub fn to_bytes(&self) -> [u8; LENGTH] {
        let mut record = [0; LENGTH];
        put(&mut record[at::BYTES], self.size.to_le_bytes());
        record[at::KIND] = self.kind.number();
        if let Some(layout) = &self.layout {
            layout.put(&mut record);
        }
        record[at::OVERRIDE_COUNT] = count(&self.overrides);
        put(&mut record[at::OVERRIDES], self.overrides.iter().copied());
        let [x1, x2] = self.x;
        put(&mut record[at::X1], pair(x1));
        put(&mut record[at::X2], pair(x2));
        record[at::ROM_COUNT] = count(&self.roms);
        put(&mut record[at::ROMS], self.roms.iter().flat_map(Rom::bytes));
        record
    }

    /// Bytes of a word; another bit mode than 0 and 1 is refused before words are counted.
    pub fn word_bytes(&self) -> usize {
        let bit_mode = self.layout.map_or(0, |layout| layout.bit_mode);
        if bit_mode == 1 { 2 } else { 1 }
    }

    /// How many bytes each ROM reads back as from so many stored ones, which are all a plugin's.
    pub fn lengths(&self, stored: usize) -> Vec<usize> {
        if self.kind.is_plugin() {
            return vec![stored];
        }
        let word_bytes = self.word_bytes();
        let roms = self.roms.iter().take(MOST_CHIPS);
        roms.map(|rom| rom.words(word_bytes) * word_bytes).collect()
    }

    /// How many marks a success sets.
    pub fn marks(&self, stored: usize) -> usize {
        if self.kind.is_plugin() {
            return 0;
        }
        let bytes: usize = self.lengths(stored).iter().sum();
        bytes / self.word_bytes()
    }

    /// The ROMs' bytes, from the output that a success wrote.
    pub fn cut(&self, output: &[u8]) -> Vec<Vec<u8>> {
        let mut rest = output;
        let part = |length: usize| {
            let (part, later) = rest.split_at_checked(length).unwrap_or((rest, &[]));
            rest = later;
            part.to_vec()
        };
        let lengths = self.lengths(output.len());
        lengths.into_iter().map(part).collect()
    }
}
