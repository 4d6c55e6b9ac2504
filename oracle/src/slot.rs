//! What a read-back is given: the slot's record, and the bytes of a chip in a build.

use crate::description::Pin;
use crate::fields::Fields;

/// Kinds of slots in a case.
pub const SINGLE_ROM: u8 = 0;
pub const SINGLE_RAM: u8 = 1;
pub const BANKED_ROM: u8 = 2;
pub const MULTI_ROM: u8 = 3;
/// System, user and PIO plugins are 4, 5 and 6.
pub const FIRST_PLUGIN: u8 = 4;
pub const LAST_PLUGIN: u8 = 6;

#[derive(Debug, Clone, PartialEq, Eq)]
pub struct Rom {
    pub has_map: bool,
    pub size: u32,
    pub address: [u8; 32],
    pub data: [u8; 32],
}

#[derive(Debug, Clone, PartialEq, Eq)]
pub struct Slot {
    pub size: u32,
    pub kind: u8,
    pub has_layout: bool,
    pub address_algorithm: u8,
    pub address_base: u8,
    pub base_address_pin: u8,
    pub pins: u8,
    pub data_algorithm: u8,
    pub data_base: u8,
    pub base_data_pin: u8,
    pub dma_algorithm: u8,
    /// 0 is 8 bits, 1 is 16 bits.
    pub bit_mode: u8,
    pub select_algorithm: u8,
    pub select_base: u8,
    pub first_select_pin: u8,
    pub overrides: Vec<u8>,
    /// X1 and X2.
    pub x: [Pin; 2],
    pub roms: Vec<Rom>,
}

const NO_ROM: Rom = Rom {
    has_map: false,
    size: 0,
    address: [0; 32],
    data: [0; 32],
};

impl Slot {
    pub fn fields(&self) -> Vec<u64> {
        let mut fields = vec![u64::from(self.size)];
        fields.extend(self.algorithms().map(u64::from));
        fields.push(self.overrides.len() as u64);
        let mut overrides = self.overrides.clone();
        overrides.resize(64, 0);
        fields.extend(overrides.iter().map(|&byte| u64::from(byte)));
        fields.extend(self.x.as_flattened().iter().map(|&byte| u64::from(byte)));
        fields.push(self.roms.len() as u64);
        for n in 0..4 {
            let rom = self.roms.get(n).unwrap_or(&NO_ROM);
            fields.extend([u64::from(rom.has_map), u64::from(rom.size)]);
            fields.extend(
                rom.address
                    .iter()
                    .chain(&rom.data)
                    .map(|&byte| u64::from(byte)),
            );
        }
        fields
    }

    fn algorithms(&self) -> [u8; 14] {
        [
            self.kind,
            u8::from(self.has_layout),
            self.address_algorithm,
            self.address_base,
            self.base_address_pin,
            self.pins,
            self.data_algorithm,
            self.data_base,
            self.base_data_pin,
            self.dma_algorithm,
            self.bit_mode,
            self.select_algorithm,
            self.select_base,
            self.first_select_pin,
        ]
    }

    pub fn read(fields: &mut Fields) -> Option<Self> {
        let size = fields.word()?;
        let head: [u8; 14] = fields.array()?;
        let overrides = fields.byte()?;
        let forced = fields.bytes(64)?;
        let x = [fields.array()?, fields.array()?];
        let count = fields.byte()?;
        let roms: Option<Vec<Rom>> = (0..4).map(|_| read_rom(fields)).collect();
        Some(Self {
            size,
            kind: head[0],
            has_layout: head[1] == 1,
            address_algorithm: head[2],
            address_base: head[3],
            base_address_pin: head[4],
            pins: head[5],
            data_algorithm: head[6],
            data_base: head[7],
            base_data_pin: head[8],
            dma_algorithm: head[9],
            bit_mode: head[10],
            select_algorithm: head[11],
            select_base: head[12],
            first_select_pin: head[13],
            overrides: forced.get(..usize::from(overrides))?.to_vec(),
            x,
            roms: roms?.get(..usize::from(count))?.to_vec(),
        })
    }
}

fn read_rom(fields: &mut Fields) -> Option<Rom> {
    Some(Rom {
        has_map: fields.flag()?,
        size: fields.word()?,
        address: fields.array()?,
        data: fields.array()?,
    })
}

/// A chip's bytes, told by a number that they are made from.
#[derive(Debug, Clone, Copy, PartialEq, Eq)]
pub struct ChipBytes {
    pub present: bool,
    pub length: u32,
    pub seed: u32,
}

impl ChipBytes {
    pub fn bytes(&self) -> Vec<u8> {
        (0..self.length)
            .map(|n| (self.seed.wrapping_add(n).wrapping_mul(2_654_435_761) >> 24) as u8)
            .collect()
    }
}
