//! The two layouts as plain numbers, in the order of docs/CASES.md.

use crate::description::NONE;
use crate::fields::Fields;

#[derive(Debug, Clone, PartialEq, Eq)]
pub struct AddressLayout {
    pub base: u8,
    pub pins: u8,
    pub x1: Option<u8>,
    pub x2: Option<u8>,
    /// GPIOs of the lines in use, then of the excess lines.
    pub lines: Vec<u8>,
    pub excess: Vec<u8>,
}

#[derive(Debug, Clone, Copy, PartialEq, Eq)]
pub struct Qualifier {
    pub base_pin: u8,
    pub pins: u8,
    pub pattern: u8,
}

/// A select or commoned line: role and GPIO. Roles 0 to 5 are the kinds of control lines, 6 is X1,
/// 7 X2, 8 a half select.
pub type Line = (u8, u8);

pub const ROLE_X1: u8 = 6;
pub const ROLE_X2: u8 = 7;
pub const ROLE_HALF: u8 = 8;

#[derive(Debug, Clone, PartialEq, Eq)]
pub struct SelectLayout {
    pub base: u8,
    pub base_data_pin: u8,
    pub base_cs_pin: u8,
    pub cs_pins: u8,
    pub ignore: Option<u8>,
    pub qualifier: Option<Qualifier>,
    pub data: Vec<u8>,
    pub select: Vec<Line>,
    pub commoned: Vec<Line>,
}

fn or_none(gpio: Option<u8>) -> u64 {
    u64::from(gpio.unwrap_or(NONE))
}

fn some(byte: u8) -> Option<u8> {
    (byte != NONE).then_some(byte)
}

fn fill(fields: &mut Vec<u64>, bytes: &[u8], places: usize) {
    fields.extend(bytes.iter().map(|&byte| u64::from(byte)));
    fields.extend(std::iter::repeat_n(0, places - bytes.len()));
}

fn fill_lines(fields: &mut Vec<u64>, lines: &[Line], places: usize) {
    let flat: Vec<u8> = lines
        .iter()
        .flat_map(|&(role, gpio)| [role, gpio])
        .collect();
    fill(fields, &flat, 2 * places);
}

impl AddressLayout {
    pub fn fields(&self) -> Vec<u64> {
        let mut fields = vec![
            u64::from(self.base),
            u64::from(self.pins),
            or_none(self.x1),
            or_none(self.x2),
            self.lines.len() as u64,
            self.excess.len() as u64,
        ];
        let all: Vec<u8> = self.lines.iter().chain(&self.excess).copied().collect();
        fill(&mut fields, &all, 24);
        fields
    }

    pub fn read(fields: &mut Fields) -> Option<Self> {
        let head = fields.bytes(6)?;
        let gpios = fields.bytes(24)?;
        let (lines, excess) = (usize::from(head[4]), usize::from(head[5]));
        Some(Self {
            base: head[0],
            pins: head[1],
            x1: some(head[2]),
            x2: some(head[3]),
            lines: gpios.get(..lines)?.to_vec(),
            excess: gpios.get(lines..lines + excess)?.to_vec(),
        })
    }
}

impl SelectLayout {
    pub fn fields(&self) -> Vec<u64> {
        let qualifier = self.qualifier.unwrap_or(Qualifier {
            base_pin: 0,
            pins: 0,
            pattern: 0,
        });
        let mut fields = Vec::new();
        let head = [
            self.base,
            self.base_data_pin,
            self.data.len() as u8,
            self.base_cs_pin,
            self.cs_pins,
            self.ignore.unwrap_or(NONE),
            u8::from(self.qualifier.is_some()),
            qualifier.base_pin,
            qualifier.pins,
            qualifier.pattern,
            self.select.len() as u8,
            self.commoned.len() as u8,
        ];
        fill(&mut fields, &head, 12);
        fill(&mut fields, &self.data, 16);
        fill_lines(&mut fields, &self.select, 30);
        fill_lines(&mut fields, &self.commoned, 6);
        fields
    }

    pub fn read(fields: &mut Fields) -> Option<Self> {
        let head = fields.bytes(12)?;
        let data = fields.bytes(16)?;
        let select = fields.bytes(60)?;
        let commoned = fields.bytes(12)?;
        Some(Self {
            base: head[0],
            base_data_pin: head[1],
            base_cs_pin: head[3],
            cs_pins: head[4],
            ignore: some(head[5]),
            qualifier: (head[6] == 1).then_some(Qualifier {
                base_pin: head[7],
                pins: head[8],
                pattern: head[9],
            }),
            data: data.get(..usize::from(head[2]))?.to_vec(),
            select: read_lines(&select, head[10])?,
            commoned: read_lines(&commoned, head[11])?,
        })
    }
}

fn read_lines(bytes: &[u8], count: u8) -> Option<Vec<Line>> {
    let used = bytes.get(..2 * usize::from(count))?;
    Some(
        used.chunks_exact(2)
            .map(|pair| (pair[0], pair[1]))
            .collect(),
    )
}
