//! One case a line: its kind, then its fields, as docs/CASES.md lists them.

use crate::description::{LENGTH, Settings};
use crate::fields::Fields;
use crate::layout::{AddressLayout, SelectLayout};
use crate::slot::{ChipBytes, Slot};

/// The description's bytes as they stand in the line; whether they are in the domain is another
/// question.
pub type Record = Box<[u8; LENGTH]>;

#[derive(Debug, Clone)]
pub struct MultiSelect {
    pub kinds: Vec<u8>,
    pub primary: Settings,
    pub secondary: Settings,
}

#[derive(Debug, Clone)]
pub struct Build {
    pub record: Record,
    pub address: AddressLayout,
    pub select: SelectLayout,
    pub images: [ChipBytes; 4],
    pub table_length: u32,
}

#[derive(Debug, Clone)]
pub struct ReadBack {
    pub slot: Slot,
    pub output_length: u32,
    pub mark_length: u32,
    pub data: Vec<u8>,
}

#[derive(Debug, Clone)]
pub enum Case {
    Window(u8, u8),
    Offset(u8, u8),
    Preference(bool, bool),
    MultiSelect(MultiSelect),
    AddressSearch(Record),
    SelectSearch(Record, Option<AddressLayout>),
    Build(Box<Build>),
    ReadBack(Box<ReadBack>),
    Chain(Record, [ChipBytes; 4]),
}

impl Case {
    pub fn kind(&self) -> u64 {
        match self {
            Self::Window(..) => 1,
            Self::Offset(..) => 2,
            Self::Preference(..) => 3,
            Self::MultiSelect(..) => 4,
            Self::AddressSearch(..) => 5,
            Self::SelectSearch(..) => 6,
            Self::Build(..) => 7,
            Self::ReadBack(..) => 8,
            Self::Chain(..) => 9,
        }
    }

    pub fn read(line: &str) -> Option<Self> {
        let mut fields = Fields::of(line)?;
        let kind = fields.number()?;
        let case = read_kind(kind, &mut fields)?;
        fields.is_empty().then_some(case)
    }

    pub fn line(&self) -> String {
        let mut numbers = vec![self.kind()];
        match self {
            Self::Window(a, b) | Self::Offset(a, b) => numbers.extend(bytes(&[*a, *b])),
            Self::Preference(a, b) => numbers.extend([u64::from(*a), u64::from(*b)]),
            Self::MultiSelect(case) => numbers.extend(case.fields()),
            Self::AddressSearch(record) => numbers.extend(bytes(&record[..])),
            Self::SelectSearch(record, address) => {
                numbers.push(u64::from(address.is_some()));
                numbers.extend(bytes(&record[..]));
                numbers.extend(address.as_ref().map_or(vec![0; 30], AddressLayout::fields));
            }
            Self::Build(case) => numbers.extend(case.fields()),
            Self::ReadBack(case) => numbers.extend(case.fields()),
            Self::Chain(record, images) => {
                numbers.extend(bytes(&record[..]));
                numbers.extend(images.iter().flat_map(image_fields));
            }
        }
        line_of(&numbers)
    }
}

pub fn line_of(numbers: &[u64]) -> String {
    let words: Vec<String> = numbers.iter().map(u64::to_string).collect();
    words.join(" ")
}

fn bytes(bytes: &[u8]) -> impl Iterator<Item = u64> + '_ {
    bytes.iter().map(|&byte| u64::from(byte))
}

fn image_fields(image: &ChipBytes) -> [u64; 3] {
    [
        u64::from(image.present),
        u64::from(image.length),
        u64::from(image.seed),
    ]
}

fn read_kind(kind: u64, fields: &mut Fields) -> Option<Case> {
    Some(match kind {
        1 => Case::Window(fields.byte()?, fields.byte()?),
        2 => Case::Offset(fields.byte()?, fields.byte()?),
        3 => Case::Preference(fields.flag()?, fields.flag()?),
        4 => Case::MultiSelect(MultiSelect::read(fields)?),
        5 => Case::AddressSearch(read_record(fields)?),
        6 => read_select_search(fields)?,
        7 => Case::Build(Box::new(Build::read(fields)?)),
        8 => Case::ReadBack(Box::new(ReadBack::read(fields)?)),
        9 => Case::Chain(read_record(fields)?, read_images(fields)?),
        _ => return None,
    })
}

fn read_record(fields: &mut Fields) -> Option<Record> {
    Some(Box::new(fields.array()?))
}

fn read_select_search(fields: &mut Fields) -> Option<Case> {
    let given = fields.flag()?;
    let record = read_record(fields)?;
    let address = AddressLayout::read(fields)?;
    Some(Case::SelectSearch(record, given.then_some(address)))
}

fn read_images(fields: &mut Fields) -> Option<[ChipBytes; 4]> {
    let mut image = || {
        Some(ChipBytes {
            present: fields.flag()?,
            length: fields.word()?,
            seed: fields.word()?,
        })
    };
    Some([image()?, image()?, image()?, image()?])
}

impl MultiSelect {
    fn fields(&self) -> Vec<u64> {
        let mut kinds = self.kinds.clone();
        kinds.resize(8, 0);
        let mut numbers = vec![self.kinds.len() as u64];
        numbers.extend(bytes(&kinds));
        for settings in [&self.primary, &self.secondary] {
            numbers.push(u64::from(settings.form));
            numbers.extend(bytes(&settings.lines));
        }
        numbers
    }

    fn read(fields: &mut Fields) -> Option<Self> {
        let count = usize::from(fields.byte()?);
        let kinds = fields.bytes(8)?.get(..count)?.to_vec();
        let mut settings = || {
            Some(Settings {
                form: fields.byte()?,
                lines: fields.array()?,
            })
        };
        Some(Self {
            kinds,
            primary: settings()?,
            secondary: settings()?,
        })
    }
}

impl Build {
    fn fields(&self) -> Vec<u64> {
        let mut numbers: Vec<u64> = bytes(&self.record[..]).collect();
        numbers.extend(self.address.fields());
        numbers.extend(self.select.fields());
        numbers.extend(self.images.iter().flat_map(image_fields));
        numbers.push(u64::from(self.table_length));
        numbers
    }

    fn read(fields: &mut Fields) -> Option<Self> {
        Some(Self {
            record: read_record(fields)?,
            address: AddressLayout::read(fields)?,
            select: SelectLayout::read(fields)?,
            images: read_images(fields)?,
            table_length: fields.word()?,
        })
    }
}

impl ReadBack {
    fn fields(&self) -> Vec<u64> {
        let mut numbers = self.slot.fields();
        numbers.extend([u64::from(self.output_length), u64::from(self.mark_length)]);
        numbers.push(self.data.len() as u64);
        numbers.extend(bytes(&self.data));
        numbers
    }

    fn read(fields: &mut Fields) -> Option<Self> {
        let slot = Slot::read(fields)?;
        let (output_length, mark_length) = (fields.word()?, fields.word()?);
        let count = usize::try_from(fields.number()?).ok()?;
        Some(Self {
            slot,
            output_length,
            mark_length,
            data: fields.bytes(count)?,
        })
    }
}
