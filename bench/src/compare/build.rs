//! The build, with what a case of kind 7 hands in.

use onerom::interface::description::WORD_BYTES;
use onerom::layout::{addr, cs_data};
use onerom::{ByteOrder, build_rom_image_into, description, table_length};
use oracle::answer::table_fields;
use oracle::case::{self, Case};
use oracle::random::Random;

use super::calls::{Call, Part, Wrote};
use super::damage::{ADDR_HEAD, CS_DATA_HEAD, DESCRIPTION_HEAD, damage_any};
use super::images::Images;
use super::records::{address_layout, select_layout};
use crate::plain;

#[derive(Clone)]
pub struct Build {
    description: Vec<u8>,
    addr_layout: Vec<u8>,
    cs_data_layout: Vec<u8>,
    images: Images,
    order: u64,
    table_length: u32,
}

impl Call<5, 1> for Build {
    const NAME: &'static str = "build";
    const KIND: u64 = 7;
    const TAKES_ORDER: bool = true;

    fn of(case: &Case) -> Option<Self> {
        let Case::Build(case) = case else {
            return None;
        };
        let address = plain::to_address(case.address.clone());
        let select = plain::to_select(case.select.clone());
        Some(Self {
            description: case.record.to_vec(),
            addr_layout: address.to_bytes().to_vec(),
            cs_data_layout: select.to_bytes().to_vec(),
            images: Images::spread(&case.images),
            order: ByteOrder::LowFirst.number(),
            table_length: case.table_length,
        })
    }

    fn order(&self) -> u64 {
        self.order
    }

    fn set_order(&mut self, order: u64) {
        self.order = order;
    }

    fn is_wide(&self) -> bool {
        self.description.get(WORD_BYTES) == Some(&2)
    }

    fn swap_pairs(&mut self) {
        if self.is_wide() {
            self.images.swap_pairs();
        }
    }

    fn make_ready(&mut self, random: &mut Random) {
        self.images.become_sequence(random);
    }

    fn damage(&mut self, random: &mut Random) {
        damage_any(self.records(), random);
    }

    fn records(&mut self) -> Vec<Part<'_>> {
        let part = |record, length, head| Part {
            record,
            length,
            head,
        };
        vec![
            part(&mut self.description, description::LENGTH, DESCRIPTION_HEAD),
            part(&mut self.addr_layout, addr::LENGTH, ADDR_HEAD),
            part(&mut self.cs_data_layout, cs_data::LENGTH, CS_DATA_HEAD),
            self.images.part(),
        ]
    }

    fn case(&self) -> Option<Case> {
        Some(Case::Build(Box::new(case::Build {
            record: Box::new(self.description[..].try_into().ok()?),
            address: address_layout(&self.addr_layout)?,
            select: select_layout(&self.cs_data_layout)?,
            images: self.images.chips()?,
            table_length: self.table_length,
        })))
    }

    fn read(&self) -> [&[u8]; 5] {
        [
            &self.description,
            &self.addr_layout,
            &self.cs_data_layout,
            &self.images.spans,
            &self.images.bytes,
        ]
    }

    fn lengths(&self) -> [usize; 1] {
        [table_length(&self.description, &self.addr_layout)]
    }

    /// As the case says: some cases lend too few.
    fn lent(&self, _lengths: [usize; 1], _spare: usize) -> [usize; 1] {
        [self.table_length as usize]
    }

    fn call(order: u64, read: [&[u8]; 5], [table]: [&mut [u8]; 1]) -> u64 {
        let [description, addr_layout, cs_data_layout, spans, images] = read;
        build_rom_image_into(
            description,
            addr_layout,
            cs_data_layout,
            spans,
            images,
            order,
            table,
        )
    }

    fn success(&self, [table]: [&[u8]; 1]) -> Option<Wrote> {
        Some((table_fields(table), table.to_vec()))
    }
}
