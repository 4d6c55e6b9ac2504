//! The two searches, with what cases of kinds 5 and 6 hand in.

use onerom::description;
use onerom::layout::{addr, cs_data};
use onerom::{AddrLayout, CsDataLayout, derive_addr_layout_into, derive_cs_data_layout_into};
use oracle::case::Case;
use oracle::random::Random;

use super::calls::{Call, Part, Wrote};
use super::damage::{ADDR_HEAD, DESCRIPTION_HEAD, damage_description, damage_record};
use super::records::address_layout;
use crate::plain;

#[derive(Clone)]
pub struct AddressSearch {
    description: Vec<u8>,
}

impl Call<1, 1> for AddressSearch {
    const NAME: &'static str = "address search";
    const KIND: u64 = 5;

    fn of(case: &Case) -> Option<Self> {
        let Case::AddressSearch(description) = case else {
            return None;
        };
        Some(Self {
            description: description.to_vec(),
        })
    }

    fn damage(&mut self, random: &mut Random) {
        damage_description(&mut self.description, random);
    }

    fn records(&mut self) -> Vec<Part<'_>> {
        vec![Part {
            record: &mut self.description,
            length: description::LENGTH,
            head: DESCRIPTION_HEAD,
        }]
    }

    fn case(&self) -> Option<Case> {
        let record = self.description[..].try_into().ok()?;
        Some(Case::AddressSearch(Box::new(record)))
    }

    fn read(&self) -> [&[u8]; 1] {
        [&self.description]
    }

    fn lengths(&self) -> [usize; 1] {
        [addr::LENGTH]
    }

    fn call(_: u64, [description]: [&[u8]; 1], [layout]: [&mut [u8]; 1]) -> u64 {
        derive_addr_layout_into(description, layout)
    }

    fn success(&self, [record]: [&[u8]; 1]) -> Option<Wrote> {
        let layout = AddrLayout::read(record.try_into().ok()?);
        let same = layout.to_bytes() == record;
        same.then(|| (plain::address(layout).fields(), Vec::new()))
    }
}

#[derive(Clone)]
pub struct SelectSearch {
    description: Vec<u8>,
    /// No bytes if none is given.
    addr_layout: Vec<u8>,
}

impl Call<2, 1> for SelectSearch {
    const NAME: &'static str = "select search";
    const KIND: u64 = 6;

    fn of(case: &Case) -> Option<Self> {
        let Case::SelectSearch(description, layout) = case else {
            return None;
        };
        let record = |layout| plain::to_address(layout).to_bytes().to_vec();
        Some(Self {
            description: description.to_vec(),
            addr_layout: layout.clone().map_or(Vec::new(), record),
        })
    }

    fn damage(&mut self, random: &mut Random) {
        if random.chance(50) {
            damage_description(&mut self.description, random);
        } else {
            damage_record(&mut self.addr_layout, random);
        }
    }

    fn records(&mut self) -> Vec<Part<'_>> {
        let description = Part {
            record: &mut self.description,
            length: description::LENGTH,
            head: DESCRIPTION_HEAD,
        };
        let addr_layout = Part {
            record: &mut self.addr_layout,
            length: addr::LENGTH,
            head: ADDR_HEAD,
        };
        vec![description, addr_layout]
    }

    fn case(&self) -> Option<Case> {
        let layout = if self.addr_layout.is_empty() {
            None
        } else {
            Some(address_layout(&self.addr_layout)?)
        };
        let record = self.description[..].try_into().ok()?;
        Some(Case::SelectSearch(Box::new(record), layout))
    }

    fn read(&self) -> [&[u8]; 2] {
        [&self.description, &self.addr_layout]
    }

    fn lengths(&self) -> [usize; 1] {
        [cs_data::LENGTH]
    }

    fn call(_: u64, [description, addr_layout]: [&[u8]; 2], [layout]: [&mut [u8]; 1]) -> u64 {
        derive_cs_data_layout_into(description, addr_layout, layout)
    }

    fn success(&self, [record]: [&[u8]; 1]) -> Option<Wrote> {
        let layout = CsDataLayout::read(record.try_into().ok()?);
        let same = layout.to_bytes() == record;
        same.then(|| (plain::select(layout).fields(), Vec::new()))
    }
}
