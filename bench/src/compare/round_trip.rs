//! All four in turn, with what a case of kind 9 hands in.

use onerom::description;
use onerom::interface::{addr_layout, chip, description as at};
use onerom::layout::{addr, cs_data};
use onerom::slot::words;
use onerom::{
    AddrLayout, ByteOrder, CsDataLayout, build_rom_image_into, derive_addr_layout_into,
    derive_cs_data_layout_into, round_trip_into, table_length, unscramble_slot_into,
};
use oracle::answer::{fitted, table_fields};
use oracle::case::Case;
use oracle::description::Description;
use oracle::random::Random;

use super::calls::{Call, Part, Wrote, are_zero};
use super::damage::{DESCRIPTION_HEAD, damage_any};
use super::images::Images;
use super::read_back::recovered;
use super::records::four;
use super::{INCONSISTENT, OUT_OF_DOMAIN, PLACES, SHORT_BUFFER, UNSERVED, WRONG_SIZE};
use crate::plain;

#[derive(Clone)]
pub struct RoundTrip {
    description: Vec<u8>,
    images: Images,
    order: u64,
}

/// Which of the four answers, and what.
type Step = (u64, u64);

impl RoundTrip {
    /// What the address search alone finds.
    fn addr_layout(&self) -> Result<[u8; addr::LENGTH], u64> {
        let mut layout = [0; addr::LENGTH];
        match derive_addr_layout_into(&self.description, &mut layout) {
            0 => Ok(layout),
            told => Err(told),
        }
    }

    fn word_bytes(&self) -> usize {
        usize::from(self.description[at::WORD_BYTES])
    }

    /// How many words each chip reads back as.
    fn words(&self, layout: &[u8; addr::LENGTH]) -> Vec<usize> {
        let lines = usize::from(layout[addr_layout::LINE_COUNT]);
        let count = usize::from(self.description[at::CHIP_COUNT]);
        let chips = self.description[at::CHIPS]
            .chunks(chip::RECORD_SIZE)
            .take(count);
        chips
            .map(|chip| words(four(chip, chip::BYTES), self.word_bytes(), lines))
            .collect()
    }

    /// Which of the four refuses so when they are called one by one; none if they do not. What is no
    /// record is refused before the first.
    fn stage(&self, result: u64) -> Option<u64> {
        let (stage, told) = if self.images.has_record() {
            let refused = self.in_turn().err();
            refused.unwrap_or_default()
        } else {
            (1, OUT_OF_DOMAIN << PLACES)
        };
        (told == result).then_some(stage)
    }

    /// The calls one by one, up to the first that refuses.
    fn in_turn(&self) -> Result<(), Step> {
        let step = |stage: u64, told: u64| {
            if told == 0 {
                Ok(())
            } else {
                Err((stage, told))
            }
        };
        let record = &self.description[..];
        let addr = self.addr_layout().map_err(|told| (1, told))?;
        let mut select = [0; cs_data::LENGTH];
        step(2, derive_cs_data_layout_into(record, &addr, &mut select))?;
        let mut table = vec![0; table_length(record, &addr)];
        let Images { spans, bytes, .. } = &self.images;
        let told =
            build_rom_image_into(record, &addr, &select, spans, bytes, self.order, &mut table);
        step(3, told)?;
        step(4, self.read_back(&addr, &select, &table))
    }

    /// The read-back of a table that these layouts are of, with the oracle's slot for them.
    fn read_back(
        &self,
        addr: &[u8; addr::LENGTH],
        select: &[u8; cs_data::LENGTH],
        table: &[u8],
    ) -> u64 {
        let record = self.description[..].try_into().ok();
        let Some(slot) = record.and_then(Description::read) else {
            return OUT_OF_DOMAIN << PLACES;
        };
        let address = plain::address(AddrLayout::read(addr));
        let select = plain::select(CsDataLayout::read(select));
        let stored = plain::to_stored(&fitted(&slot, &address, &select, table.len()));
        let mut output = vec![0; stored.lengths(table.len()).iter().sum()];
        let mut marks = vec![0; stored.marks(table.len())];
        unscramble_slot_into(
            &stored.to_bytes(),
            table,
            self.order,
            &mut output,
            &mut marks,
        )
    }

    /// The chips' bytes of an output.
    fn cut(&self, layout: &[u8; addr::LENGTH], mut output: &[u8]) -> Option<Vec<Vec<u8>>> {
        let words = self.words(layout).into_iter();
        let chip = |words: usize| output.split_off(..words * self.word_bytes());
        words
            .map(chip)
            .map(|chip| chip.map(<[u8]>::to_vec))
            .collect()
    }
}

/// Whether only the read-back gives this number.
fn is_of_read_back(number: u64) -> bool {
    (WRONG_SIZE..=UNSERVED).contains(&number)
}

impl Call<3, 3> for RoundTrip {
    const NAME: &'static str = "round trip";
    const KIND: u64 = 9;
    /// The stage.
    const NO_RECORD: &'static [u64] = &[1];
    const TAKES_ORDER: bool = true;

    fn of(case: &Case) -> Option<Self> {
        let Case::Chain(record, images) = case else {
            return None;
        };
        Some(Self {
            description: record.to_vec(),
            images: Images::spread(images),
            order: ByteOrder::LowFirst.number(),
        })
    }

    fn order(&self) -> u64 {
        self.order
    }

    fn set_order(&mut self, order: u64) {
        self.order = order;
    }

    fn is_wide(&self) -> bool {
        self.description.get(at::WORD_BYTES) == Some(&2)
    }

    fn swap_pairs(&mut self) {
        if self.is_wide() {
            self.images.swap_pairs();
        }
    }

    fn make_ready(&mut self, random: &mut Random) {
        self.images.become_sequence(random);
    }

    fn damage(&mut self, random: &mut Random) {
        damage_any(self.records(), random);
    }

    fn records(&mut self) -> Vec<Part<'_>> {
        let description = Part {
            record: &mut self.description,
            length: description::LENGTH,
            head: DESCRIPTION_HEAD,
        };
        vec![description, self.images.part()]
    }

    fn case(&self) -> Option<Case> {
        let record = self.description[..].try_into().ok()?;
        Some(Case::Chain(Box::new(record), self.images.chips()?))
    }

    fn read(&self) -> [&[u8]; 3] {
        [&self.description, &self.images.spans, &self.images.bytes]
    }

    /// None where no address layout tells the table's length.
    fn lengths(&self) -> [usize; 3] {
        self.addr_layout().map_or([0; 3], |layout| {
            let words = self.words(&layout).iter().sum();
            let table = table_length(&self.description, &layout);
            [table, words * self.word_bytes(), words]
        })
    }

    fn clears(number: u64) -> bool {
        [INCONSISTENT, UNSERVED].contains(&number)
    }

    /// A table that is built stays, whatever the read-back says.
    fn reach(lengths: [usize; 3], result: u64) -> [usize; 3] {
        let number = result >> PLACES;
        if result == 0 || Self::clears(number) {
            lengths
        } else if is_of_read_back(number) {
            [lengths[0], 0, 0]
        } else {
            [0; 3]
        }
    }

    /// The table is short before the read-back begins; output and marks are looked at when the table
    /// is built, and only where no other refusal of the read-back comes before.
    fn told_short(lengths: [usize; 3], result: u64, short: usize) -> (u64, [usize; 3]) {
        let number = result >> PLACES;
        let lacks_room = SHORT_BUFFER << PLACES;
        let built = result == 0 || is_of_read_back(number);
        match short {
            _ if !built => (result, [0; 3]),
            0 => (lacks_room, [0; 3]),
            _ if result == 0 || Self::clears(number) => (lacks_room, [lengths[0], 0, 0]),
            _ => (result, [lengths[0], 0, 0]),
        }
    }

    fn call(order: u64, read: [&[u8]; 3], lent: [&mut [u8]; 3]) -> u64 {
        let ([description, spans, images], [table, output, marks]) = (read, lent);
        round_trip_into(description, spans, images, order, table, output, marks)
    }

    /// The address layout's base is not among what is written; the address search alone tells it.
    fn success(&self, [table, output, marks]: [&[u8]; 3]) -> Option<Wrote> {
        let layout = self.addr_layout().ok()?;
        let window = [addr_layout::BASE, addr_layout::PINS];
        let mut fields = vec![4];
        fields.extend(window.map(|place| u64::from(layout[place])));
        fields.extend(table_fields(table));
        let (read, bytes) = recovered(self.cut(&layout, output)?, marks)?;
        fields.extend(read);
        Some((fields, [table, &bytes].concat()))
    }

    fn refusal(&self, result: u64, [table, output, marks]: [&[u8]; 3]) -> Option<Wrote> {
        let stage = self.stage(result)?;
        let clear = are_zero(output) && are_zero(marks);
        clear.then(|| (vec![stage], table.to_vec()))
    }
}
