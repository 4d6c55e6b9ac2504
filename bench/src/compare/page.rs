//! `onerom-bench compare-page`: pairs of layouts through the library, against the model.

use onerom::fence::Side;
use onerom::interface::{addr_layout, cs_data_layout};
use onerom::layout::{addr, cs_data};
use oracle::generate::page_case;
use oracle::model::page::{Page, page};
use oracle::random::Random;

use super::OUT_OF_DOMAIN;
use super::calls::Part;
use super::damage::{ADDR_HEAD, CS_DATA_HEAD, Damage, damage_any, damage_several, replace};
use super::page_fenced::Pages;
use super::records::{ADDR_KEPT, address_layout, select_layout};
use super::tried::Tried;
use crate::ending::{Done, say};
use crate::plain;

/// How many bytes are lent, in turn: as many as the page has mostly.
const LENT: [usize; 8] = [432, 433, 432, 440, 432, 431, 5000, 0];

/// Has the page of each pair of layouts of a seed written. Fails on any difference.
pub fn compare_page(seed: u64, count: u64) -> Done {
    let mut calls = Pages::default();
    let (mut gpios, mut shared) = (0, 0);
    let all = Tried::all("pin page", count, |number| {
        let pair = Pair::of(seed, number);
        let side = Side::BOTH[(number % 2) as usize];
        let lent = LENT[(number / 2) as usize % LENT.len()];
        let wanted = pair.page(lent);
        if let Ok(page) = &wanted {
            gpios += 48;
            shared += page.shared();
        }
        let text = wanted.map(|page| page.text());
        let text = text.as_deref().map_err(|&number| number);
        let told = calls.write(pair.records(), lent, text, side);
        told.map_err(|why| format!("{why}: {lent} bytes lent, {:?}", pair.records()))
    });
    say(&all.told("pin page", "page"))?;
    say(&format!(
        "  GPIOs with two roles or more: {shared} of {gpios}\n"
    ))?;
    all.judged("pairs of layouts")
}

/// The records of two layouts.
struct Pair {
    addr_layout: Vec<u8>,
    cs_data_layout: Vec<u8>,
}

impl Pair {
    /// The pair of a number under a seed: in half of them the places past the counts have any bytes, and
    /// one in eight is put wrong.
    fn of(seed: u64, number: u64) -> Self {
        let case = page_case(seed, number);
        let mut pair = Self {
            addr_layout: plain::to_address(case.address).to_bytes().to_vec(),
            cs_data_layout: plain::to_select(case.select).to_bytes().to_vec(),
        };
        let random = &mut Damage::OneByte.random(seed, number);
        if random.chance(50) {
            pair.fill(random);
        }
        match random.below(32) {
            0 => damage_any(pair.parts(), random),
            1 => damage_several(pair.parts(), random),
            2 => replace(pair.parts(), random),
            3 => pair.say_what_no_record_says(random),
            _ => {}
        }
        pair
    }

    fn records(&self) -> [&[u8]; 2] {
        [&self.addr_layout, &self.cs_data_layout]
    }

    fn parts(&mut self) -> Vec<Part<'_>> {
        let addr_layout = Part {
            record: &mut self.addr_layout,
            length: addr::LENGTH,
            head: ADDR_HEAD,
        };
        let cs_data_layout = Part {
            record: &mut self.cs_data_layout,
            length: cs_data::LENGTH,
            head: CS_DATA_HEAD,
        };
        vec![addr_layout, cs_data_layout]
    }

    /// Puts any bytes past the lines that count, and where qualifiers would stand that are not given.
    fn fill(&mut self, random: &mut Random) {
        let (addr, cs_data) = (&mut self.addr_layout, &mut self.cs_data_layout);
        let count = |record: &[u8], place: usize| usize::from(record[place]);
        let lines = count(addr, addr_layout::LINE_COUNT) + count(addr, addr_layout::EXCESS_COUNT);
        any_past(&mut addr[addr_layout::LINES], lines, random);
        let data = count(cs_data, cs_data_layout::DATA_COUNT);
        any_past(&mut cs_data[cs_data_layout::DATA], data, random);
        let select = count(cs_data, cs_data_layout::SELECT_COUNT);
        any_past(&mut cs_data[cs_data_layout::SELECT], 2 * select, random);
        let commoned = count(cs_data, cs_data_layout::COMMONED_COUNT);
        any_past(&mut cs_data[cs_data_layout::COMMONED], 2 * commoned, random);
        if cs_data[cs_data_layout::QUALIFIED] == 0 {
            let from = cs_data_layout::BASE_QUALIFIER_PIN;
            any_past(&mut cs_data[from..cs_data_layout::DATA.start], 0, random);
        }
    }

    /// Puts a byte at a place that is kept at 0, or one that is no flag where a flag stands.
    fn say_what_no_record_says(&mut self, random: &mut Random) {
        if random.chance(50) {
            let kept: Vec<usize> = ADDR_KEPT.into_iter().flatten().collect();
            self.addr_layout[random.pick(&kept)] = random.pick(&[1, 2, 128, 255]);
        } else {
            self.cs_data_layout[cs_data_layout::QUALIFIED] = random.pick(&[2, 3, 128, 255]);
        }
    }

    /// What the model writes to so many bytes, or the refusal's number; 1 of bytes that are no record.
    fn page(&self, lent: usize) -> Result<Page, u64> {
        let address = address_layout(&self.addr_layout).ok_or(OUT_OF_DOMAIN)?;
        let select = select_layout(&self.cs_data_layout).ok_or(OUT_OF_DOMAIN)?;
        page(&address, &select, lent)
    }
}

/// Any bytes in the places behind the first so many.
fn any_past(places: &mut [u8], count: usize, random: &mut Random) {
    places.iter_mut().skip(count).for_each(|place| {
        *place = random.byte();
    });
}
