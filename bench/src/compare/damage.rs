//! Records put wrong.

use onerom::interface::{addr_layout, cs_data_layout, description, stored_slot};
use oracle::case::Case;
use oracle::random::Random;

use super::calls::{Call, Part};

/// Places of the description record before the chips.
pub const DESCRIPTION_HEAD: usize = description::CHIPS.start;
/// Those of the layout records before the GPIOs.
pub const ADDR_HEAD: usize = addr_layout::LINES.start;
pub const CS_DATA_HEAD: usize = cs_data_layout::DATA.start;
/// Those of the stored slot record before the overrides.
pub const SLOT_HEAD: usize = stored_slot::OVERRIDES.start;

/// How records are put wrong.
#[derive(Clone, Copy)]
pub enum Damage {
    OneByte,
    SeveralBytes,
    RandomBytes,
}

impl Damage {
    pub const ALL: [Self; 3] = [Self::OneByte, Self::SeveralBytes, Self::RandomBytes];

    pub fn name(self) -> &'static str {
        match self {
            Self::OneByte => "one byte wrong",
            Self::SeveralBytes => "several bytes wrong",
            Self::RandomBytes => "records of random bytes",
        }
    }

    /// The numbers of a case's damage: others than the case was made of.
    pub fn random(self, seed: u64, number: u64) -> Random {
        let seed = match self {
            Self::OneByte => !seed,
            Self::SeveralBytes => !seed ^ 1 << 62,
            Self::RandomBytes => !seed ^ 1 << 63,
        };
        Random::of_case(seed, number)
    }

    /// The call with wrong records, and the case that hands these in; none if no case can.
    pub fn done<const READ: usize, const LENT: usize, C: Call<READ, LENT>>(
        self,
        call: &C,
        random: &mut Random,
    ) -> (C, Option<Case>) {
        let mut call = call.clone();
        call.make_ready(random);
        match self {
            Self::OneByte => call.damage(random),
            Self::SeveralBytes => damage_several(call.records(), random),
            Self::RandomBytes => replace(call.records(), random),
        }
        let case = call.case();
        (call, case)
    }
}

/// Two to eight bytes, in any of the records; now and then one of them gets another length too.
pub fn damage_several(mut parts: Vec<Part>, random: &mut Random) {
    for _ in 0..random.pick(&[2, 2, 2, 3, 4, 8]) {
        let which = random.below(parts.len());
        let Part { record, head, .. } = &mut parts[which];
        let reach = random.pick(&[*head, record.len()]);
        if !record.is_empty() {
            damage_byte(&mut record[..reach], random);
        }
    }
    if random.below(16) == 0 {
        let which = random.below(parts.len());
        damage_length(parts[which].record, random);
    }
}

/// Puts random bytes in the place of one record or of all, each as long as it has to be.
pub fn replace(parts: Vec<Part>, random: &mut Random) {
    let (all, which) = (random.chance(50), random.below(parts.len()));
    for (number, part) in parts.into_iter().enumerate() {
        if all || number == which {
            part.record.resize(part.length, 0);
            part.record.fill_with(|| random.byte());
        }
    }
}

/// Puts any of the records wrong: in half of the cases a byte of its head, else as below.
pub fn damage_any(mut parts: Vec<Part>, random: &mut Random) {
    let which = random.below(parts.len());
    let Part { record, head, .. } = &mut parts[which];
    if random.chance(50) {
        damage_byte(&mut record[..*head], random);
    } else {
        damage_record(record, random);
    }
}

/// Takes the last byte away or adds one.
fn damage_length(record: &mut Vec<u8>, random: &mut Random) {
    if record.is_empty() || random.chance(50) {
        record.push(0);
    } else {
        record.pop();
    }
}

/// Changes one byte: in half of the cases one of the slot's own, else any.
pub fn damage_description(record: &mut [u8], random: &mut Random) {
    let reach = random.pick(&[DESCRIPTION_HEAD, record.len()]);
    damage_byte(&mut record[..reach], random);
}

/// Changes one byte, takes the last away or adds one.
pub fn damage_record(record: &mut Vec<u8>, random: &mut Random) {
    match random.below(16) {
        0 if !record.is_empty() => {
            record.pop();
        }
        0 | 1 => record.push(0),
        _ if record.is_empty() => record.push(0),
        _ => damage_byte(record, random),
    }
}

pub fn damage_byte(bytes: &mut [u8], random: &mut Random) {
    let place = random.below(bytes.len());
    let was = bytes[place];
    let any = random.byte();
    bytes[place] = random.pick(&[
        any,
        was.wrapping_add(1),
        was.wrapping_sub(1),
        0,
        47,
        48,
        254,
        255,
    ]);
}
