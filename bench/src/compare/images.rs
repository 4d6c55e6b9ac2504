//! The chips' bytes as a case hands them in, with the record of where they stand.

use onerom::images::{self, SPAN, Span, spans_record};
use onerom::interface::image_span;
use oracle::random::Random;
use oracle::slot::ChipBytes;

use super::calls::Part;
use super::records::{chip_bytes, four};
use crate::pairs::swap_pairs;

/// What stands between the chips' bytes, and is no chip's.
const GAP: u8 = 0xA5;

#[derive(Clone)]
pub struct Images {
    pub spans: Vec<u8>,
    pub bytes: Vec<u8>,
    /// The bytes are one sequence that begins with this seed.
    seed: Option<u32>,
}

impl Images {
    /// The chips' bytes one after the other, up to three that are no chip's before each.
    pub fn spread(chips: &[ChipBytes; 4]) -> Self {
        let mut bytes = Vec::new();
        let spans = chips.map(|chip| {
            let gap = chip.seed % 4;
            bytes.extend(std::iter::repeat_n(GAP, gap as usize));
            let start = bytes.len() as u32;
            bytes.extend(chip.bytes());
            Span {
                present: chip.present,
                start,
                length: chip.length,
            }
        });
        let spans = spans_record(spans).to_vec();
        Self {
            spans,
            bytes,
            seed: None,
        }
    }

    /// Swaps the bytes of each pair within each chip, of which no two share bytes.
    pub fn swap_pairs(&mut self) {
        let (spans, _) = self.spans.as_chunks::<SPAN>();
        for span in spans {
            let start = four(span, image_span::START) as usize;
            let length = four(span, image_span::LENGTH) as usize;
            swap_pairs(&mut self.bytes[start..][..length]);
        }
    }

    /// One sequence takes the place of the chips' own bytes, so that a case can say what stands at
    /// any place that a wrong span names.
    pub fn become_sequence(&mut self, random: &mut Random) {
        let seed = random.below(1 << 32) as u32;
        let sequence = ChipBytes {
            present: true,
            length: self.bytes.len() as u32,
            seed,
        };
        self.bytes = sequence.bytes();
        self.seed = Some(seed);
    }

    /// What a case says of them; none if no case can.
    pub fn chips(&self) -> Option<[ChipBytes; 4]> {
        chip_bytes(&self.spans, self.seed?, self.bytes.len())
    }

    pub fn has_record(&self) -> bool {
        chip_bytes(&self.spans, 0, 0).is_some()
    }

    pub fn part(&mut self) -> Part<'_> {
        Part {
            record: &mut self.spans,
            length: images::LENGTH,
            head: SPAN,
        }
    }
}
