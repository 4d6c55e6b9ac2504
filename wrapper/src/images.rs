//! The chips' bytes as a build takes them: one slice, and the record of where each chip's stand.

use crate::bytes::put;
use crate::description::MOST_CHIPS;
use crate::interface::{image_span as at, image_spans};

/// Bytes of the image spans record.
pub const LENGTH: usize = image_spans::RECORD_SIZE;

/// Bytes of the record for one chip.
pub const SPAN: usize = at::RECORD_SIZE;

/// No chip has more bytes.
pub const LARGEST_CHIP: usize = 1 << 24;

/// Where a chip's bytes stand in the slice.
#[derive(Debug, Clone, Copy, PartialEq, Eq)]
pub struct Span {
    /// Whether the chip has bytes; if not, the other two count for nothing.
    pub present: bool,
    /// Place of its first byte in the slice.
    pub start: u32,
    /// How many bytes it has; those past the slice's end are none.
    pub length: u32,
}

impl Span {
    /// The chip's part of the record.
    pub fn to_bytes(self) -> [u8; SPAN] {
        let mut bytes = [0; SPAN];
        bytes[at::GIVEN] = u8::from(self.present);
        put(&mut bytes[at::START], self.start.to_le_bytes());
        put(&mut bytes[at::LENGTH], self.length.to_le_bytes());
        bytes
    }
}

/// The record of these spans; chips past them have no bytes.
pub fn spans_record(spans: impl IntoIterator<Item = Span>) -> [u8; LENGTH] {
    let mut record = [0; LENGTH];
    put(&mut record, spans.into_iter().flat_map(Span::to_bytes));
    record
}

/// The chips' bytes end to end, and their record. What no chip can have is left out, a fifth chip
/// or bytes past the largest size, so that every place is a number of the record.
pub fn joined(images: &[Option<&[u8]>]) -> ([u8; LENGTH], Vec<u8>) {
    let mut bytes = Vec::new();
    let mut span = |image: &Option<&[u8]>| {
        let start = bytes.len();
        let own = image.unwrap_or_default();
        bytes.extend_from_slice(&own[..own.len().min(LARGEST_CHIP)]);
        Span {
            present: image.is_some(),
            start: start as u32,
            length: (bytes.len() - start) as u32,
        }
    };
    let spans: Vec<Span> = images.iter().take(MOST_CHIPS).map(&mut span).collect();
    (spans_record(spans), bytes)
}
