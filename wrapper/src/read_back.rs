//! The read-back and the round trip, with buffers lent as long as they need.

use crate::call::{derive_addr_layout, round_trip_into, table_length, unscramble_slot_into};
use crate::description::{Chip, Description, MOST_CHIPS};
use crate::images::{self, LARGEST_CHIP};
use crate::order::ByteOrder;
use crate::refusal::{Call, Refusal};
use crate::slot::StoredSlot;

/// The ROMs of a slot from the bytes that are stored for it, in this byte order; a plugin's bytes are
/// one.
pub fn unscramble_slot(
    slot: &StoredSlot,
    stored: &[u8],
    order: ByteOrder,
) -> Result<Vec<Vec<u8>>, Refusal> {
    let mut output = vec![0; slot.lengths(stored.len()).iter().sum()];
    let mut marks = vec![0; slot.marks(stored.len())];
    let result = unscramble_slot_into(
        &slot.to_bytes(),
        stored,
        order.number(),
        &mut output,
        &mut marks,
    );
    match Refusal::of(Call::ReadBack, result) {
        None => Ok(slot.cut(&output)),
        Some(refusal) => Err(refusal),
    }
}

/// What a round trip leaves in its buffers. Output and marks are as long as any slot of these chips
/// needs.
#[derive(Debug, Clone, PartialEq, Eq)]
pub struct RoundTrip {
    /// The table, of just its length.
    pub table: Vec<u8>,
    /// The chips' words in the byte order of the chips, chip after chip, and 0 past them.
    pub output: Vec<u8>,
    /// 1 for each of these words, and 0 past them.
    pub marks: Vec<u8>,
}

/// Both searches, the build and the read-back in turn, both of these in this byte order. A chip past
/// the list's end has no bytes.
pub fn round_trip(
    slot: &Description,
    images: &[Option<&[u8]>],
    order: ByteOrder,
) -> Result<RoundTrip, Refusal> {
    let description = slot.to_bytes();
    let (spans, bytes) = images::joined(images);
    let chips = slot.chips.iter().take(MOST_CHIPS);
    let bytes_of = |chip: &Chip| (chip.size as usize).min(LARGEST_CHIP);
    let room = chips.map(bytes_of).sum();
    // The trip does not say how long its table is. The address search does; where that refuses, so
    // does the trip, whatever is lent.
    let addr = derive_addr_layout(slot);
    let length = addr.map_or(0, |addr| table_length(&description, &addr.to_bytes()));
    let mut trip = RoundTrip {
        table: vec![0; length],
        output: vec![0; room],
        marks: vec![0; room],
    };
    let result = round_trip_into(
        &description,
        &spans,
        &bytes,
        order.number(),
        &mut trip.table,
        &mut trip.output,
        &mut trip.marks,
    );
    match Refusal::of(Call::RoundTrip, result) {
        None => Ok(trip),
        Some(refusal) => Err(refusal),
    }
}
