//! The layouts and their records.

pub mod addr;
pub mod cs_data;

/// A GPIO or an index of a record, if it is not the byte for none.
fn given(byte: u8, none: u8) -> Option<u8> {
    (byte != none).then_some(byte)
}
