//! A safe wrapper over the proved static library: a typed description of a slot, its record, the
//! two searches with their layouts, the build of a table, a stored slot with its record, the
//! read-back, and all four calls in turn; the pin page of two layouts; and a chip's bytes as a text
//! of Intel HEX. docs/INTERFACE.md gives the place of each number.
//!
//! Nothing here judges a description or a slot: whatever is handed in goes to the library, which
//! answers with a layout, a table, the ROMs' bytes, a text or a numbered refusal. `fence` has
//! buffers for trying that it touches nothing else.

#![warn(missing_docs)]

mod bytes;
mod call;
pub mod description;
pub mod fence;
mod hex;
pub mod images;
pub mod interface;
pub mod layout;
mod order;
pub mod page;
mod read_back;
pub mod refusal;
pub mod slot;

pub use call::{
    build_rom_image, build_rom_image_into, derive_addr_layout, derive_addr_layout_into,
    derive_cs_data_layout, derive_cs_data_layout_into, hex_fault_line_result, read_hex_into,
    round_trip_into, table_length, unscramble_slot_into, well_wired, well_wired_result,
    write_hex_into, write_page_into,
};
pub use description::Description;
pub use hex::{hex_fault_line, hex_length, hex_text, read_hex, write_hex};
pub use layout::addr::AddrLayout;
pub use layout::cs_data::CsDataLayout;
pub use order::ByteOrder;
pub use page::pin_page;
pub use read_back::{RoundTrip, round_trip, unscramble_slot};
pub use refusal::{Call, Refusal};
pub use slot::StoredSlot;
