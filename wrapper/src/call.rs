//! The calls over the C interface.

use crate::description::Description;
use crate::images;
use crate::interface::{
    addr_layout as layout_at, description as described, onerom_build_rom_image,
    onerom_derive_addr_layout, onerom_derive_cs_data_layout, onerom_hex_fault_line,
    onerom_read_hex, onerom_round_trip, onerom_unscramble_slot, onerom_well_wired,
    onerom_write_hex, onerom_write_page,
};
use crate::layout::addr::{self, AddrLayout};
use crate::layout::cs_data::{self, CsDataLayout};
use crate::order::ByteOrder;
use crate::refusal::{Call, Refusal};

/// No description allows a larger table.
pub const LARGEST_TABLE: usize = 1 << 20;

/// The address search as the library makes it: 0 and the layout record in the lent buffer, or a
/// refusal's number times 2^48 plus its place and the buffer as it was.
pub fn derive_addr_layout_into(description: &[u8], layout: &mut [u8]) -> u64 {
    // SAFETY: each pointer goes with the length of its own slice, and the two slices do not
    // overlap, one being lent for writing. The library is proved to read and write only inside
    // the lengths, to end on every input, and to keep neither pointer.
    unsafe {
        onerom_derive_addr_layout(
            description.as_ptr(),
            description.len(),
            layout.as_mut_ptr(),
            layout.len(),
        )
    }
}

/// The address layout of a slot.
pub fn derive_addr_layout(slot: &Description) -> Result<AddrLayout, Refusal> {
    let mut record = [0; addr::LENGTH];
    let result = derive_addr_layout_into(&slot.to_bytes(), &mut record);
    match Refusal::of(Call::Address, result) {
        None => Ok(AddrLayout::read(&record)),
        Some(refusal) => Err(refusal),
    }
}

/// The select search in the same way. An address layout of no bytes is none.
pub fn derive_cs_data_layout_into(
    description: &[u8],
    addr_layout: &[u8],
    layout: &mut [u8],
) -> u64 {
    // SAFETY: as above. The two slices that are read may share bytes: while nobody writes them
    // they are as good as two copies. The one that is written overlaps neither.
    unsafe {
        onerom_derive_cs_data_layout(
            description.as_ptr(),
            description.len(),
            addr_layout.as_ptr(),
            addr_layout.len(),
            layout.as_mut_ptr(),
            layout.len(),
        )
    }
}

/// The select and data layout of a slot, beside its address layout if it has one.
pub fn derive_cs_data_layout(
    slot: &Description,
    addr: Option<&AddrLayout>,
) -> Result<CsDataLayout, Refusal> {
    let addr_layout = addr.map_or(vec![], |addr| addr.to_bytes().to_vec());
    let mut record = [0; cs_data::LENGTH];
    let result = derive_cs_data_layout_into(&slot.to_bytes(), &addr_layout, &mut record);
    match Refusal::of(Call::Select, result) {
        None => Ok(CsDataLayout::read(&record)),
        Some(refusal) => Err(refusal),
    }
}

/// The build in the same way: the table at the front of the lent buffer. The images are the bytes
/// of all chips, and the spans say where each chip's stand. The byte order goes as its number, since any
/// other is the library's to refuse.
pub fn build_rom_image_into(
    description: &[u8],
    addr_layout: &[u8],
    cs_data_layout: &[u8],
    spans: &[u8],
    images: &[u8],
    order: u64,
    table: &mut [u8],
) -> u64 {
    // SAFETY: as above.
    unsafe {
        onerom_build_rom_image(
            description.as_ptr(),
            description.len(),
            addr_layout.as_ptr(),
            addr_layout.len(),
            cs_data_layout.as_ptr(),
            cs_data_layout.len(),
            spans.as_ptr(),
            spans.len(),
            images.as_ptr(),
            images.len(),
            order,
            table.as_mut_ptr(),
            table.len(),
        )
    }
}

/// The table of a slot, by its layouts and the bytes of its chips in this byte order. A chip past the
/// list's end has none.
pub fn build_rom_image(
    slot: &Description,
    addr: &AddrLayout,
    cs_data: &CsDataLayout,
    images: &[Option<&[u8]>],
    order: ByteOrder,
) -> Result<Vec<u8>, Refusal> {
    let (description, addr_layout) = (slot.to_bytes(), addr.to_bytes());
    let (spans, bytes) = images::joined(images);
    let mut table = vec![0; table_length(&description, &addr_layout)];
    let result = build_rom_image_into(
        &description,
        &addr_layout,
        &cs_data.to_bytes(),
        &spans,
        &bytes,
        order.number(),
        &mut table,
    );
    match Refusal::of(Call::Build, result) {
        None => Ok(table),
        Some(refusal) => Err(refusal),
    }
}

/// How long the table is that these records ask for; 0 where no limit allows it, since such a table
/// is refused before the buffer is looked at.
pub fn table_length(description: &[u8], addr_layout: &[u8]) -> usize {
    let word_bytes = description.get(described::WORD_BYTES);
    let (Some(&word_bytes), Some(&pins)) = (word_bytes, addr_layout.get(layout_at::PINS)) else {
        return 0;
    };
    let length = addr::table_bytes(pins, word_bytes);
    length
        .filter(|&length| length <= LARGEST_TABLE as u64)
        .unwrap_or(0) as usize
}

/// The read-back in the same way: the ROMs' words at the front of the output, their marks at the
/// front of the marks. Refusals 23 and 24 leave 0 there. The words go out in the byte order that has
/// this number.
pub fn unscramble_slot_into(
    slot: &[u8],
    stored: &[u8],
    order: u64,
    output: &mut [u8],
    marks: &mut [u8],
) -> u64 {
    // SAFETY: as above. The two that are written overlap no other either, each being lent alone.
    unsafe {
        onerom_unscramble_slot(
            slot.as_ptr(),
            slot.len(),
            stored.as_ptr(),
            stored.len(),
            order,
            output.as_mut_ptr(),
            output.len(),
            marks.as_mut_ptr(),
            marks.len(),
        )
    }
}

/// Both searches, the build and the read-back in turn: the first that refuses answers. A table that
/// is built stands at the front of its buffer, whatever the read-back answers then. The byte order that
/// has this number is the images' and the output's.
pub fn round_trip_into(
    description: &[u8],
    spans: &[u8],
    images: &[u8],
    order: u64,
    table: &mut [u8],
    output: &mut [u8],
    marks: &mut [u8],
) -> u64 {
    // SAFETY: as above.
    unsafe {
        onerom_round_trip(
            description.as_ptr(),
            description.len(),
            spans.as_ptr(),
            spans.len(),
            images.as_ptr(),
            images.len(),
            order,
            table.as_mut_ptr(),
            table.len(),
            output.as_mut_ptr(),
            output.len(),
            marks.as_mut_ptr(),
            marks.len(),
        )
    }
}

/// The test of the wiring as the library makes it: 0 if the slot is well wired, 1 if not, or a
/// refusal's number times 2^48.
pub fn well_wired_result(description: &[u8], addr_layout: &[u8]) -> u64 {
    // SAFETY: as above. Nothing is lent.
    unsafe {
        onerom_well_wired(
            description.as_ptr(),
            description.len(),
            addr_layout.as_ptr(),
            addr_layout.len(),
        )
    }
}

/// Whether a slot is well wired with an address layout. What both searches and the build accept of
/// such a slot is proved to read back.
pub fn well_wired(slot: &Description, addr: &AddrLayout) -> Result<bool, Refusal> {
    match well_wired_result(&slot.to_bytes(), &addr.to_bytes()) {
        NOT_WELL_WIRED => Ok(false),
        result => match Refusal::of(Call::WellWired, result) {
            None => Ok(true),
            Some(refusal) => Err(refusal),
        },
    }
}

/// The result where the answer is no.
const NOT_WELL_WIRED: u64 = 1;

/// The pin page as the library writes it: the page at the front of the lent buffer, and its length as
/// the result, or a refusal's number times 2^48 and the buffer as it was.
pub fn write_page_into(addr_layout: &[u8], cs_data_layout: &[u8], page: &mut [u8]) -> u64 {
    // SAFETY: as above.
    unsafe {
        onerom_write_page(
            addr_layout.as_ptr(),
            addr_layout.len(),
            cs_data_layout.as_ptr(),
            cs_data_layout.len(),
            page.as_mut_ptr(),
            page.len(),
        )
    }
}

/// The reading of Intel HEX as the library makes it: 0 and the chip's bytes in the lent buffer, which
/// is the whole chip, or a refusal's number times 2^48 and the buffer as it was.
pub fn read_hex_into(text: &[u8], chip: &mut [u8]) -> u64 {
    // SAFETY: as above.
    unsafe { onerom_read_hex(text.as_ptr(), text.len(), chip.as_mut_ptr(), chip.len()) }
}

/// The writing in the same way: the text at the front of the lent buffer, and its length as the
/// result.
pub fn write_hex_into(chip: &[u8], text: &mut [u8]) -> u64 {
    // SAFETY: as above.
    unsafe { onerom_write_hex(chip.as_ptr(), chip.len(), text.as_mut_ptr(), text.len()) }
}

/// The line of the first fault as the library says it: from 1, or 0 if there is none.
pub fn hex_fault_line_result(text: &[u8], chip_size: u64) -> u64 {
    // SAFETY: as above. Nothing is lent.
    unsafe { onerom_hex_fault_line(text.as_ptr(), text.len(), chip_size) }
}
