//! The pin page: a text that says what each GPIO serves under two layouts.

use crate::call::write_page_into;
use crate::interface::pin_page as at;
use crate::layout::addr::AddrLayout;
use crate::layout::cs_data::CsDataLayout;
use crate::refusal::{Call, Refusal};

/// Bytes of the page.
pub const LENGTH: usize = at::RECORD_SIZE;

/// The pin page of two layouts, whether a search found them or not: a row for each GPIO, in ASCII, with
/// a line feed behind it.
pub fn pin_page(addr: &AddrLayout, cs_data: &CsDataLayout) -> Result<[u8; LENGTH], Refusal> {
    let mut page = [0; LENGTH];
    let result = write_page_into(&addr.to_bytes(), &cs_data.to_bytes(), &mut page);
    Refusal::or_length(Call::Page, result)?;
    Ok(page)
}
