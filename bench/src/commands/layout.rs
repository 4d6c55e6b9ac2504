//! `onerom-bench layout`: both layouts of a described slot and the drawing of its socket, the slot that
//! stores its table, and the pin page.

use std::ffi::OsString;
use std::path::Path;
use std::process::ExitCode;

use onerom::{
    AddrLayout, ByteOrder, CsDataLayout, Description, StoredSlot, build_rom_image,
    derive_addr_layout, derive_cs_data_layout, pin_page,
};
use onerom_bench::text::Ordered;
use onerom_bench::{show, socket, text};

use super::{Command, Flags};
use crate::ending::{Done, Fault, say};
use crate::hints::hinted;
use crate::inputs::{NO_FILE, described};
use crate::outputs::{keep, write_whole};
use crate::reach::{PART, parts_served};
use crate::wiring::complaints;

/// The flag by which the pin page is printed too.
const PAGE: &str = "--page";

pub const LAYOUT: Command = Command {
    name: "layout",
    words: "[--page] [--part] FILE [SLOT]",
    summary: "Lays out the slot that a file describes, and draws its socket",
    help: "\
Reads FILE, a description. Writes the RP2350's package, the GPIOs of the address
lines, those of the data and select lines and a drawing of the socket to the
standard output; to SLOT, if it is given, the slot that stores the table, for
`read-back`, with `order high` if FILE has that line. SLOT is written when both
layouts are found, whole or not at all, and may replace a file that is there,
but none that is read. With --page the output ends with the pin page, which
`page` writes by itself.

Where the slot is not well wired it says why: what is built may not read back.
Where the address lines in use do not reach all words of a chip, and no excess
line explains it, that is told and SLOT is not written; --part accepts it. The
same goes for what the build would refuse, such as a table past the limit.

Exit codes: 0 laid out; 1 a search refuses, the build would, or words of a chip
are not reached; 2 other words, or a file that cannot be used.

Example:
    onerom-bench layout 2764.txt slot.txt
",
    flags: &[PAGE, PART],
    run,
};

fn run(words: &[OsString], flags: &Flags) -> Done {
    match words {
        [file] => lay_out(Path::new(file), None, flags)?,
        [file, stored] => lay_out(Path::new(file), Some(Path::new(stored)), flags)?,
        _ => return Err(Fault::Words),
    }
    Ok(ExitCode::SUCCESS)
}

fn lay_out(file: &Path, stored: Option<&Path>, flags: &Flags) -> Result<(), Fault> {
    if stored == Some(Path::new(NO_FILE)) {
        let why = "expected a file's name: the layouts go to the standard output";
        return Err(Fault::of_file(Path::new(NO_FILE), why));
    }
    let (Ordered { slot, order }, files) = described(file)?;
    let order = order.map_or_else(ByteOrder::default, |named| named.order);
    if let Some(stored) = stored {
        keep(&files, "slot", stored)?;
    }
    let (addr, cs_data) = print_layouts(&slot)?;
    let tell = |text: &str| say(&format!("\n{text}"));
    expect_stored(&slot, (&addr, &cs_data), flags.has(PART), tell)?;
    if let Some(stored) = stored {
        let text = text::write_slot(&StoredSlot::of_layouts(&slot, &addr, &cs_data), order);
        write_whole(&[(stored, text.as_bytes())])?;
        say(&format!("\n{}: stored slot\n", stored.display()))?;
    }
    if flags.has(PAGE) {
        let page = pin_page(&addr, &cs_data)?;
        say(&format!("\n{}", String::from_utf8_lossy(&page)))?;
    }
    Ok(())
}

/// Tells what is wrong with the wiring, which parts of the chips are served, and what keeps a slot from
/// being stored: words that are not reached, and what the build refuses.
pub fn expect_stored(
    slot: &Description,
    (addr, cs_data): (&AddrLayout, &CsDataLayout),
    part: bool,
    tell: impl Fn(&str) -> Result<(), Fault>,
) -> Result<(), Fault> {
    let wrong = complaints(slot, addr)?;
    if !wrong.is_empty() {
        tell(&wrong)?;
    }
    let parts = parts_served(slot, addr, part)?;
    if !parts.is_empty() {
        tell(&parts)?;
    }
    expect_built(slot, addr, cs_data)
}

/// What the build refuses by these layouts, whatever bytes the chips have and in whichever order.
fn expect_built(
    slot: &Description,
    addr: &AddrLayout,
    cs_data: &CsDataLayout,
) -> Result<(), Fault> {
    let blank = slot.chips.iter().map(|chip| vec![0; chip.size as usize]);
    let blank: Vec<Vec<u8>> = blank.collect();
    let images: Vec<Option<&[u8]>> = blank.iter().map(|chip| Some(&chip[..])).collect();
    let table = build_rom_image(slot, addr, cs_data, &images, ByteOrder::default());
    table
        .map(drop)
        .map_err(|refusal| hinted(slot, &images, refusal))
}

/// Prints each layout as soon as it is found: an address layout without the other is of use too.
pub fn print_layouts(slot: &Description) -> Result<(AddrLayout, CsDataLayout), Fault> {
    let of_slot = |refusal| hinted(slot, &[], refusal);
    let addr = derive_addr_layout(slot).map_err(of_slot)?;
    say(&show::addr_summary(slot, &addr))?;
    say(&show::addr_table(&addr))?;
    say("\n")?;
    let cs_data = derive_cs_data_layout(slot, Some(&addr)).map_err(of_slot)?;
    say(&show::cs_data_summary(&cs_data))?;
    say(&show::cs_data_table(slot, &cs_data))?;
    say("\n")?;
    say(&socket::drawing(slot, &addr, &cs_data))?;
    Ok((addr, cs_data))
}
