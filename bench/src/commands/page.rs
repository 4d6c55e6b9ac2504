//! `onerom-bench page`: the pin page of a described slot.

use std::ffi::{OsStr, OsString};
use std::path::Path;

use onerom::{Description, page, pin_page};

use super::layout::expect_stored;
use super::{Command, Flags};
use crate::ending::{Done, Fault, complain};
use crate::hints::hinted;
use crate::inputs::{NO_FILE, described};
use crate::laid_out;
use crate::outputs::{keep, written};
use crate::reach::PART;

pub const PAGE: Command = Command {
    name: "page",
    words: "[--part] FILE [PAGE]",
    summary: "Writes the pin page of the slot that a file describes",
    help: "\
Reads FILE, a description, and lays out its slot. Writes the pin page to PAGE, a
row for each GPIO from 0 to 47 with its role: A0 to A23 and D0 to D15, X1, X2,
CE, OE, CS1 to CS4, HALF for an address line past the largest table, or `-`. A
GPIO with several shows the first of address line, data line, X pin, select and
commoned line. PAGE is written whole or not at all, and may replace a file that
is there, but none that is read; `-` and no PAGE are the standard output, which
has the page and nothing else.

What `layout` tells of the slot goes to the standard error: that it is not well
wired, or that a chip is served in part. Where words of a chip are not reached,
and no excess line explains it, there is no page; --part accepts it. Nor is
there one where the build would be refused.

Exit codes: 0 written; 1 a search refuses, the build would, or words of a chip
are not reached; 2 other words, or a file that cannot be used.

Example:
    onerom-bench page 2764.txt page.txt
",
    flags: &[PART],
    run,
};

fn run(words: &[OsString], flags: &Flags) -> Done {
    let (file, page) = match words {
        [file] => (file, OsStr::new(NO_FILE)),
        [file, page] => (file, page.as_os_str()),
        _ => return Err(Fault::Words),
    };
    let page = Path::new(page);
    let (told, files) = described(Path::new(file))?;
    if page != Path::new(NO_FILE) {
        keep(&files, "page", page)?;
    }
    let bytes = page_of(&told.slot, flags.has(PART))?;
    written(page, &bytes, "pin page", "")
}

/// The page of a slot that `layout` would store. The rest of what that tells is complained of.
fn page_of(slot: &Description, part: bool) -> Result<[u8; page::LENGTH], Fault> {
    let (addr, cs_data) = laid_out(slot).map_err(|refusal| hinted(slot, &[], refusal))?;
    let tell = |text: &str| {
        complain(text);
        Ok(())
    };
    expect_stored(slot, (&addr, &cs_data), part, tell)?;
    Ok(pin_page(&addr, &cs_data)?)
}
