//! Multi-chip select, and how a control line's setting reads.

use crate::case::MultiSelect;
use crate::description::{IGNORED, Multi, NONE, Settings};
use crate::engine::{Told, refused};

const ACTIVE_LOW: u8 = 0;

/// How the line of a kind reads under the settings. A setting that is not given is active low.
pub fn reads(kind: u8, settings: &Settings) -> u8 {
    let given = |setting: u8| if setting == NONE { ACTIVE_LOW } else { setting };
    let [ce, oe, ..] = settings.lines;
    match (settings.form, kind) {
        (0, 2..=5) => given(settings.lines[usize::from(kind)]),
        (2, 0) => ce,
        (2, 1) => oe,
        (2, 2) => {
            if ce == IGNORED {
                oe
            } else {
                ce
            }
        }
        (2, 3) => {
            if ce == IGNORED {
                ce
            } else {
                oe
            }
        }
        _ => ACTIVE_LOW,
    }
}

pub fn select(case: &MultiSelect) -> Told<Multi> {
    let named: Vec<u8> = case
        .kinds
        .iter()
        .copied()
        .filter(|&kind| kind < 6)
        .collect();
    if let [only] = named[..] {
        return Ok(Multi {
            select: only,
            commoned: Vec::new(),
            ignored: Vec::new(),
        });
    }
    let (unused, used): (Vec<u8>, Vec<u8>) = named
        .iter()
        .partition(|&&kind| reads(kind, &case.secondary) == IGNORED);
    let (ignored, commoned) = unused
        .iter()
        .partition(|&&kind| reads(kind, &case.primary) == IGNORED);
    match used.last() {
        Some(&select) => Ok(Multi {
            select,
            commoned,
            ignored,
        }),
        None => refused(25, 0),
    }
}
