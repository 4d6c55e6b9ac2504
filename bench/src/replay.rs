//! `onerom-bench replay`: a fixed list of docs/CASES.md through the C interface. It needs the list alone, not
//! the original's files.

use std::fmt;
use std::path::Path;
use std::process::ExitCode;

use oracle::case::Case;

use crate::compare::build::Build;
use crate::compare::calls::Call;
use crate::compare::fenced::{Fences, Turn};
use crate::compare::read_back::ReadBack;
use crate::compare::round_trip::RoundTrip;
use crate::compare::searches::{AddressSearch, SelectSearch};
use crate::ending::{Done, Fault, say};
use crate::inputs::bytes_up_to;
use crate::progress::Progress;

/// Bytes of the longest list that is read.
const LONGEST: usize = 1 << 28;

/// How many differences are shown.
const SHOWN: usize = 5;

/// Kinds of cases, from 1.
const KINDS: usize = 9;

/// Runs each line's case that has an exported call, kinds 5 to 9, and holds the library's answer
/// against the line's. Prints how many there are of each kind and how many differ, with the first of
/// these. The exit is 1 if one differs or a line is no case with its answer, 2 if the file cannot be
/// read or has no line.
pub fn replay(file: &Path) -> Done {
    let bytes = bytes_up_to(file, LONGEST)?;
    let list = String::from_utf8_lossy(&bytes);
    let lines = list.lines().count() as u64;
    if lines == 0 {
        return Err(Fault::of_file(
            file,
            "expected a case a line, found no line",
        ));
    }
    let (mut player, mut seen) = (Player::default(), Seen::default());
    let mut progress = Progress::new("replayed", lines);
    for (number, line) in (1..).zip(list.lines()) {
        seen.add(number, line, &mut player);
        progress.step(number);
    }
    drop(progress);
    say(&seen.to_string())?;
    Ok(if seen.unread == 0 && seen.differences.is_empty() {
        ExitCode::SUCCESS
    } else {
        ExitCode::FAILURE
    })
}

/// The calls, each with room for its slices.
#[derive(Default)]
struct Player {
    address: Fences<1, 1>,
    select: Fences<2, 1>,
    build: Fences<5, 1>,
    read_back: Fences<2, 2>,
    round_trip: Fences<3, 3>,
}

impl Player {
    /// The library's answer to a case; none if its kind has no exported call.
    fn answer(&mut self, case: &Case, turn: Turn) -> Option<String> {
        let answer = match case {
            Case::AddressSearch(_) => self.address.answer(&AddressSearch::of(case)?, turn),
            Case::SelectSearch(..) => self.select.answer(&SelectSearch::of(case)?, turn),
            Case::Build(_) => self.build.answer(&Build::of(case)?, turn),
            Case::ReadBack(_) => self.read_back.answer(&ReadBack::of(case)?, turn),
            Case::Chain(..) => self.round_trip.answer(&RoundTrip::of(case)?, turn),
            _ => return None,
        };
        Some(answer.line)
    }
}

/// How many cases of a kind there were, and how many of them differed; none if it has no call.
#[derive(Clone, Copy, Default)]
struct Kind {
    cases: u64,
    different: Option<u64>,
}

#[derive(Default)]
struct Seen {
    kinds: [Kind; KINDS],
    unread: u64,
    /// Of the first few, by line.
    differences: Vec<String>,
}

impl Seen {
    fn add(&mut self, number: u64, line: &str, player: &mut Player) {
        let pair = line.split_once(" : ");
        let Some((case, wanted)) =
            pair.and_then(|(case, wanted)| Some((Case::read(case)?, wanted)))
        else {
            self.unread += 1;
            return;
        };
        let kind = &mut self.kinds[case.kind() as usize - 1];
        kind.cases += 1;
        let Some(ours) = player.answer(&case, Turn::of(number)) else {
            return;
        };
        let different = kind.different.get_or_insert(0);
        if ours != wanted {
            *different += 1;
            if self.differences.len() < SHOWN {
                let told = format!("line {number}\n  ours   {ours}\n  wanted {wanted}\n");
                self.differences.push(told);
            }
        }
    }
}

impl fmt::Display for Seen {
    fn fmt(&self, f: &mut fmt::Formatter<'_>) -> fmt::Result {
        for (number, kind) in (1..).zip(&self.kinds) {
            match (kind.cases, kind.different) {
                (0, _) => {}
                (cases, Some(different)) => {
                    writeln!(f, "kind {number}: {cases} cases, {different} differ")?;
                }
                (cases, None) => {
                    writeln!(f, "kind {number}: {cases} cases, no exported call")?;
                }
            }
        }
        writeln!(f, "unread: {}", self.unread)?;
        self.differences
            .iter()
            .try_for_each(|told| f.write_str(told))
    }
}
