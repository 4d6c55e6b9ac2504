//! The pairings as a person reads them: a table for each set, boards down and chips across, and
//! below them what the marks mean.

use std::collections::BTreeMap;
use std::fmt::Write;

use onerom::{Call, Refusal};

use super::{Outcome, Pairing, Untried};
use crate::ending::counted;

/// The calls of a pairing in their order, each with the letter that stands for it.
const CALLS: [(Call, char); 4] = [
    (Call::Address, 'a'),
    (Call::Select, 's'),
    (Call::Build, 'b'),
    (Call::ReadBack, 'r'),
];

/// What stands in the table's place for the pairing.
fn mark(outcome: &Outcome) -> String {
    match outcome {
        Outcome::Whole => "ok".into(),
        Outcome::Part => "part".into(),
        Outcome::Lost => "lost".into(),
        Outcome::Wiring => "wiring".into(),
        Outcome::Different => "differs".into(),
        Outcome::Refused(refusal) => {
            let own = CALLS.iter().find(|(call, _)| *call == refusal.call);
            let letter = own.map_or('?', |(_, letter)| *letter);
            format!("{letter}{}", refusal.number)
        }
        Outcome::Untried(Untried::Larger) => "-".into(),
        Outcome::Untried(Untried::NoOffset) => "10".into(),
        Outcome::Untried(Untried::NoSelect) => ".".into(),
    }
}

/// What a mark means, and its place among the others.
fn meaning(outcome: &Outcome) -> (usize, String) {
    match outcome {
        Outcome::Whole => (0, "reads back whole".into()),
        Outcome::Part => (
            1,
            "a part is served and reads back: the other lines are past the largest table".into(),
        ),
        Outcome::Lost => (
            2,
            "the address lines do not reach all words: one is missing?".into(),
        ),
        Outcome::Wiring => (
            3,
            "reads back, but is not well wired: the board may answer wrongly".into(),
        ),
        Outcome::Different => (4, "a word comes back as another".into()),
        Outcome::Refused(refusal) => (5 + turn(refusal), refused(refusal)),
        Outcome::Untried(why) => (9 + *why as usize, format!("not tried: {}", reason(*why))),
    }
}

fn turn(refusal: &Refusal) -> usize {
    let own = CALLS.iter().position(|(call, _)| *call == refusal.call);
    own.unwrap_or(CALLS.len())
}

fn refused(refusal: &Refusal) -> String {
    let Refusal {
        call, number, name, ..
    } = refusal;
    let meaning = refusal.meaning();
    format!("{call} refused: {number} {name}: {meaning}")
}

fn reason(why: Untried) -> &'static str {
    match why {
        Untried::Larger => "the chip has more pins than the socket",
        Untried::NoOffset => "10 IncompatiblePinCount: the chip does not go into this socket",
        Untried::NoSelect => "the chip has no line to select it by",
    }
}

/// All of it. The pairings stand set by set, board by board and chip by chip.
pub fn tables(pairings: &[Pairing]) -> String {
    let of_sets = pairings.chunk_by(|one, next| one.set == next.set);
    let mut text: String = of_sets.map(of_set).collect();
    text += &legend(pairings);
    text += &own_offsets(pairings);
    text += &counts(pairings);
    text
}

/// The name of the set, the chips' names, and a row for each board.
fn of_set(pairings: &[Pairing]) -> String {
    let rows: Vec<&[Pairing]> = (pairings)
        .chunk_by(|one, next| std::ptr::eq(one.board, next.board))
        .collect();
    let Some(first) = rows.first() else {
        return String::new();
    };
    let head: Vec<String> = first.iter().map(|one| one.chip.name.clone()).collect();
    let mut lines = vec![("board".to_string(), head)];
    for row in &rows {
        let marks = row.iter().map(|one| mark(&one.outcome)).collect();
        lines.push((row[0].board.name.clone(), marks));
    }
    format!("{}\n\n{}\n", first[0].set.name, grid(&lines))
}

/// Rows of cells, all columns as wide as the widest cell in them.
fn grid(lines: &[(String, Vec<String>)]) -> String {
    let width = |cells: &mut dyn Iterator<Item = &String>| {
        let widths = cells.map(|cell| cell.chars().count());
        widths.max().unwrap_or(0)
    };
    let first = width(&mut lines.iter().map(|(name, _)| name));
    let columns = lines.first().map_or(0, |(_, cells)| cells.len());
    let widths: Vec<usize> = (0..columns)
        .map(|column| width(&mut lines.iter().map(|(_, cells)| &cells[column])))
        .collect();
    let line = |(name, cells): &(String, Vec<String>)| {
        let cells = cells.iter().zip(&widths);
        let cells: String = cells
            .map(|(cell, &width)| format!("  {cell:<width$}"))
            .collect();
        format!("{}\n", format!("{name:<first$}{cells}").trim_end())
    };
    lines.iter().map(line).collect()
}

/// What the marks mean that are met.
fn legend(pairings: &[Pairing]) -> String {
    let mut met = BTreeMap::new();
    for one in pairings {
        let number = match &one.outcome {
            Outcome::Refused(refusal) => refusal.number,
            _ => 0,
        };
        let (place, meaning) = meaning(&one.outcome);
        met.insert((place, number, meaning), mark(&one.outcome));
    }
    let mut text = String::new();
    for ((_, _, meaning), mark) in met {
        // A String takes any text, so there is nothing to fail.
        let _ = writeln!(text, "{mark:<7}  {meaning}");
    }
    text
}

/// Boards that say themselves where a chip sits.
fn own_offsets(pairings: &[Pairing]) -> String {
    let boards: BTreeMap<&str, i8> = (pairings.iter())
        .filter_map(|one| Some((one.board.name.as_str(), one.board.told.offset?)))
        .collect();
    let line = |(name, offset)| format!("board {name} says offset {offset}, for every chip\n");
    boards.into_iter().map(line).collect()
}

fn counts(pairings: &[Pairing]) -> String {
    let count = |is: fn(&Outcome) -> bool| pairings.iter().filter(|one| is(&one.outcome)).count();
    let total = counted(pairings.len(), "pairing");
    let whole = count(|one| matches!(one, Outcome::Whole));
    let part = count(|one| matches!(one, Outcome::Part));
    let untried = count(|one| matches!(one, Outcome::Untried(_)));
    let faults = count(Outcome::is_fault);
    let refused = pairings.len() - whole - part - untried - faults;
    format!(
        "\n{total}: {whole} whole, {part} in part, {refused} refused, {untried} not tried, \
         {faults} at fault\n"
    )
}
