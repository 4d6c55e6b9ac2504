//! What was measured, as tables of docs/PERFORMANCE.md.

use std::path::Path;
use std::time::Duration;

use onerom::ByteOrder;

use super::{Row, Table, Times};
use crate::ending::Fault;
use crate::inputs::text_of;
use crate::outputs::write_whole;

/// The two lines of a file between which tables go.
type Marks = [&'static str; 2];

pub const MARKS: Marks = ["<!-- measured -->", "<!-- end of what is measured -->"];

/// Those of Intel HEX.
pub const HEX_MARKS: Marks = [
    "<!-- measured, Intel HEX -->",
    "<!-- end of what is measured, Intel HEX -->",
];

/// A table for each call.
pub fn tables(tables: &[Table]) -> String {
    let tables: Vec<String> = tables.iter().map(table).collect();
    tables.join("\n")
}

fn table(table: &Table) -> String {
    let (call, [one, other]) = (table.call, table.size);
    let head =
        format!("| {call} | answer | {one} | {other} | original | ours | ratio | in a round |\n");
    let rule = format!("|{}\n", "---|".repeat(8));
    let rows: String = table.rows.iter().map(row).collect();
    head + &rule + &rows
}

/// The best times of all rounds with their ratio, and the lowest and highest ratio of a round.
fn row(row: &Row) -> String {
    let best = Times {
        original: least(row, |times| times.original),
        ours: least(row, |times| times.ours),
    };
    let ratios = || row.rounds.iter().map(Times::ratio);
    let (low, high) = (
        ratios().fold(f64::INFINITY, f64::min),
        ratios().fold(0.0, f64::max),
    );
    let (answer, [one, other]) = (&row.pair.answer, row.input.size);
    let name = match row.input.order {
        ByteOrder::LowFirst => row.input.name.to_string(),
        order => format!("{}, {order}", row.input.name),
    };
    let (original, ours) = (shown(best.original), shown(best.ours));
    let ratio = best.ratio();
    format!(
        "| {name} | {answer} | {one} | {other} | {original} | {ours} | {ratio:.1} | {low:.1} to {high:.1} |\n"
    )
}

fn least(row: &Row, time: fn(&Times) -> Duration) -> Duration {
    row.rounds.iter().map(time).min().unwrap_or_default()
}

pub fn shown(time: Duration) -> String {
    let microseconds = time.as_secs_f64() * 1e6;
    if microseconds < 1000.0 {
        format!("{microseconds:.2} µs")
    } else {
        format!("{:.2} ms", microseconds / 1000.0)
    }
}

/// A file that tables go into, by what stands before and after them.
pub struct Page<'a> {
    file: &'a Path,
    marks: Marks,
    before: String,
    after: String,
}

impl<'a> Page<'a> {
    pub fn read(file: &'a Path, marks: Marks) -> Result<Self, Fault> {
        let [first, last] = marks;
        let (text, _) = text_of(file, |text, _| Ok(text.to_string()))?;
        let rest = text.split_once(first);
        let parts = rest.and_then(|(before, rest)| Some((before, rest.split_once(last)?.1)));
        let (before, after) = parts.ok_or_else(|| {
            let why = format!("expected the lines `{first}` and `{last}`, between which tables go");
            Fault::of_file(file, why)
        })?;
        Ok(Self {
            file,
            marks,
            before: before.into(),
            after: after.into(),
        })
    }

    /// Puts the tables in the place of those that stand there.
    pub fn put(&self, tables: &str) -> Result<(), Fault> {
        let (before, after, [first, last]) = (&self.before, &self.after, self.marks);
        let text = format!("{before}{first}\n\n{tables}\n{last}{after}");
        write_whole(&[(self.file, text.as_bytes())])
    }
}
