//! The pairings for a program: a line each, its fields parted by commas.

use super::{Outcome, Pairing, Untried};

const HEAD: &str = "board,chip,set,result,call,number,place\n";

/// A line that names the fields, then a line for each pairing.
pub fn lines(pairings: &[Pairing]) -> String {
    let mut text = HEAD.to_string();
    text.extend(pairings.iter().map(line));
    text
}

fn line(pairing: &Pairing) -> String {
    let (call, number, place) = match &pairing.outcome {
        Outcome::Refused(refusal) => (
            refusal.call.to_string(),
            refusal.number.to_string(),
            refusal.place.to_string(),
        ),
        Outcome::Untried(Untried::NoOffset) => (String::new(), "10".into(), "0".into()),
        _ => Default::default(),
    };
    let (board, chip) = (field(&pairing.board.name), field(&pairing.chip.name));
    let (set, result) = (pairing.set.name, word(&pairing.outcome));
    format!("{board},{chip},{set},{result},{call},{number},{place}\n")
}

/// The result in a word.
fn word(outcome: &Outcome) -> &'static str {
    match outcome {
        Outcome::Whole => "ok",
        Outcome::Part => "part",
        Outcome::Lost => "lost",
        Outcome::Wiring => "wiring",
        Outcome::Different => "differs",
        Outcome::Refused(_) => "refused",
        Outcome::Untried(Untried::Larger) => "larger",
        Outcome::Untried(Untried::NoOffset) => "no-offset",
        Outcome::Untried(Untried::NoSelect) => "no-select",
    }
}

/// A name in quotes, where it has a letter that would part or end it.
fn field(name: &str) -> String {
    if name.contains([',', '"', '\n', '\r']) {
        format!("\"{}\"", name.replace('"', "\"\""))
    } else {
        name.into()
    }
}
