//! Counts of answers, by kind and number.

use std::collections::BTreeMap;
use std::fmt;

/// How an answer line came out: a success, a refusal's number, a panic.
#[derive(Debug, Clone, Copy, PartialEq, Eq, PartialOrd, Ord)]
pub enum Outcome {
    Success,
    Refused(u64),
    Panic,
    Unread,
}

pub fn outcome(line: &str) -> (u64, Outcome) {
    let mut words = line.split_ascii_whitespace();
    let kind = words.next().and_then(|word| word.parse().ok()).unwrap_or(0);
    let outcome = match words.next() {
        Some("panic") => Outcome::Panic,
        Some(word) => match word.parse() {
            Ok(0) => Outcome::Success,
            Ok(number) => Outcome::Refused(number),
            Err(_) => Outcome::Unread,
        },
        None => Outcome::Unread,
    };
    (kind, outcome)
}

#[derive(Default)]
pub struct Tally(BTreeMap<(u64, Outcome), u64>);

impl Tally {
    pub fn add(&mut self, line: &str) {
        *self.0.entry(outcome(line)).or_default() += 1;
    }
}

impl fmt::Display for Tally {
    fn fmt(&self, f: &mut fmt::Formatter<'_>) -> fmt::Result {
        let mut last = None;
        for (&(kind, outcome), count) in &self.0 {
            if last != Some(kind) {
                writeln!(f, "kind {kind}")?;
                last = Some(kind);
            }
            writeln!(f, "  {:<10} {count}", name(outcome))?;
        }
        Ok(())
    }
}

pub fn name(outcome: Outcome) -> String {
    match outcome {
        Outcome::Success => "success".into(),
        Outcome::Refused(number) => format!("refusal {number}"),
        Outcome::Panic => "panic".into(),
        Outcome::Unread => "unread".into(),
    }
}
