//! What cases came to: how often each answer came, and what differed from those of the judges.

use std::collections::BTreeMap;
use std::fmt;

use oracle::case::{Case, line_of};
use oracle::differences;
use oracle::tally::{Outcome, Tally, outcome};

use super::OUT_OF_DOMAIN;
use super::calls::{Answer, Call};
use super::fenced::Refuses;
use super::orders::Judge;

/// What the cases of a trial came to.
#[derive(Default)]
pub struct Seen {
    pub count: u64,
    /// How many succeed with words of two bytes, for which the byte order counts.
    wide: u64,
    /// How many no case can be, so that docs/INTERFACE.md alone has their answer.
    unsaid: u64,
    tally: Tally,
    /// Where the original parts from 01, by the number in docs/DIFFERENCES.md.
    listed: BTreeMap<u32, u64>,
    different: BTreeMap<&'static str, u64>,
    example: Option<String>,
}

impl Seen {
    /// Holds the library's answer against those of the judges to the same case; without a case,
    /// against 1.
    pub fn add<const READ: usize, const LENT: usize, C: Call<READ, LENT>>(
        &mut self,
        call: &C,
        ours: Answer,
        refuses: Refuses,
        case: Option<&Case>,
        judges: (Judge, Option<Judge>),
    ) {
        self.count += 1;
        self.wide += u64::from(call.is_wide() && outcome(&ours.line).1 == Outcome::Success);
        self.tally.add(&ours.line);
        let wanted = match case {
            Some(case) => self.wanted(case, judges),
            None => {
                self.unsaid += 1;
                vec![("docs/INTERFACE.md", no_record::<READ, LENT, C>())]
            }
        };
        let handed_in = || case.map_or_else(|| format!("{:?}", call.read()), Case::line);
        for (who, theirs) in wanted {
            if ours != theirs {
                self.note(who, &handed_in(), &ours.line, &theirs.line);
            }
        }
        if !refuses.short_buffers {
            let (who, wanted) = ("01 on a buffer too short", "16, nothing written");
            self.note(who, &handed_in(), &ours.line, wanted);
        }
        if !refuses.other_orders {
            let (who, wanted) = ("02 on another byte order", "1, nothing written");
            self.note(who, &handed_in(), &ours.line, wanted);
        }
    }

    /// Whose answers count: the model's alone where there is no other judge, and where
    /// docs/DIFFERENCES.md has the case.
    fn wanted(
        &mut self,
        case: &Case,
        (model, original): (Judge, Option<Judge>),
    ) -> Vec<(&'static str, Answer)> {
        let model = Answer::of(&model, case);
        let Some(original) = original.map(|original| Answer::of(&original, case)) else {
            return vec![("the model", model)];
        };
        let listed = if original == model {
            None
        } else {
            differences::number(case, &original.line, &model.line)
        };
        let Some(number) = listed else {
            return vec![("the original", original), ("the model", model)];
        };
        *self.listed.entry(number).or_default() += 1;
        vec![("the model", model)]
    }

    fn note(&mut self, who: &'static str, case: &str, ours: &str, theirs: &str) {
        *self.different.entry(who).or_default() += 1;
        self.example
            .get_or_insert_with(|| format!("  case {case}\n  ours {ours}\n  {who}: {theirs}"));
    }

    pub fn differences(&self) -> u64 {
        self.different.values().sum()
    }
}

impl fmt::Display for Seen {
    fn fmt(&self, f: &mut fmt::Formatter<'_>) -> fmt::Result {
        self.tally.fmt(f)?;
        if self.wide > 0 {
            writeln!(f, "  with words of two bytes: {}", self.wide)?;
        }
        if self.unsaid > 0 {
            writeln!(f, "  held against docs/INTERFACE.md alone: {}", self.unsaid)?;
        }
        for (listed, number) in &self.listed {
            writeln!(
                f,
                "  held against the model alone, difference {listed}: {number}"
            )?;
        }
        for (who, number) in &self.different {
            writeln!(f, "  different from {who}: {number}")?;
        }
        if let Some(example) = &self.example {
            writeln!(f, "{example}")?;
        }
        writeln!(
            f,
            "{} cases, {} differences",
            self.count,
            self.differences()
        )
    }
}

/// The answer to bytes that are no record.
fn no_record<const READ: usize, const LENT: usize, C: Call<READ, LENT>>() -> Answer {
    let numbers = [&[C::KIND, OUT_OF_DOMAIN, 0], C::NO_RECORD].concat();
    Answer {
        line: line_of(&numbers),
        bytes: Vec::new(),
    }
}
