//! Cases of a seed that are each held against the model: how often each answer came, and what differed.

use std::collections::BTreeMap;
use std::process::ExitCode;

use crate::ending::{Done, say};
use crate::progress::Progress;

/// What the cases of a seed came to.
#[derive(Default)]
pub struct Tried {
    count: u64,
    numbers: BTreeMap<u64, u64>,
    different: u64,
    example: Option<String>,
}

impl Tried {
    /// Tries so many cases by their numbers. Each comes to the refusal's number that is told, 0 for none,
    /// or to what is not the model's.
    pub fn all(what: &str, count: u64, mut tried: impl FnMut(u64) -> Result<u64, String>) -> Self {
        let mut progress = Progress::new(what, count);
        let mut all = Self::default();
        for number in 0..count {
            all.add(tried(number));
            progress.step(number + 1);
        }
        all
    }

    fn add(&mut self, told: Result<u64, String>) {
        self.count += 1;
        match told {
            Ok(number) => *self.numbers.entry(number).or_default() += 1,
            Err(why) => {
                self.different += 1;
                self.example.get_or_insert(why);
            }
        }
    }

    /// How often each answer came, below a head; `done` is what no refusal is.
    pub fn told(&self, head: &str, done: &str) -> String {
        let mut told = format!("{head}, held against the model\n");
        for (number, times) in &self.numbers {
            let name = match number {
                0 => done.into(),
                _ => format!("refusal {number}"),
            };
            told += &format!("  {name:<10} {times}\n");
        }
        told
    }

    /// Says how many differ of these cases, and shows the first. Fails on any difference.
    pub fn judged(&self, cases: &str) -> Done {
        let (count, different) = (self.count, self.different);
        let example = self.example.iter().map(|why| format!("  {why}\n"));
        let example: String = example.collect();
        say(&format!(
            "{example}{count} {cases}, {different} differences\n"
        ))?;
        Ok(match different {
            0 => ExitCode::SUCCESS,
            _ => ExitCode::FAILURE,
        })
    }
}
