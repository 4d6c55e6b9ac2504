//! The original against the model on the same cases.

use std::collections::BTreeMap;
use std::process::ExitCode;

use crate::answer::answer;
use crate::case::Case;
use crate::model::Model;
use crate::original::Original;
use crate::run::Run;
use crate::tally::{Outcome, name, outcome};
use crate::{differences, generate};

struct Group {
    count: u64,
    /// The shortest case line seen, and both answers to it.
    example: [String; 3],
}

/// By the number in docs/DIFFERENCES.md, the kind and both outcomes.
type Groups = BTreeMap<(Option<u32>, u64, Outcome, Outcome), Group>;

/// Fails if a difference is on no list.
pub fn compare(run: &Run) -> ExitCode {
    let mut groups = Groups::new();
    let mut equal = 0;
    for number in 0..run.count {
        let case = generate::case(run.seed, number, &run.kinds);
        let (original, model) = (answer(&Original, &case), answer(&Model::LOW_FIRST, &case));
        if original == model {
            equal += 1;
        } else {
            note(&mut groups, &case, original, model);
        }
    }
    let unlisted = print(&groups);
    println!(
        "{} cases, {equal} equal, {unlisted} different and not listed",
        run.count
    );
    if unlisted == 0 {
        ExitCode::SUCCESS
    } else {
        ExitCode::FAILURE
    }
}

fn note(groups: &mut Groups, case: &Case, original: String, model: String) {
    let listed = differences::number(case, &original, &model);
    let key = (listed, case.kind(), outcome(&original).1, outcome(&model).1);
    let example = [case.line(), original, model];
    let group = groups.entry(key).or_insert_with(|| Group {
        count: 0,
        example: example.clone(),
    });
    group.count += 1;
    if example[0].len() < group.example[0].len() {
        group.example = example;
    }
}

/// Prints the groups, the unlisted ones with a case; answers how many cases are unlisted.
fn print(groups: &Groups) -> u64 {
    let mut unlisted = 0;
    for ((listed, kind, original, model), group) in groups {
        let place = match listed {
            Some(number) => format!("difference {number}"),
            None => "NOT LISTED".into(),
        };
        let (original, model) = (name(*original), name(*model));
        let count = group.count;
        println!("{place}: kind {kind}, original {original}, 01 {model}: {count} cases");
        if listed.is_none() {
            unlisted += group.count;
            let [case, original, model] = &group.example;
            println!("  case     {case}\n  original {original}\n  01       {model}");
        }
    }
    unlisted
}
