//! Cases with their answers, a pair to a line: what a fixed list is made of.

use std::io::{self, BufWriter, Write};
use std::process::ExitCode;

use crate::answer::answer;
use crate::case::Case;
use crate::model::Model;
use crate::original::Original;
use crate::run::Run;
use crate::{differences, generate};

/// Writes `case : answer` for each case. Stops and fails at a difference that is on no list.
pub fn list(run: &Run) -> io::Result<ExitCode> {
    let mut out = BufWriter::new(io::stdout().lock());
    for number in 0..run.count {
        let case = generate::case(run.seed, number, &run.kinds);
        match settled(&case) {
            Ok(answer) => writeln!(out, "{} : {answer}", case.line())?,
            Err(told) => {
                out.flush()?;
                eprintln!("{told}");
                return Ok(ExitCode::FAILURE);
            }
        }
    }
    out.flush()?;
    Ok(ExitCode::SUCCESS)
}

/// The original's answer, or the model's where docs/DIFFERENCES.md has the pair; else what to say.
fn settled(case: &Case) -> Result<String, String> {
    let (original, model) = (answer(&Original, case), answer(&Model::LOW_FIRST, case));
    if original == model || differences::number(case, &original, &model).is_some() {
        return Ok(model);
    }
    Err(format!(
        "a difference on no list\n  case     {}\n  original {original}\n  01       {model}",
        case.line()
    ))
}
