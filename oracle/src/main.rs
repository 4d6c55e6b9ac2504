//! The original Rust as the judge: cases in, answers out. See README.md.

use std::io::{self, BufRead, BufWriter, Write};
use std::process::ExitCode;

use oracle::case::Case;
use oracle::engine::Engine;
use oracle::run::Run;
use oracle::{answer, generate, model, tally};

const USAGE: &str = "oracle answer | oracle model | oracle generate SEED COUNT [KINDS] | \
    oracle compare SEED COUNT [KINDS] | oracle list SEED COUNT [KINDS] | oracle differences | \
    oracle tally";

fn main() -> ExitCode {
    oracle::quiet_panics();
    let words: Vec<String> = std::env::args().skip(1).collect();
    let words: Vec<&str> = words.iter().map(String::as_str).collect();
    let done = match words[..] {
        ["answer"] => answer_original(),
        ["model"] => answer_with(&model::Model::LOW_FIRST).map(|()| ExitCode::SUCCESS),
        ["differences"] => Ok(print_differences()),
        ["tally"] => count_answers().map(|()| ExitCode::SUCCESS),
        ["generate", seed, count, ref kinds @ ..] => match Run::read(seed, count, kinds) {
            Some(run) => write_cases(&run).map(|()| ExitCode::SUCCESS),
            None => Ok(usage()),
        },
        ["compare", seed, count, ref kinds @ ..] => match Run::read(seed, count, kinds) {
            Some(run) => Ok(compare_run(&run)),
            None => Ok(usage()),
        },
        ["list", seed, count, ref kinds @ ..] => match Run::read(seed, count, kinds) {
            Some(run) => list_run(&run),
            None => Ok(usage()),
        },
        _ => Ok(usage()),
    };
    done.unwrap_or(ExitCode::FAILURE)
}

fn usage() -> ExitCode {
    eprintln!("{USAGE}");
    ExitCode::FAILURE
}

fn write_cases(run: &Run) -> io::Result<()> {
    let mut out = BufWriter::new(io::stdout().lock());
    for number in 0..run.count {
        writeln!(
            out,
            "{}",
            generate::case(run.seed, number, &run.kinds).line()
        )?;
    }
    out.flush()
}

fn answer_with(engine: &dyn Engine) -> io::Result<()> {
    let mut out = BufWriter::new(io::stdout().lock());
    for line in io::stdin().lock().lines() {
        match Case::read(&line?) {
            Some(case) => writeln!(out, "{}", answer::answer(engine, &case))?,
            None => writeln!(out, "0 unread")?,
        }
    }
    out.flush()
}

fn count_answers() -> io::Result<()> {
    let mut tally = tally::Tally::default();
    for line in io::stdin().lock().lines() {
        tally.add(&line?);
    }
    write!(io::stdout(), "{tally}")
}

#[cfg(original)]
fn answer_original() -> io::Result<ExitCode> {
    answer_with(&oracle::original::Original).map(|()| ExitCode::SUCCESS)
}

#[cfg(original)]
fn compare_run(run: &Run) -> ExitCode {
    oracle::compare::compare(run)
}

#[cfg(original)]
fn list_run(run: &Run) -> io::Result<ExitCode> {
    oracle::list::list(run)
}

#[cfg(original)]
fn print_differences() -> ExitCode {
    oracle::smallest::print();
    ExitCode::SUCCESS
}

#[cfg(not(original))]
fn skipped() -> ExitCode {
    println!("{}", oracle::SKIPPED);
    ExitCode::SUCCESS
}

#[cfg(not(original))]
fn answer_original() -> io::Result<ExitCode> {
    Ok(skipped())
}

#[cfg(not(original))]
fn compare_run(_run: &Run) -> ExitCode {
    skipped()
}

/// A list without answers would pass for one, so this fails.
#[cfg(not(original))]
fn list_run(_run: &Run) -> io::Result<ExitCode> {
    eprintln!("original sources not found: no list");
    Ok(ExitCode::FAILURE)
}

#[cfg(not(original))]
fn print_differences() -> ExitCode {
    skipped()
}
