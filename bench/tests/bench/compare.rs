//! `onerom-bench compare`: cases by the thousand through the library, as they are and with wrong records.

use std::process::Command;

/// How many cases of each call from a seed. A debug build takes its time, and is there to be tried at all.
const COUNT: u64 = if cfg!(debug_assertions) { 100 } else { 25_000 };

const CALLS: [&str; 5] = [
    "address search",
    "select search",
    "build",
    "read-back",
    "round trip",
];

const WRONG: [&str; 3] = [
    "one byte wrong",
    "several bytes wrong",
    "records of random bytes",
];

/// Those that take a byte order.
const ORDERED: [&str; 3] = ["build", "read-back", "round trip"];

/// Who judges: the model always, the original too if it can.
const JUDGES: [&str; 3] = [
    "held against the original and the model",
    "held against the model alone: the original is no judge where overflow is not checked, \
     as under --profile checked",
    "held against the model alone: original sources not found",
];

/// What is printed from a head to its count.
fn part<'a>(told: &'a str, head: &str) -> &'a str {
    let (_, from) = told.split_once(head).unwrap_or_else(|| panic!("no {head}"));
    from.split_once(" differences\n").expect("a count").0
}

fn compared(command: &str, seed: u64, count: u64) -> String {
    let mut program = Command::new(env!("CARGO_BIN_EXE_onerom-bench"));
    let words = program.args([command, &seed.to_string(), &count.to_string()]);
    let told = words.output().expect("the program runs");
    let said = String::from_utf8_lossy(&told.stdout).into_owned();
    let complaint = String::from_utf8_lossy(&told.stderr);
    assert_eq!(told.status.code(), Some(0), "{said}{complaint}");
    said
}

// Two seeds, so that two processors share the cases.
#[test]
fn no_case_of_seed_1_differs() {
    none_differs(1);
}

#[test]
fn no_case_of_seed_2_differs() {
    none_differs(2);
}

fn none_differs(seed: u64) {
    let told = compared("compare", seed, COUNT);
    let (judges, _) = told.split_once('\n').expect("a first line");
    assert!(JUDGES.contains(&judges), "{judges}");
    println!("{judges}");
    let ran = format!("\n{COUNT} cases, 0");
    for call in CALLS {
        let whole = part(&told, &format!("\n{call}, the oracle's cases\n"));
        assert!(whole.ends_with(&ran), "{whole}");
        // Both answers are there: what is only ever refused tries little.
        assert!(
            whole.contains("\n  success ") && whole.contains("\n  refusal "),
            "{whole}"
        );
        for wrong in WRONG {
            let wrong = part(&told, &format!("\n{call}, the same with {wrong}\n"));
            assert!(wrong.ends_with(&ran), "{wrong}");
            assert!(wrong.contains("\n  refusal 1 "), "{wrong}");
        }
    }
    are_high_first(&told);
    let (calls, wrongs) = (CALLS.len() as u64, WRONG.len() as u64);
    let (whole, wrong) = (calls * COUNT, calls * COUNT * wrongs);
    assert!(cfg!(debug_assertions) || wrong >= 100_000);
    let high = ORDERED.len() as u64 * COUNT * (2 + wrongs);
    assert!(told.ends_with(&sum(whole, wrong, high)), "{told}");
}

/// The last line.
fn sum(whole: u64, wrong: u64, high: u64) -> String {
    format!(
        "\nin all {whole} cases, {wrong} with wrong records, {high} runs high byte first, \
         0 differences\n"
    )
}

/// What ran high byte first: as many as low byte first, with the same numbers of each answer.
fn are_high_first(told: &str) {
    let answers = |part: &str| -> Vec<String> {
        let own = part.lines().filter(|line| !line.contains(" held against "));
        own.map(str::to_string).collect()
    };
    for call in ORDERED {
        let low = part(told, &format!("\n{call}, the oracle's cases\n"));
        assert!(low.contains("\n  with words of two bytes: "), "{low}");
        for way in ["high byte first", "high byte first and swapped"] {
            let high = part(told, &format!("\n{call}, the same, {way}\n"));
            assert_eq!(answers(high), answers(low), "{call}, {way}");
        }
        for wrong in WRONG {
            let head = format!("\n{call}, the same with {wrong}");
            let low = part(told, &format!("{head}\n"));
            let high = part(told, &format!("{head}, high byte first\n"));
            assert_eq!(answers(high), answers(low), "{call}, {wrong}");
        }
    }
}

#[test]
fn no_large_case_differs() {
    let count = if cfg!(debug_assertions) { 1 } else { 20 };
    let told = compared("compare-large", 1, count);
    let sum = sum(2 * count, 6 * count, 10 * count);
    assert!(told.ends_with(&sum), "{told}");
}
