//! `onerom-bench replay`: fixed lists through the C interface, and how it ends.

use std::path::{Path, PathBuf};

use super::folder::{Folder, text};

fn folder(name: &str) -> Folder {
    Folder::new("replay", name)
}

/// A file of this repository.
fn here(file: &str) -> PathBuf {
    Path::new(env!("CARGO_MANIFEST_DIR")).join(file)
}

fn read_back_list() -> String {
    std::fs::read_to_string(here("lists/read-back.txt")).expect("the list is there")
}

/// The exit, and what is printed.
fn replayed(folder: &Folder, file: &str) -> (Option<i32>, String) {
    let told = folder.run(&[file]);
    assert_eq!(text(&told.stderr), "");
    (told.status.code(), text(&told.stdout))
}

#[test]
fn the_list_of_the_proved_replay() {
    let list = here("../crates/replay/stdin");
    let told = replayed(&folder("proved"), list.to_str().expect("a plain name"));
    let said = "kind 1: 1000 cases, no exported call\n\
        kind 2: 1000 cases, no exported call\n\
        kind 3: 1000 cases, no exported call\n\
        kind 4: 1000 cases, no exported call\n\
        kind 5: 600 cases, 0 differ\n\
        kind 6: 400 cases, 0 differ\n\
        kind 7: 348 cases, 0 differ\n\
        unread: 0\n";
    assert_eq!(told, (Some(0), said.to_string()));
}

const READ_BACK: &str = "kind 8: 400 cases, 0 differ\nkind 9: 401 cases, 0 differ\nunread: 0\n";

#[test]
fn the_list_of_read_backs_and_round_trips() {
    let folder = folder("read-back");
    folder.write("list.txt", read_back_list().as_bytes());
    let told = replayed(&folder, "list.txt");
    assert_eq!(told, (Some(0), READ_BACK.to_string()));
}

/// The list with the last number of some lines' answers one higher.
fn with_wrong_answers(lines: impl Fn(usize) -> bool) -> String {
    let list = read_back_list();
    let wrong = |line: &str| {
        let (rest, last) = line.rsplit_once(' ').expect("an answer has numbers");
        format!("{rest} {}\n", last.parse::<u64>().expect("a number") ^ 1)
    };
    (1..)
        .zip(list.lines())
        .map(|(number, line)| match lines(number) {
            true => wrong(line),
            false => format!("{line}\n"),
        })
        .collect()
}

#[test]
fn a_wrong_answer_is_told() {
    let folder = folder("wrong");
    folder.write(
        "one.txt",
        with_wrong_answers(|number| number == 3).as_bytes(),
    );
    let (code, told) = replayed(&folder, "one.txt");
    assert_eq!(code, Some(1));
    let counts = "kind 8: 400 cases, 1 differ\nkind 9: 401 cases, 0 differ\nunread: 0\nline 3\n";
    assert!(told.starts_with(counts), "{told}");
    let list = read_back_list();
    let third = list.lines().nth(2).expect("a third line");
    let (_, answer) = third.split_once(" : ").expect("an answer");
    assert!(
        told.contains(&format!("\n  ours   {answer}\n  wanted ")),
        "{told}"
    );

    folder.write("all.txt", with_wrong_answers(|_| true).as_bytes());
    let (code, told) = replayed(&folder, "all.txt");
    assert_eq!(code, Some(1));
    let counts = "kind 8: 400 cases, 400 differ\nkind 9: 401 cases, 401 differ\nunread: 0\n";
    assert!(told.starts_with(counts), "{told}");
    assert_eq!(told.matches("\n  wanted ").count(), 5);
}

#[test]
fn every_answer_counts_whole() {
    let folder = folder("whole");
    let list = read_back_list();
    let first = list.lines().next().expect("a line");
    folder.write("more.txt", format!("{first} 0\n").as_bytes());
    assert_eq!(replayed(&folder, "more.txt").0, Some(1));
    folder.write("same.txt", format!("{first}\n").as_bytes());
    assert_eq!(replayed(&folder, "same.txt").0, Some(0));
}

#[test]
fn a_line_that_is_no_case_is_told() {
    let folder = folder("unread");
    let list = read_back_list();
    let (case, _) = list
        .lines()
        .next()
        .and_then(|line| line.split_once(" : "))
        .expect("a case");
    let lines = [
        "",
        "1 17 17 : 1 0 0 1",
        "1 17 : 1 0 0 1",
        case,
        "10 1 : 10 0 0",
        "2 x : 2 0 0",
    ];
    folder.write("list.txt", lines.join("\n").as_bytes());
    let said = "kind 1: 1 cases, no exported call\nunread: 5\n";
    assert_eq!(replayed(&folder, "list.txt"), (Some(1), said.to_string()));
    folder.write("bytes.txt", &[255, 254, b'\n']);
    assert_eq!(
        replayed(&folder, "bytes.txt"),
        (Some(1), "unread: 1\n".to_string())
    );
}

#[test]
fn a_file_that_cannot_be_read_is_told() {
    let folder = folder("file");
    assert!(folder.unread(&["none.txt"]).starts_with("none.txt: "));
    folder.unread(&[]);
    folder.unread(&["list.txt", "list.txt"]);
}
