//! Programs that nobody here wrote, where they are installed.

use std::io::ErrorKind;
use std::process::{Command, Output};

use super::folder::{Folder, text};

/// A program on its words; none where it is not installed.
pub fn run(program: &str, words: &[&str], folder: &Folder) -> Option<Output> {
    let told = Command::new(program)
        .args(words)
        .current_dir(&folder.path)
        .output();
    match told {
        Err(why) if why.kind() == ErrorKind::NotFound => {
            println!("no {program}: skipped");
            None
        }
        told => Some(told.expect("the program runs")),
    }
}

/// The file `made` that a program makes; none where it is not installed.
pub fn made(folder: &Folder, program: &str, words: &[&str]) -> Option<Vec<u8>> {
    let _ = std::fs::remove_file(folder.path.join("made"));
    let told = run(program, words, folder)?;
    let said = text(&told.stderr);
    assert!(told.status.success(), "{program} {words:?}: {said}");
    Some(folder.read("made"))
}
