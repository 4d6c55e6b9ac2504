//! A folder of its own for a test of a command that reads files.

#![allow(dead_code, reason = "each test takes what it needs")]

use std::fs;
use std::path::{Path, PathBuf};
use std::process::{Command, Output};

pub const SAMPLE: &str = include_str!("../../sample/2764.txt");

/// It has the sample and a chip's file in it.
pub struct Folder {
    pub path: PathBuf,
    command: &'static str,
}

#[allow(dead_code, reason = "no test needs all of it")]
impl Folder {
    pub fn new(command: &'static str, name: &str) -> Self {
        let temporary = Path::new(env!("CARGO_TARGET_TMPDIR"));
        let path = temporary.join(command).join(name);
        // It may be there from an earlier run.
        let _ = fs::remove_dir_all(&path);
        fs::create_dir_all(&path).expect("a folder");
        let folder = Self { path, command };
        folder.write("slot.txt", SAMPLE.as_bytes());
        folder.write("chip.bin", &vec![0x5A; 8192]);
        folder
    }

    pub fn write(&self, name: &str, bytes: &[u8]) {
        fs::write(self.path.join(name), bytes).expect("the file is written");
    }

    /// The files' names, in order.
    pub fn names(&self) -> Vec<String> {
        let files = fs::read_dir(&self.path).expect("the folder is there");
        let name = |file: fs::DirEntry| file.file_name().to_string_lossy().into_owned();
        let mut names: Vec<String> = files.flatten().map(name).collect();
        names.sort();
        names
    }

    pub fn read(&self, name: &str) -> Vec<u8> {
        fs::read(self.path.join(name)).expect("the file is there")
    }

    /// The command on these words, in the folder.
    pub fn run(&self, words: &[&str]) -> Output {
        self.run_other(self.command, words)
    }

    pub fn run_other(&self, command: &str, words: &[&str]) -> Output {
        let mut program = Command::new(env!("CARGO_BIN_EXE_onerom-bench"));
        let words = program.arg(command).args(words);
        words
            .current_dir(&self.path)
            .output()
            .expect("the program runs")
    }

    /// What the command says when it succeeds.
    pub fn done(&self, words: &[&str]) -> String {
        let told = self.run(words);
        assert_eq!(
            (told.status.code(), text(&told.stderr)),
            (Some(0), String::new())
        );
        text(&told.stdout)
    }

    pub fn refused(&self, words: &[&str]) -> String {
        let told = self.run(words);
        assert_eq!(told.status.code(), Some(1));
        text(&told.stderr)
    }

    pub fn unread(&self, words: &[&str]) -> String {
        let told = self.run(words);
        assert_eq!(
            (told.status.code(), text(&told.stdout)),
            (Some(2), String::new())
        );
        text(&told.stderr)
    }
}

pub fn text(bytes: &[u8]) -> String {
    String::from_utf8_lossy(bytes).into_owned()
}
