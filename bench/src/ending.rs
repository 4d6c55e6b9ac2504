//! What the program says, and how it ends.

use std::io::{self, ErrorKind, Write};
use std::path::Path;
use std::process::ExitCode;

use onerom::Refusal;

/// Words that are no command, or a file that cannot be used.
const UNREAD: u8 = 2;

/// Why a command did not do what was asked.
pub enum Fault {
    /// Its words are others.
    Words,
    /// A file that cannot be used: its name and why.
    File(String),
    Refused(Refusal),
    /// The same, with what more there is to say of it.
    Hinted(Refusal, String),
    /// What the library refuses in a file: its name, the line and why.
    RefusedText(String),
    /// What comes out is not what was expected.
    Different(String),
}

impl Fault {
    pub fn of_file(file: &Path, why: impl std::fmt::Display) -> Self {
        Self::File(format!("{}: {why}", file.display()))
    }
}

impl From<Refusal> for Fault {
    fn from(refusal: Refusal) -> Self {
        Self::Refused(refusal)
    }
}

/// What a command comes to.
pub type Done = Result<ExitCode, Fault>;

/// The exit code of a command whose words are these. Why it did not do what was asked goes to the
/// standard error.
pub fn ended(done: Done, usage: &str) -> ExitCode {
    match done {
        Ok(code) => code,
        Err(Fault::Words) => unread(usage),
        Err(Fault::File(why)) => unread(&why),
        Err(Fault::Refused(refusal)) => failed(&refused(&refusal)),
        Err(Fault::Hinted(refusal, hint)) => failed(&format!("{}; {hint}", refused(&refusal))),
        Err(Fault::RefusedText(what) | Fault::Different(what)) => failed(&what),
    }
}

fn refused(refusal: &Refusal) -> String {
    format!("{} refused: {refusal}", refusal.call)
}

/// Says why there is nothing to be done.
pub fn unread(why: &str) -> ExitCode {
    complain(&format!("{why}\n"));
    ExitCode::from(UNREAD)
}

fn failed(why: &str) -> ExitCode {
    complain(&format!("{why}\n"));
    ExitCode::FAILURE
}

/// Writes to the standard error. With no one to read it the exit code says enough.
pub fn complain(text: &str) {
    let _ = io::stderr().write_all(text.as_bytes());
}

/// Writes to the standard output. A reader who has gone away is no fault.
pub fn say(text: &str) -> Result<(), Fault> {
    match io::stdout().write_all(text.as_bytes()) {
        Err(why) if why.kind() != ErrorKind::BrokenPipe => {
            Err(Fault::File(format!("standard output: {why}")))
        }
        _ => Ok(()),
    }
}

/// A number of things: `1 chip`, `2 chips`.
pub fn counted(number: usize, thing: &str) -> String {
    let plural = if number == 1 { "" } else { "s" };
    format!("{number} {thing}{plural}")
}
