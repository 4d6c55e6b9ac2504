//! The commands: which one is meant, and what each says of itself.

mod build;
mod cases;
mod hex;
mod layout;
mod page;
mod pairings;
mod read_back;
mod sample;
mod verify;

use std::ffi::{OsStr, OsString};
use std::process::ExitCode;

use crate::ending::{Done, Fault, ended, say, unread};

/// A command of the program.
pub struct Command {
    pub name: &'static str,
    /// The words that follow, as the usage has them.
    pub words: &'static str,
    /// What it does, in a line.
    pub summary: &'static str,
    /// What it reads and writes, its exit codes and an example.
    pub help: &'static str,
    /// The flags that it takes, anywhere among its words; `--flag WORD` is one with a word behind.
    pub flags: &'static [&'static str],
    /// Runs it on the words that follow its name, its flags aside.
    pub run: fn(&[OsString], &Flags) -> Done,
}

/// The flags that were given, each as the command has it, and the words behind them.
pub struct Flags(Vec<(&'static str, Option<OsString>)>);

impl Flags {
    pub fn has(&self, flag: &str) -> bool {
        self.0.iter().any(|(own, _)| *own == flag)
    }

    /// The word behind a flag.
    pub fn word(&self, flag: &str) -> Option<&OsStr> {
        let own = self.0.iter().find(|(own, _)| *own == flag)?;
        own.1.as_deref()
    }
}

/// Behind this word no word is a flag.
const NO_MORE_FLAGS: &str = "--";

/// In the order in which the help has them.
const COMMANDS: &[&Command] = &[
    &layout::LAYOUT,
    &page::PAGE,
    &build::BUILD,
    &read_back::READ_BACK,
    &verify::VERIFY,
    &hex::TO_HEX,
    &hex::FROM_HEX,
    &pairings::PAIRINGS,
    &sample::SAMPLE_FILES,
    &cases::COMPARE,
    &cases::COMPARE_LARGE,
    &cases::COMPARE_HEX,
    &cases::COMPARE_PAGE,
    &cases::REPLAY,
    &cases::SPEED,
    &cases::SPEED_HEX,
];

const HELP: [&str; 2] = ["--help", "-h"];
const VERSION: [&str; 2] = ["--version", "-V"];
const VERSIONED: &str = concat!("onerom-bench ", env!("CARGO_PKG_VERSION"), "\n");

const ABOUT: &str = "\
Lays out the board of a One ROM, builds the table that it answers from and
reads it back, all by the proved library.
";

const EXIT_CODES: &str = "\
Exit codes: 0 it is done; 1 the library refuses, or what comes out is not what
was expected; 2 words that are no command, or a file that cannot be used.

Start with `onerom-bench`, then `onerom-bench sample`, which writes files to go on with.
";

impl Command {
    fn usage(&self) -> String {
        format!("onerom-bench {} {}", self.name, self.words)
    }

    fn whole_help(&self) -> String {
        format!("{}\n\n{}.\n\n{}", self.usage(), self.summary, self.help)
    }

    fn run(&self, words: &[OsString]) -> ExitCode {
        let mut flags = words.iter().take_while(|word| *word != NO_MORE_FLAGS);
        if flags.any(|word| is_one(word, &HELP)) {
            return helped(&self.whole_help());
        }
        let done = match self.flagged(words) {
            Ok((words, flags)) => (self.run)(&words, &flags),
            Err(fault) => Err(fault),
        };
        ended(done, &self.expected(words))
    }

    /// The words without the flags, and these.
    fn flagged(&self, words: &[OsString]) -> Result<(Vec<OsString>, Flags), Fault> {
        let mut plain = Vec::new();
        let mut flags = Vec::new();
        let mut words = words.iter();
        while let Some(word) = words.next() {
            if word == NO_MORE_FLAGS {
                plain.extend(words.by_ref().cloned());
            } else if !is_flag(word) {
                plain.push(word.clone());
            } else {
                let flag = self.flag(word, &mut words)?;
                if flag.1.is_some() && flags.iter().any(|(own, _)| *own == flag.0) {
                    return Err(Fault::File(self.twice(word)));
                }
                flags.push(flag);
            }
        }
        Ok((plain, Flags(flags)))
    }

    /// The flag that a word is, and the word behind it if it takes one.
    fn flag<'a>(
        &self,
        word: &OsStr,
        mut behind: impl Iterator<Item = &'a OsString>,
    ) -> Result<(&'static str, Option<OsString>), Fault> {
        let name = |flag: &&str| flag.split(' ').next().is_some_and(|name| word == name);
        let own = self.flags.iter().copied().find(name);
        let own = own.ok_or_else(|| Fault::File(self.no_flag(word)))?;
        if !own.contains(' ') {
            return Ok((own, None));
        }
        let next = behind.next().cloned();
        let next = next.ok_or_else(|| Fault::File(self.no_flag(word)))?;
        Ok((own, Some(next)))
    }

    fn twice(&self, word: &OsStr) -> String {
        let (name, word) = (self.name, word.display());
        format!("onerom-bench {name}: expected `{word}` once, found it twice")
    }

    fn no_flag(&self, word: &OsStr) -> String {
        let (name, word) = (self.name, word.display());
        let taken = match self.flags {
            [] => "no flag".into(),
            flags => flags.join(", "),
        };
        format!(
            "onerom-bench {name}: expected {taken}, found `{word}`; `onerom-bench {name} --help` says more"
        )
    }

    /// What is said of words that are not the command's.
    fn expected(&self, found: &[OsString]) -> String {
        let (name, expected) = (self.name, self.words);
        let found = match found {
            [] => "nothing".into(),
            _ => format!("`{}`", found.join(OsStr::new(" ")).display()),
        };
        format!(
            "onerom-bench {name}: expected {expected}, found {found}; `onerom-bench {name} --help` says more"
        )
    }
}

/// Runs the command that the words name; without any, the sample.
pub fn run(words: &[OsString]) -> ExitCode {
    let Some((name, rest)) = words.split_first() else {
        return ended(sample::run_through(), "");
    };
    if let Some(command) = find(name) {
        return command.run(rest);
    }
    match rest {
        _ if is_one(name, &HELP) => helped(&overview()),
        _ if is_one(name, &VERSION) => helped(VERSIONED),
        [] if name == "help" => helped(&overview()),
        [topic, ..] if name == "help" => match find(topic) {
            Some(command) => helped(&command.whole_help()),
            None => unknown(topic),
        },
        _ => unknown(name),
    }
}

fn find(name: &OsStr) -> Option<&'static Command> {
    COMMANDS
        .iter()
        .copied()
        .find(|command| name == command.name)
}

/// A `-` alone is no flag: it stands for a file.
fn is_flag(word: &OsStr) -> bool {
    let bytes = word.as_encoded_bytes();
    bytes.len() > 1 && bytes[0] == b'-'
}

fn is_one(word: &OsStr, words: &[&str]) -> bool {
    words.iter().any(|one| word == *one)
}

fn helped(text: &str) -> ExitCode {
    ended(say(text).map(|()| ExitCode::SUCCESS), "")
}

fn unknown(name: &OsStr) -> ExitCode {
    let names: Vec<&str> = COMMANDS.iter().map(|command| command.name).collect();
    unread(&format!(
        "onerom-bench: expected a command ({}), found `{}`; `onerom-bench help` says what each does",
        names.join(", "),
        name.display()
    ))
}

fn overview() -> String {
    let alone = ("onerom-bench".to_string(), sample::SUMMARY);
    let help = (
        "onerom-bench COMMAND --help".to_string(),
        "Says more of a command",
    );
    let own = COMMANDS.iter().map(|one| (one.usage(), one.summary));
    let rows: Vec<(String, &str)> = [alone].into_iter().chain(own).chain([help]).collect();
    let width = rows.iter().map(|(usage, _)| usage.len()).max();
    let width = width.unwrap_or(0);
    let row = |(usage, summary): &(String, &str)| format!("  {usage:<width$}  {summary}\n");
    let rows: String = rows.iter().map(row).collect();
    format!("{ABOUT}\n{rows}\n{EXIT_CODES}")
}
