//! A text in which the lines of other files stand: `include FILE`.

use std::fmt;
use std::rc::Rc;

use super::facts::{Draft, take_line};
use super::words::Words;
use super::{TextError, of_bytes};

/// The first word of a line that includes a file.
const INCLUDE: &str = "include";

/// A board, four chips and some to spare.
const MOST_FILES: usize = 8;

/// A file that a text includes.
pub struct Included {
    /// Its name, as an error has it.
    pub name: String,
    /// What it has.
    pub bytes: Vec<u8>,
}

/// Finds the file that an `include` line names. Where it cannot be used the answer is why, the
/// file's name first.
pub type Open<'a> = dyn FnMut(&str) -> Result<Included, String> + 'a;

/// Which of the texts that are read together a line stands in.
#[derive(Debug, Clone, Default, PartialEq, Eq)]
pub struct Part {
    /// 0 is the text itself, n the nth file that it includes: a file can be included twice.
    number: usize,
    /// The name of an included file.
    pub file: Option<Rc<str>>,
}

/// Where a line stands.
#[derive(Debug, Clone, PartialEq, Eq)]
pub struct Place {
    pub part: Part,
    pub line: usize,
}

impl From<usize> for Place {
    /// A line of the text itself.
    fn from(line: usize) -> Self {
        let part = Part::default();
        Self { part, line }
    }
}

impl Place {
    /// The place as a reader of another line finds it.
    pub fn seen_from(&self, other: &Part) -> impl fmt::Display {
        let line = self.line;
        match &self.part.file {
            _ if self.part == *other => format!("line {line}"),
            Some(file) => format!("line {line} of {file}"),
            None => format!("line {line} of the file that includes this one"),
        }
    }
}

/// What a text says, with the lines of each file that it includes in the place of the line that
/// names the file. Such a file includes no other.
pub fn grown_with<D: Draft>(text: &str, open: &mut Open) -> Result<D::Whole, TextError> {
    let mut draft = D::default();
    let mut files = 0;
    for (number, line) in (1..).zip(text.lines()) {
        let words = Words::of(number, line);
        if !words.is_next(INCLUDE) {
            take_line(&mut draft, words)?;
            continue;
        }
        files += 1;
        let file = opened(&words, line, files, open)?;
        take_file(&mut draft, files, file)?;
    }
    draft.finished(text.lines().count().max(1))
}

/// The file that a line names: all that follows up to a remark, so that a name may have spaces.
fn opened(
    words: &Words,
    line: &str,
    number: usize,
    open: &mut Open,
) -> Result<Included, TextError> {
    let told = line.split('#').next().unwrap_or_default().trim();
    let name = told.strip_prefix(INCLUDE).unwrap_or_default().trim();
    if name.is_empty() {
        return Err(words.error("expected a file's name, found the end of the line"));
    }
    if number > MOST_FILES {
        return Err(words.error(format!("expected at most {MOST_FILES} included files")));
    }
    open(name).map_err(|why| words.error(why))
}

fn take_file<D: Draft>(draft: &mut D, number: usize, file: Included) -> Result<(), TextError> {
    let part = Part {
        number,
        file: Some(file.name.as_str().into()),
    };
    let text = of_bytes(&file.bytes).map_err(|why| TextError {
        file: Some(file.name.clone()),
        ..why
    })?;
    for (number, line) in (1..).zip(text.lines()) {
        let words = Words::of(number, line).in_part(&part);
        if words.is_next(INCLUDE) {
            return Err(words.error("expected no `include` in a file that is included"));
        }
        take_line(draft, words)?;
    }
    Ok(())
}
