//! What a text has told so far, and what is missing in it.

use std::collections::BTreeMap;

use super::included::Place;
use super::words::Words;
use super::{NamedOrder, TextError};
use onerom::ByteOrder;
use onerom::description::MOST_CHIPS;
use onerom::images::LARGEST_CHIP;

/// A value that grows line by line.
pub trait Draft: Default {
    type Whole;

    /// Takes in a line by its first word.
    fn line(&mut self, head: &str, words: &mut Words) -> Result<(), TextError>;

    /// The value, if nothing is missing; `last` is the text's last line.
    fn finished(self, last: usize) -> Result<Self::Whole, TextError>;
}

/// What a text of such lines says.
pub fn grown<D: Draft>(text: &str) -> Result<D::Whole, TextError> {
    let mut draft = D::default();
    for (number, line) in (1..).zip(text.lines()) {
        take_line(&mut draft, Words::of(number, line))?;
    }
    draft.finished(text.lines().count().max(1))
}

/// Takes in a line, all of it.
pub fn take_line<D: Draft>(draft: &mut D, mut words: Words) -> Result<(), TextError> {
    if let Some(head) = words.head() {
        draft.line(head, &mut words)?;
        words.end()?;
    }
    Ok(())
}

/// The fact that a line with a byte order tells.
pub const ORDER: &str = "order";

/// Where each fact that can stand only once was told.
#[derive(Default)]
pub struct Told(BTreeMap<String, Place>);

impl Told {
    pub fn once(&mut self, fact: String, words: &Words) -> Result<(), TextError> {
        match self.0.get(&fact) {
            Some(place) => {
                let place = place.seen_from(&words.part);
                Err(words.error(format!("`{fact}` stands on {place} already")))
            }
            None => {
                self.0.insert(fact, words.place());
                Ok(())
            }
        }
    }

    /// Where another file told the fact, which can stand once in each.
    pub fn elsewhere(&mut self, fact: &str, words: &Words) -> Result<Option<Place>, TextError> {
        match self.0.get(fact) {
            Some(place) if place.part != words.part => Ok(Some(place.clone())),
            _ => self.once(fact.into(), words).map(|()| None),
        }
    }

    /// The byte order that was told, with its place.
    pub fn named_order(&self, order: Option<ByteOrder>) -> Option<NamedOrder> {
        let Place { part, line } = self.place(ORDER)?;
        let file = part.file.as_deref().map(str::to_owned);
        order.map(|order| NamedOrder { order, file, line })
    }

    /// Where a fact was told.
    pub fn place(&self, fact: &str) -> Option<Place> {
        self.0.get(fact).cloned()
    }
}

pub fn missing<T>(place: impl Into<Place>, what: &str) -> Result<T, TextError> {
    wrong(place, format!("expected {what}, found none"))
}

/// What is wrong with a line, found when the others are known.
pub fn wrong<T>(place: impl Into<Place>, what: String) -> Result<T, TextError> {
    let Place { part, line } = place.into();
    let file = part.file.as_deref().map(str::to_owned);
    Err(TextError { file, line, what })
}

/// Adds a chip or a ROM: `again` is the last one once more, `size` and a number a new one.
pub fn add_part<T: Clone>(
    parts: &mut Vec<T>,
    name: &str,
    words: &mut Words,
    of_size: impl FnOnce(u32) -> T,
) -> Result<(), TextError> {
    if parts.len() == MOST_CHIPS {
        return Err(words.error(format!("expected at most {MOST_CHIPS} {name}s")));
    }
    let part = if words.takes("again") {
        let before = parts.last().cloned();
        before.ok_or_else(|| words.error(format!("expected a {name} before `{name} again`")))?
    } else {
        words.word("size")?;
        of_size(words.number("bytes", 0..=LARGEST_CHIP as i64)? as u32)
    };
    parts.push(part);
    Ok(())
}
