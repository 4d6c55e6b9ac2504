//! docs/INTERFACE.md as values: its refusals, named values, records and calls.

use super::markdown::{Block, Section, Table};

pub struct Refusal {
    pub number: u16,
    pub name: String,
    pub meaning: String,
    /// What the place is; empty where none is named.
    pub place: String,
}

pub struct Value {
    pub value: u8,
    pub name: String,
    pub what: String,
}

/// Values of one kind.
pub struct Group {
    pub title: String,
    pub values: Vec<Value>,
}

pub struct Place {
    pub from: usize,
    /// The last of its places.
    pub to: usize,
    pub name: String,
    pub what: String,
    pub values: String,
}

pub struct Record {
    pub title: String,
    pub name: String,
    pub size: usize,
    pub about: String,
    pub places: Vec<Place>,
}

/// What a call does with a parameter.
#[derive(Clone, Copy, PartialEq, Eq)]
pub enum Use {
    /// A slice that is read.
    Read,
    /// A slice that it writes to.
    Lent,
    /// A number.
    Value,
}

impl Use {
    const ALL: [(&'static str, Self); 3] = [
        ("read", Self::Read),
        ("lent", Self::Lent),
        ("value", Self::Value),
    ];

    /// As the page has it.
    pub fn word(self) -> &'static str {
        let own = Self::ALL.iter().find(|(_, used)| *used == self);
        own.expect("all of them are named").0
    }
}

pub struct Parameter {
    pub name: String,
    pub used: Use,
    pub what: String,
}

pub struct Answer {
    /// The refusal's number, or in words which numbers these are.
    pub number: String,
    pub place: String,
    pub given_if: String,
    pub afterwards: String,
}

pub struct Call {
    pub name: String,
    pub about: Vec<String>,
    pub parameters: Vec<Parameter>,
    /// The buffers that the last column of the answers speaks of.
    pub buffers: String,
    pub answers: Vec<Answer>,
    pub after: Vec<String>,
}

pub struct Page {
    pub version: u32,
    pub result: Vec<String>,
    pub refusals: Vec<Refusal>,
    pub groups: Vec<Group>,
    pub records: Vec<Record>,
    pub slices: Vec<String>,
    pub calls: Vec<Call>,
}

impl Page {
    pub fn read(text: &str) -> Self {
        let sections = Section::all(text);
        let under = |title: &str| -> Vec<&Section> {
            let inside = sections.iter().filter(|section| section.parent == title);
            inside.collect()
        };
        let head = |title: &str| -> &Section {
            let found = sections.iter().find(|section| section.title == title);
            found.unwrap_or_else(|| panic!("no section {title}"))
        };
        let result = head("The result");
        Self {
            version: version(text),
            result: result.before_table(),
            refusals: refusals(result),
            groups: under("The values").into_iter().map(group).collect(),
            records: under("The records").into_iter().map(record).collect(),
            slices: head("The calls").before_table(),
            calls: under("The calls").into_iter().map(call).collect(),
        }
    }
}

/// The number behind the version's name.
fn version(text: &str) -> u32 {
    let (_, rest) = text.split_once("`INTERFACE_VERSION`: ").expect("a version");
    let digits = rest.split(|sign: char| !sign.is_ascii_digit()).next();
    number(digits.unwrap_or_default())
}

fn number<T: std::str::FromStr>(cell: &str) -> T {
    cell.parse()
        .unwrap_or_else(|_| panic!("no number: {cell:?}"))
}

/// A name in backticks.
fn name(cell: &str) -> String {
    let inside = cell
        .strip_prefix('`')
        .and_then(|cell| cell.strip_suffix('`'));
    inside.unwrap_or_else(|| panic!("no name: {cell:?}")).into()
}

fn refusals(section: &Section) -> Vec<Refusal> {
    let table = section.table(&["number", "name", "meaning", "place"]);
    let refusal = |[n, called, meaning, place]: [&str; 4]| Refusal {
        number: number(n),
        name: name(called),
        meaning: meaning.into(),
        place: place.into(),
    };
    table.rows().map(refusal).collect()
}

fn group(section: &Section) -> Group {
    let table = section.table(&["value", "name", "what"]);
    let value = |[value, called, what]: [&str; 3]| Value {
        value: number(value),
        name: name(called),
        what: what.into(),
    };
    Group {
        title: section.title.clone(),
        values: table.rows().map(value).collect(),
    }
}

fn record(section: &Section) -> Record {
    let text = section.before_table().join(" ");
    let (size_name, rest) = text.split_once(": ").expect("the size's name");
    let (size, about) = rest.split_once(" bytes. ").expect("the size");
    let size_name = name(size_name);
    let table = section.table(&["place", "name", "what", "values"]);
    Record {
        title: section.title.clone(),
        name: size_name
            .strip_suffix("_RECORD_SIZE")
            .expect("a size")
            .into(),
        size: number(size),
        about: about.into(),
        places: table.rows().map(place).collect(),
    }
}

fn place([places, called, what, values]: [&str; 4]) -> Place {
    let (from, to) = places.split_once(" to ").unwrap_or((places, places));
    Place {
        from: number(from),
        to: number(to),
        name: name(called),
        what: what.into(),
        values: values.into(),
    }
}

fn call(section: &Section) -> Call {
    let parameters = section.table(&["parameter", "use", "what"]);
    let answers = section.last_table();
    let [_, _, buffers] = &answers.head[..] else {
        panic!("{}: answers have three columns", section.title);
    };
    Call {
        name: section.title.clone(),
        about: section.before_table(),
        parameters: parameters.rows().map(parameter).collect(),
        buffers: buffers.strip_suffix(" afterwards").expect("buffers").into(),
        answers: answers.rows().map(answer).collect(),
        after: after_tables(section),
    }
}

fn parameter([called, word, what]: [&str; 3]) -> Parameter {
    let used = Use::ALL.iter().find(|(own, _)| *own == word);
    let used = used.unwrap_or_else(|| panic!("{called}: a parameter is read, lent or a value"));
    Parameter {
        name: name(called),
        used: used.1,
        what: what.into(),
    }
}

fn answer([numbered, given_if, afterwards]: [&str; 3]) -> Answer {
    let (number, place) = numbered.split_once(", ").unwrap_or((numbered, ""));
    Answer {
        number: number.into(),
        place: place.into(),
        given_if: given_if.into(),
        afterwards: afterwards.into(),
    }
}

fn after_tables(section: &Section) -> Vec<String> {
    let is_table = |block: &Block| matches!(block, Block::Table(_));
    let last = section.blocks.iter().rposition(is_table);
    let after = &section.blocks[last.map_or(0, |last| last + 1)..];
    after.iter().filter_map(Block::text).collect()
}

impl Section {
    /// The paragraphs before the first table.
    fn before_table(&self) -> Vec<String> {
        let before = self.blocks.iter().map_while(Block::text);
        before.collect()
    }

    /// The table with these headings.
    fn table(&self, head: &[&str]) -> &Table {
        let mut tables = self.blocks.iter().filter_map(Block::table);
        let found = tables.find(|table| table.head == head);
        found.unwrap_or_else(|| panic!("{}: no table of {head:?}", self.title))
    }

    fn last_table(&self) -> &Table {
        let mut tables = self.blocks.iter().filter_map(Block::table);
        tables.next_back().expect("a table")
    }
}
