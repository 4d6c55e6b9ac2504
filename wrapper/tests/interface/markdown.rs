//! A page's sections, each with its paragraphs, tables and blocks of code.

pub struct Table {
    pub head: Vec<String>,
    pub body: Vec<Vec<String>>,
}

impl Table {
    /// The rows, if each has so many cells.
    pub fn rows<const N: usize>(&self) -> impl Iterator<Item = [&str; N]> {
        self.body.iter().map(|row| {
            let cells: Vec<&str> = row.iter().map(String::as_str).collect();
            let found = cells.len();
            cells
                .try_into()
                .unwrap_or_else(|_| panic!("a row of {found} cells in place of {N}: {row:?}"))
        })
    }
}

pub enum Block {
    /// A paragraph in one line.
    Text(String),
    Table(Table),
    /// The lines between the fences, and the language.
    Code {
        language: String,
        text: String,
    },
}

impl Block {
    pub fn text(&self) -> Option<String> {
        match self {
            Self::Text(text) => Some(text.clone()),
            _ => None,
        }
    }

    pub fn table(&self) -> Option<&Table> {
        match self {
            Self::Table(table) => Some(table),
            _ => None,
        }
    }
}

pub struct Section {
    /// The title of the section of the second rank that it stands in; its own is in none.
    pub parent: String,
    pub title: String,
    pub blocks: Vec<Block>,
}

impl Section {
    pub fn all(text: &str) -> Vec<Self> {
        let mut sections: Vec<Self> = Vec::new();
        let mut lines = text.lines().peekable();
        let mut upper = String::new();
        while let Some(line) = lines.next() {
            if let Some(title) = line.strip_prefix("## ") {
                upper = title.into();
                sections.push(Self::titled("", title));
            } else if let Some(title) = line.strip_prefix("### ") {
                sections.push(Self::titled(&upper, title));
            } else if let (Some(section), false) = (sections.last_mut(), line.is_empty()) {
                section.blocks.push(block(line, &mut lines));
            }
        }
        sections
    }

    fn titled(parent: &str, title: &str) -> Self {
        Self {
            parent: parent.into(),
            title: title.into(),
            blocks: Vec::new(),
        }
    }
}

type Lines<'a> = std::iter::Peekable<std::str::Lines<'a>>;

/// The block that begins with a line.
fn block(first: &str, lines: &mut Lines) -> Block {
    if let Some(language) = first.strip_prefix("```") {
        let code = lines.take_while(|line| *line != "```");
        return Block::Code {
            language: language.into(),
            text: code.map(|line| format!("{line}\n")).collect(),
        };
    }
    let mut own = vec![first];
    while let Some(line) = lines.next_if(|line| !line.is_empty()) {
        own.push(line);
    }
    if first.starts_with('|') {
        Block::Table(table(&own))
    } else {
        Block::Text(own.join(" "))
    }
}

/// The first line has the headings, the second nothing.
fn table(lines: &[&str]) -> Table {
    Table {
        head: cells(lines[0]),
        body: lines[2..].iter().map(|line| cells(line)).collect(),
    }
}

fn cells(line: &str) -> Vec<String> {
    let inside = line
        .strip_prefix('|')
        .and_then(|line| line.strip_suffix('|'));
    let inside = inside.unwrap_or_else(|| panic!("no row: {line:?}"));
    inside.split('|').map(|cell| cell.trim().into()).collect()
}
