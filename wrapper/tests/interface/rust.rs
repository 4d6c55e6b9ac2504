//! The numbers and calls for Rust, in rustfmt's layout.

use super::page::{Call, Page, Parameter, Place, Record, Use};
use super::words::{plain, sentence, told, upper, wrapped};

const WIDTH: usize = 100;

const HEAD: &str = "//! The numbers and calls of docs/INTERFACE.md. Rendered from that page: edit it, and see README.md.
";

pub fn module(page: &Page) -> String {
    let mut text = HEAD.to_string();
    text += &version(page);
    text += &refusals(page);
    text += &values(page);
    text.extend(page.records.iter().map(record));
    text + &declarations(page)
}

fn version(page: &Page) -> String {
    let about =
        "The version of the interface: an older caller is answered as before while it stays.";
    let version = page.version;
    format!(
        "\n{}pub const INTERFACE_VERSION: u32 = {version};\n",
        comment(about, 0)
    )
}

/// A comment on what follows, behind so many blanks.
fn comment(about: &str, indent: usize) -> String {
    let begin = format!("{}/// ", " ".repeat(indent));
    let lines = wrapped(about, WIDTH - begin.len(), "");
    lines
        .iter()
        .map(|line| format!("{begin}{line}\n"))
        .collect()
}

fn block(about: &str, name: &str, items: &str) -> String {
    format!("\n{}pub mod {name} {{\n{items}}}\n", comment(about, 0))
}

fn constant(about: &str, name: &str, kind: &str, value: &str) -> String {
    format!(
        "{}    pub const {name}: {kind} = {value};\n",
        comment(about, 4)
    )
}

fn refusals(page: &Page) -> String {
    let items = page.refusals.iter().map(|refusal| {
        let mut about = sentence(&refusal.meaning);
        if !refusal.place.is_empty() {
            about += &format!(" Place: {}.", refusal.place);
        }
        let number = refusal.number.to_string();
        constant(&about, &upper(&refusal.name), "u16", &number)
    });
    let items: String = items.collect();
    block("Numbers of the refusals.", "refusals", &items)
}

fn values(page: &Page) -> String {
    let values = page.groups.iter().flat_map(|group| &group.values);
    let items = values.map(|value| {
        let about = plain(&sentence(&value.what));
        constant(&about, &value.name, "u8", &value.value.to_string())
    });
    let items: String = items.collect();
    block(
        "What single bytes of the records say, and the numbers that calls take.",
        "values",
        &items,
    )
}

fn record(record: &Record) -> String {
    let size = constant(
        "Bytes of the record.",
        "RECORD_SIZE",
        "usize",
        &record.size.to_string(),
    );
    let mut items = String::new();
    if record.places.iter().any(|place| place.to > place.from) {
        items += "    use std::ops::Range;\n\n";
    }
    items += &size;
    items.extend(record.places.iter().map(place));
    let about = format!("{}: {}", record.title, plain(&record.about));
    block(&about, &record.name.to_lowercase(), &items)
}

fn place(place: &Place) -> String {
    let (from, past) = (place.from, place.to + 1);
    let (kind, value) = if past == from + 1 {
        ("usize", from.to_string())
    } else {
        ("Range<usize>", format!("{from}..{past}"))
    };
    constant(&told(place), &place.name, kind, &value)
}

fn declarations(page: &Page) -> String {
    let calls: Vec<String> = page.calls.iter().map(call).collect();
    format!("\nunsafe extern \"C\" {{\n{}}}\n", calls.join("\n"))
}

/// In one line if it fits, as rustfmt has it.
fn call(call: &Call) -> String {
    let about = comment(&plain(&call.about.join(" ")), 4);
    let begin = format!("    pub(crate) fn {}(", call.name);
    let parts: Vec<String> = call.parameters.iter().flat_map(declared).collect();
    let line = format!("{begin}{}) -> u64;\n", parts.join(", "));
    if line.len() <= WIDTH {
        return about + &line;
    }
    let parts = parts.iter().map(|part| format!("        {part},\n"));
    let parts: String = parts.collect();
    format!("{about}{begin}\n{parts}    ) -> u64;\n")
}

/// A slice as a pointer and a length, a value as itself.
fn declared(parameter: &Parameter) -> Vec<String> {
    let name = &parameter.name;
    let pointer = match parameter.used {
        Use::Read => "*const",
        Use::Lent => "*mut",
        Use::Value => return vec![format!("{name}: u64")],
    };
    vec![
        format!("{name}: {pointer} u8"),
        format!("{name}_len: usize"),
    ]
}
