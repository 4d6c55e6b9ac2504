//! The C header.

use super::page::{Answer, Call, Group, Page, Parameter, Place, Record, Use};
use super::words::{plain, sentence, told, upper, wrapped};

const WIDTH: usize = 120;

/// What most refusals leave.
const AS_BEFORE: &str = "as before";

const GUARD: &str = "#ifndef ONEROM_H
#define ONEROM_H

#include <stddef.h>
#include <stdint.h>

#ifdef __cplusplus
extern \"C\" {
#endif
";

const RESULT: &str = "
/* The refusal's number in a call's result: 0 if the call succeeded. */
static inline unsigned onerom_number(uint64_t result)
{
    return (unsigned)(result >> 48);
}

/* The place in a refused call's result. */
static inline uint64_t onerom_place(uint64_t result)
{
    return result & ((UINT64_C(1) << 48) - 1);
}
";

const NAME: &str = "
/* The name of a refusal by its number; Unknown where no refusal has it. */
static inline const char *onerom_refusal_name(unsigned number)
{
    switch (number) {
";

const NAME_END: &str = "    default:
        return \"Unknown\";
    }
}
";

const END: &str = "
#ifdef __cplusplus
}
#endif

#endif
";

pub fn header(page: &Page) -> String {
    let mut text = comment(&head(page));
    text += GUARD;
    text += &version(page);
    text += &refusals(page);
    text += RESULT;
    text += &refusal_names(page);
    text.extend(page.groups.iter().map(group));
    text.extend(page.records.iter().map(record));
    text.extend(page.calls.iter().map(|it| call(page, it)));
    text + END
}

fn version(page: &Page) -> String {
    let about = "/* The version of this interface: an older caller is answered as before while it stays. */";
    format!(
        "\n{about}\n#define ONEROM_INTERFACE_VERSION {}\n",
        page.version
    )
}

fn refusal_names(page: &Page) -> String {
    let row = |name: &str| {
        format!(
            "    case ONEROM_{}:\n        return \"{name}\";\n",
            upper(name)
        )
    };
    let rows: String = page.refusals.iter().map(|it| row(&it.name)).collect();
    format!("{NAME}{rows}{NAME_END}")
}

fn head(page: &Page) -> Vec<String> {
    let first = "The calls of Tartankerb for C; docs/TERMS.md says what the words mean. Rendered from docs/INTERFACE.md: edit \
        that page, and see wrapper/README.md.";
    let mut paragraphs = vec![first.to_string()];
    paragraphs.extend(page.slices.iter().map(|text| plain(text)));
    paragraphs
}

/// A comment of paragraphs; a paragraph that begins with blanks goes on under itself.
fn comment(paragraphs: &[String]) -> String {
    let mut text = String::from("/*\n");
    for (number, paragraph) in paragraphs.iter().enumerate() {
        let listed = paragraph.starts_with(' ');
        if number > 0 && !(listed && paragraphs[number - 1].starts_with(' ')) {
            text += " *\n";
        }
        let hang = if listed { "      " } else { "" };
        let lines = wrapped(paragraph.trim_start(), WIDTH - 9, hang);
        let first = if listed { "  " } else { "" };
        for (number, line) in lines.iter().enumerate() {
            let begin = if number == 0 { first } else { "" };
            text += &format!(" * {begin}{line}\n");
        }
    }
    text + " */\n"
}

/// A constant of an enumeration under its comment.
fn constant(name: &str, value: usize, about: &str) -> String {
    let lines = wrapped(about, WIDTH - 10, "       ");
    format!(
        "    /* {} */\n    ONEROM_{name} = {value},\n",
        lines.join("\n")
    )
}

fn enumeration(title: &str, constants: impl Iterator<Item = String>) -> String {
    let title = wrapped(title, WIDTH - 6, "   ").join("\n");
    format!(
        "\n/* {title} */\nenum {{\n{}}};\n",
        constants.collect::<String>()
    )
}

fn refusals(page: &Page) -> String {
    let constants = page.refusals.iter().map(|refusal| {
        let mut about = sentence(&refusal.meaning);
        if !refusal.place.is_empty() {
            about += &format!(" Place: {}.", refusal.place);
        }
        constant(&upper(&refusal.name), refusal.number.into(), &about)
    });
    enumeration(&plain(&page.result.join(" ")), constants)
}

fn group(group: &Group) -> String {
    let constants = group.values.iter().map(|value| {
        let about = plain(&sentence(&value.what));
        constant(&value.name, value.value.into(), &about)
    });
    enumeration(&format!("{}.", group.title), constants)
}

fn record(record: &Record) -> String {
    let named = |name: &str| format!("{}_{name}", record.name);
    let size = constant(&named("RECORD_SIZE"), record.size, "Bytes of the record.");
    let place = |place: &Place| constant(&named(&place.name), place.from, &told(place));
    let places = record.places.iter().map(place);
    let title = format!("{}, place by place. {}", record.title, plain(&record.about));
    enumeration(&title, std::iter::once(size).chain(places))
}

fn call(page: &Page, call: &Call) -> String {
    let mut paragraphs: Vec<String> = call.about.iter().map(|text| plain(text)).collect();
    for parameter in &call.parameters {
        let used = parameter.used.word();
        let about = plain(&parameter.what);
        paragraphs.push(format!(" {}: {used}, {about}", parameter.name));
    }
    let buffers = plain(&call.buffers);
    let is_lent = |parameter: &Parameter| parameter.used == Use::Lent;
    paragraphs.push(if call.parameters.iter().any(is_lent) {
        format!("The number of the result; {buffers} as before the call where no more is said:")
    } else {
        "The number of the result:".into()
    });
    paragraphs.extend(call.answers.iter().map(|it| answer(page, it)));
    paragraphs.extend(call.after.iter().map(|text| plain(text)));
    format!("\n{}{}", comment(&paragraphs), prototype(call))
}

fn answer(page: &Page, answer: &Answer) -> String {
    let named = page
        .refusals
        .iter()
        .find(|it| it.number.to_string() == answer.number);
    let mut number = match named {
        Some(refusal) => format!("ONEROM_{}", upper(&refusal.name)),
        None => answer.number.clone(),
    };
    if !answer.place.is_empty() {
        number += &format!(", place {}", answer.place);
    }
    let mut told = format!(" {number}: {}.", plain(&answer.given_if));
    if answer.afterwards != AS_BEFORE {
        told += &format!(" Afterwards {}.", plain(&answer.afterwards));
    }
    told
}

fn prototype(call: &Call) -> String {
    let begin = format!("uint64_t {}(", call.name);
    let hang = " ".repeat(begin.len());
    let mut lines = vec![begin];
    let parts: Vec<String> = call.parameters.iter().flat_map(declared).collect();
    for (number, part) in (1..).zip(&parts) {
        let end = if number == parts.len() { ");" } else { "," };
        let line = lines.last_mut().expect("a line");
        let gap = if line.ends_with(',') { " " } else { "" };
        if line.len() + gap.len() + part.len() + end.len() <= WIDTH {
            *line += &format!("{gap}{part}{end}");
        } else {
            lines.push(format!("{hang}{part}{end}"));
        }
    }
    lines.join("\n") + "\n"
}

/// A slice as a pointer and a length, a value as itself.
fn declared(parameter: &Parameter) -> Vec<String> {
    let name = &parameter.name;
    let pointer = match parameter.used {
        Use::Read => "const uint8_t *",
        Use::Lent => "uint8_t *",
        Use::Value => return vec![format!("uint64_t {name}")],
    };
    vec![format!("{pointer}{name}"), format!("size_t {name}_len")]
}
