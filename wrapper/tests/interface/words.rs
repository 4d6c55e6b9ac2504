//! The page's words as comments and names of a program.

use super::page::Place;

/// A text without the marks around names.
pub fn plain(text: &str) -> String {
    text.replace('`', "")
}

/// A text as a sentence.
pub fn sentence(text: &str) -> String {
    let mut letters = text.chars();
    let first: String = letters
        .next()
        .into_iter()
        .flat_map(char::to_uppercase)
        .collect();
    format!("{first}{}.", letters.as_str())
}

/// How many bytes a place has if more than one, what stands there, and its values.
pub fn told(place: &Place) -> String {
    let mut text = match place.to + 1 - place.from {
        1 => sentence(&place.what),
        bytes => format!("{bytes} bytes: {}.", place.what),
    };
    if !place.values.is_empty() {
        text += &format!(" Values: {}.", place.values);
    }
    plain(&text)
}

/// A name such as `NoSelectLine` as `NO_SELECT_LINE`.
pub fn upper(name: &str) -> String {
    let mut upper = String::new();
    for letter in name.chars() {
        if letter.is_uppercase() && !upper.is_empty() {
            upper.push('_');
        }
        upper.extend(letter.to_uppercase());
    }
    upper
}

/// The words in lines of at most so many letters; lines after the first begin with `hang`.
pub fn wrapped(text: &str, width: usize, hang: &str) -> Vec<String> {
    let mut lines = Vec::new();
    let mut line = String::new();
    for word in text.split(' ') {
        if !line.is_empty() && line.len() + 1 + word.len() > width {
            lines.push(std::mem::replace(&mut line, hang.to_string() + word));
        } else {
            if !line.is_empty() {
                line.push(' ');
            }
            line.push_str(word);
        }
    }
    lines.push(line);
    lines
}
