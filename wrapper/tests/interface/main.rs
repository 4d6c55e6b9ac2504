//! docs/INTERFACE.md is the source of all names, sizes and places: the C header and the Rust
//! declarations are what it says, letter by letter, and the library and the examples agree.

mod c;
mod examples;
mod kept;
mod markdown;
mod page;
mod rust;
#[path = "../slot/mod.rs"]
mod slot;
mod words;

use std::fs;
use std::path::{Path, PathBuf};

use onerom::{Call, Refusal};
use page::Page;

/// With this variable set the rendered files are written anew and not compared.
const RENDER: &str = "ONEROM_RENDER";

fn file(name: &str) -> PathBuf {
    Path::new(env!("CARGO_MANIFEST_DIR")).join("..").join(name)
}

fn text(name: &str) -> String {
    fs::read_to_string(file(name)).unwrap_or_else(|why| panic!("{name}: {why}"))
}

fn page() -> Page {
    Page::read(&text("docs/INTERFACE.md"))
}

/// Whether a file is what the page says.
fn is_rendered(name: &str, rendered: &str) {
    if std::env::var_os(RENDER).is_some() {
        fs::write(file(name), rendered).expect("the file is written");
        return;
    }
    let text = text(name);
    let mut lines = (1..).zip(text.lines().zip(rendered.lines()));
    if let Some((number, (found, wanted))) = lines.find(|(_, (found, wanted))| found != wanted) {
        panic!("{name}, line {number}: `{found}`, but docs/INTERFACE.md says `{wanted}`");
    }
    assert_eq!(
        text, rendered,
        "{name} ends elsewhere than docs/INTERFACE.md says"
    );
}

#[test]
fn the_header_is_what_the_page_says() {
    is_rendered("include/onerom.h", &c::header(&page()));
}

#[test]
fn the_declarations_are_what_the_page_says() {
    is_rendered("wrapper/src/interface.rs", &rust::module(&page()));
}

#[test]
fn places_fill_their_records() {
    for record in page().records {
        let mut next = 0;
        for place in &record.places {
            assert_eq!(place.from, next, "{} {}", record.name, place.name);
            assert!(place.to >= place.from, "{} {}", record.name, place.name);
            next = place.to + 1;
        }
        assert_eq!(next, record.size, "{}", record.name);
    }
}

#[test]
fn refusals_are_named_as_the_page_says() {
    let refusals = page().refusals;
    for (number, wanted) in (1..).zip(&refusals) {
        assert_eq!(wanted.number, number);
        let refusal = Refusal::of(Call::Address, u64::from(number) << 48);
        let refusal = refusal.expect("a refusal");
        assert_eq!(refusal.name, wanted.name);
        assert_eq!(refusal.meaning(), wanted.meaning);
        assert_eq!(refusal.place_words().is_empty(), wanted.place.is_empty());
    }
    let past = refusals.len() as u64 + 1;
    let unknown = Refusal::of(Call::Address, past << 48).expect("a refusal");
    assert_eq!(unknown.name, "Unknown");
}
