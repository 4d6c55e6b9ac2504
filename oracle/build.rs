//! Finds the original's files and writes the module list through which they are compiled.
//!
//! Whole files are compiled where they stand, untouched. Of the two files that lean on much more
//! than is needed here, single items are cut out; every cut is a slice of its file, so its bytes
//! are the file's. No text of the original is kept in this repository.

use std::env;
use std::fs;
use std::path::{Path, PathBuf};

const WHOLE: [&str; 8] = [
    "gpio_window",
    "slot_context",
    "alg_preference",
    "multi_cs_config",
    "addr_layout",
    "cs_data_layout",
    "rom_image",
    "unscramble",
];

const IMAGE_HEAD: &str = "use alloc::string::String;\nuse alloc::vec::Vec;\n\
    use onerom_config::chip::ChipType;\nuse crate::stand_in::{ChipTypeSpec, Location};\n";

const ROM_SLOT_HEAD: &str = "use onerom_metadata::{BitModes, MaybeKnown, OneromAlgDmaConfig};\n\
    use super::addr_layout::AddrLayout;\n";

fn main() {
    println!("cargo:rustc-check-cfg=cfg(original)");
    println!("cargo:rerun-if-env-changed=ONEROM_SRC");
    let source = sources().join("rust/gen/src");
    println!("cargo:rerun-if-changed={}", source.display());
    if !all_there(&source) {
        // Who has not asked for the original need not hear of it here: what takes it as a judge says
        // whether it is there.
        if env::var_os("ONEROM_SRC").is_some() {
            let place = source.display();
            println!("cargo:warning=original sources not found at {place}");
        }
        return;
    }
    let out = PathBuf::from(env::var("OUT_DIR").expect("cargo sets OUT_DIR"));
    write(
        &out.join("image.rs"),
        &image_items(&source.join("image.rs")),
    );
    write(
        &out.join("rom_slot.rs"),
        &rom_slot_items(&source.join("v2/rom_slot.rs")),
    );
    write(&out.join("original.rs"), &module_list(&source, &out));
    println!("cargo:rustc-cfg=original");
}

fn sources() -> PathBuf {
    match env::var_os("ONEROM_SRC") {
        Some(place) => PathBuf::from(place),
        None => {
            let package = env::var("CARGO_MANIFEST_DIR").expect("cargo sets CARGO_MANIFEST_DIR");
            Path::new(&package).join("../../shared/docs/src")
        }
    }
}

fn all_there(source: &Path) -> bool {
    let whole = WHOLE
        .iter()
        .map(|name| source.join(format!("v2/{name}.rs")));
    let cut = ["image.rs", "v2/rom_slot.rs"]
        .iter()
        .map(|name| source.join(name));
    whole.chain(cut).all(|file| file.is_file())
}

fn read(file: &Path) -> String {
    println!("cargo:rerun-if-changed={}", file.display());
    fs::read_to_string(file).unwrap_or_else(|why| panic!("{}: {why}", file.display()))
}

fn write(file: &Path, text: &str) {
    fs::write(file, text).unwrap_or_else(|why| panic!("{}: {why}", file.display()));
}

fn module_list(source: &Path, out: &Path) -> String {
    let mut list = String::from("#[allow(dead_code)]\n");
    list.push_str(&module("image", &out.join("image.rs")));
    list.push_str("#[allow(dead_code)]\npub mod v2 {\n");
    for name in WHOLE {
        let file = source.join(format!("v2/{name}.rs"));
        println!("cargo:rerun-if-changed={}", file.display());
        list.push_str(&module(name, &file));
    }
    list.push_str(&module("rom_slot", &out.join("rom_slot.rs")));
    list.push_str("}\n");
    list
}

fn module(name: &str, file: &Path) -> String {
    let file = fs::canonicalize(file).expect("the file is there");
    format!("#[path = {file:?}]\npub mod {name};\n")
}

fn image_items(file: &Path) -> String {
    let text = read(file);
    let mut items = String::from(IMAGE_HEAD);
    items.push_str(line(&text, "pub const PAD_NO_CHIP_BYTE"));
    for head in [
        "pub enum CsLogic {",
        "pub enum CsConfig {",
        "impl CsConfig {",
        "pub struct Chip {",
        "pub enum ChipSetType {",
    ] {
        items.push_str(item(&text, head));
    }
    let chip = item(&text, "impl Chip {");
    items.push_str("impl Chip {\n");
    for head in [
        "    pub(crate) fn new(",
        "    pub fn chip_type(",
        "    pub fn data(",
    ] {
        items.push_str(item(chip, head));
    }
    items.push_str("}\n");
    items
}

fn rom_slot_items(file: &Path) -> String {
    let text = read(file);
    let mut items = String::from(ROM_SLOT_HEAD);
    for head in [
        "pub(crate) fn bytes_per_word(",
        "pub(crate) fn table_entries(",
    ] {
        items.push_str(item(&text, head));
    }
    items
}

/// The line of `text` that begins with `head`, its line end included.
fn line<'a>(text: &'a str, head: &str) -> &'a str {
    let start = start_of(text, head);
    let length = text[start..].find('\n').expect("a whole line");
    &text[start..=start + length]
}

/// The item whose first line begins with `head`, with the attributes above it, to its last brace.
fn item<'a>(text: &'a str, head: &str) -> &'a str {
    let head_at = start_of(text, head);
    let mut start = head_at;
    while let Some(above) = text[..start].strip_suffix('\n') {
        let line_at = above.rfind('\n').map_or(0, |at| at + 1);
        if !above[line_at..].trim_start().starts_with("#[") {
            break;
        }
        start = line_at;
    }
    let end = head_at + closing_brace(&text[head_at..]);
    let rest = text[end..].find('\n').expect("a whole line");
    &text[start..=end + rest]
}

fn start_of(text: &str, head: &str) -> usize {
    let inside = format!("\n{head}");
    let at = text
        .find(&inside)
        .unwrap_or_else(|| panic!("no item begins with {head:?}"));
    assert!(
        !text[at + 1..].contains(&inside),
        "{head:?} begins two items"
    );
    at + 1
}

/// Where the first brace is closed; braces in format strings come in pairs.
fn closing_brace(text: &str) -> usize {
    let mut depth = 0;
    for (at, letter) in text.char_indices() {
        match letter {
            '{' => depth += 1,
            '}' if depth == 1 => return at,
            '}' => depth -= 1,
            _ => {}
        }
    }
    panic!("an item without end");
}
