//! The examples are those of the page, and print what it says.

use std::path::{Path, PathBuf};
use std::process::{Command, Output};

use super::markdown::{Block, Section};
use super::{file, text};

/// The page's block of code in a language.
fn shown(language: &str) -> String {
    let sections = Section::all(&text("docs/INTERFACE.md"));
    let blocks = sections.into_iter().flat_map(|section| section.blocks);
    let mut codes = blocks.filter_map(|block| match block {
        Block::Code { language, text } => Some((language, text)),
        _ => None,
    });
    let found = codes.find(|(found, _)| found == language);
    found.unwrap_or_else(|| panic!("no block of {language}")).1
}

fn is_success(told: &Output) -> bool {
    let said = String::from_utf8_lossy(&told.stderr);
    assert!(told.status.success(), "{said}");
    assert!(said.is_empty(), "{said}");
    true
}

fn prints_what_the_page_says(program: &Path) {
    let told = Command::new(program).output();
    let told = told.expect("the example, which a run of all tests builds");
    assert!(is_success(&told));
    assert_eq!(String::from_utf8_lossy(&told.stdout), shown("text"));
}

/// Compiles a program in C and links it with the library.
fn compiled(source: &Path, name: &str) -> PathBuf {
    let program = Path::new(env!("CARGO_TARGET_TMPDIR")).join(name);
    let mut compiler = Command::new("cc");
    compiler.args(["-std=c99", "-Wall", "-Wextra", "-Werror", "-pedantic", "-I"]);
    compiler.arg(file("include")).arg(source);
    compiler.arg(Path::new(env!("ONEROM_FOLDER")).join("libonerom.a"));
    compiler.arg("-o").arg(&program);
    assert!(is_success(&compiler.output().expect("a C compiler")));
    program
}

#[test]
fn the_example_in_c() {
    assert_eq!(shown("c"), text("include/example.c"));
    let program = compiled(&file("include/example.c"), "example");
    prints_what_the_page_says(&program);
}

/// The calls on Intel HEX, which no example has: a length and a line are the result itself.
const HEX_IN_C: &str = r#"#include "onerom.h"
#include <string.h>

int main(void)
{
    static const uint8_t chip[2] = {0x55, 0xFF};
    static const char wrong[] = ":0100000055AA\n:00000001FE";
    static uint8_t text[40], back[2];
    uint64_t length = onerom_write_hex(chip, sizeof chip, text, sizeof text);
    uint64_t refused = onerom_read_hex((const uint8_t *)wrong, sizeof wrong - 1, back, sizeof back);

    return !(length == 28 && memcmp(text, ":0200000055FFAA\n:00000001FF\n", 28) == 0
             && onerom_number(refused) == ONEROM_BAD_CHECKSUM && back[0] == 0
             && onerom_hex_fault_line((const uint8_t *)wrong, sizeof wrong - 1, sizeof back) == 2
             && onerom_read_hex(text, (size_t)length, back, sizeof back) == 0
             && memcmp(chip, back, sizeof chip) == 0);
}
"#;

/// The pin page of two layouts with a data line on the last GPIO: the length is the result itself.
const PAGE_IN_C: &str = r#"#include "onerom.h"
#include <string.h>

int main(void)
{
    static uint8_t addr[ONEROM_ADDR_LAYOUT_RECORD_SIZE], cs_data[ONEROM_CS_DATA_LAYOUT_RECORD_SIZE];
    static uint8_t page[ONEROM_PIN_PAGE_RECORD_SIZE + 1];
    const uint8_t *last = page + ONEROM_PIN_PAGE_ROWS + 47 * ONEROM_PIN_PAGE_ROW_RECORD_SIZE;
    uint64_t refused, length;

    addr[ONEROM_ADDR_LAYOUT_X1] = addr[ONEROM_ADDR_LAYOUT_X2] = ONEROM_GPIO_NONE;
    refused = onerom_write_page(addr, sizeof addr, cs_data, sizeof cs_data, page, sizeof page);
    cs_data[ONEROM_CS_DATA_LAYOUT_DATA_COUNT] = 1;
    cs_data[ONEROM_CS_DATA_LAYOUT_DATA] = 47;
    length = onerom_write_page(addr, sizeof addr, cs_data, sizeof cs_data, page, sizeof page);

    return !(onerom_number(refused) == ONEROM_OUT_OF_DOMAIN && length == ONEROM_PIN_PAGE_RECORD_SIZE
             && memcmp(page, "00 -    \n01 -    \n", 18) == 0 && memcmp(last, "47 D0   \n", 10) == 0
             && memcmp(last + ONEROM_PIN_PAGE_ROW_ROLE, "D0 ", 3) == 0);
}
"#;

/// A chip of two words of two bytes, on GPIO 0 and 16 to 31, selected by GPIO 8: its high bytes come first, and
/// a table's entries are low byte first all the same.
const ORDER_IN_C: &str = r#"#include "onerom.h"
#include <string.h>

static uint8_t d[ONEROM_DESCRIPTION_RECORD_SIZE], spans[ONEROM_IMAGE_SPANS_RECORD_SIZE];

static void describe(void)
{
    uint8_t *chip = d + ONEROM_DESCRIPTION_CHIPS, *pins = d + ONEROM_DESCRIPTION_SOCKET;
    int k;

    d[ONEROM_DESCRIPTION_BOARD_PINS] = 24;
    d[ONEROM_DESCRIPTION_WORD_BYTES] = 2;
    d[ONEROM_DESCRIPTION_CHIP_COUNT] = 1;
    d[ONEROM_DESCRIPTION_LARGEST_TABLE + 1] = 2;
    d[ONEROM_DESCRIPTION_FORM] = ONEROM_FORM_CE_OE;
    memset(d + ONEROM_DESCRIPTION_CE_SETTING, ONEROM_NOT_GIVEN, 6);
    memset(pins, ONEROM_GPIO_NONE, 2 * 42);
    chip[ONEROM_CHIP_BYTES] = 4;
    chip[ONEROM_CHIP_ADDRESS_COUNT] = 2;
    chip[ONEROM_CHIP_ADDRESS] = 1;
    chip[ONEROM_CHIP_ADDRESS + 1] = 2;
    pins[2 * 1] = 0;
    chip[ONEROM_CHIP_DATA_COUNT] = 16;
    for (k = 0; k < 16; k++) {
        chip[ONEROM_CHIP_DATA + k] = (uint8_t)(3 + k);
        pins[2 * (2 + k)] = (uint8_t)(16 + k);
    }
    chip[ONEROM_CHIP_CONTROL_COUNT] = 1;
    chip[ONEROM_CHIP_CONTROL] = ONEROM_KIND_CE;
    chip[ONEROM_CHIP_CONTROL + 1] = 20;
    pins[2 * 19] = 8;
    spans[ONEROM_IMAGE_SPAN_GIVEN] = 1;
    spans[ONEROM_IMAGE_SPAN_LENGTH] = 4;
}

int main(void)
{
    static const uint8_t rom[4] = {0x12, 0x34, 0x56, 0x78}, entries[4] = {0x34, 0x12, 0x78, 0x56};
    static uint8_t table[512], output[4], marks[2];
    uint64_t trip, refused;

    describe();
    refused = onerom_round_trip(d, sizeof d, spans, sizeof spans, rom, sizeof rom, 2, table, sizeof table, output,
                                sizeof output, marks, sizeof marks);
    if (onerom_number(refused) != ONEROM_OUT_OF_DOMAIN || table[0] != 0)
        return 1;
    trip = onerom_round_trip(d, sizeof d, spans, sizeof spans, rom, sizeof rom, ONEROM_ORDER_HIGH_FIRST, table,
                             sizeof table, output, sizeof output, marks, sizeof marks);
    return !(ONEROM_INTERFACE_VERSION == 2 && trip == 0 && memcmp(table, entries, 4) == 0
             && memcmp(output, rom, 4) == 0 && marks[0] == 1 && marks[1] == 1);
}
"#;

/// Compiles and runs a program that ends with 0 if the calls do what it expects.
fn runs_in_c(name: &str, program: &str) {
    let source = Path::new(env!("CARGO_TARGET_TMPDIR")).join(format!("{name}.c"));
    std::fs::write(&source, program).expect("the file is written");
    let told = Command::new(compiled(&source, name)).output();
    assert!(is_success(&told.expect("the program")));
}

#[test]
fn the_calls_on_intel_hex_in_c() {
    runs_in_c("hex", HEX_IN_C);
}

#[test]
fn the_pin_page_in_c() {
    runs_in_c("pin_page", PAGE_IN_C);
}

#[test]
fn high_byte_first_in_c() {
    runs_in_c("byte_order", ORDER_IN_C);
}

#[test]
fn the_example_in_rust() {
    assert_eq!(shown("rust"), text("wrapper/examples/reads_back.rs"));
    // Tests are built beside the folder of the examples, which are built with them.
    let tests = std::env::current_exe().expect("this test's own file");
    let folders = tests.ancestors().nth(2).expect("the folder above");
    let program: PathBuf = folders.join("examples/reads_back");
    prints_what_the_page_says(&program);
}

/// Whether a compiler of this name is at hand.
fn is_there(compiler: &str) -> bool {
    Command::new(compiler).arg("--version").output().is_ok()
}

#[test]
fn the_header_is_c_plus_plus_too() {
    if !is_there("c++") {
        println!("no C++ compiler: skipped");
        return;
    }
    let mut compiler = Command::new("c++");
    compiler.args(["-std=c++11", "-Wall", "-Wextra", "-Werror", "-pedantic"]);
    compiler
        .args(["-fsyntax-only", "-x", "c++"])
        .arg(file("include/onerom.h"));
    assert!(is_success(&compiler.output().expect("a C++ compiler")));
}
