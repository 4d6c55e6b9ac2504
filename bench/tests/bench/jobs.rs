//! Real jobs as a mechanic does them, from files to files: laid out, built, and read back by the stored
//! slot into bytes that are the dumps again.

use std::path::Path;

use super::folder::{Folder, text};
use super::slots::{banked, changed, random};

/// A description of a board of this repository with one of its chips.
pub fn pairing(board: &str, chip: &str) -> String {
    let root = Path::new(env!("CARGO_MANIFEST_DIR")).join("..");
    let root = root.display();
    format!("include {root}/boards/{board}.txt\ninclude {root}/chips/{chip}.txt\n")
}

/// Does the job of a description whose chips have so many bytes, and holds what is read back against
/// the dumps.
fn does(name: &str, description: &str, sizes: &[usize]) {
    let folder = Folder::new("jobs", name);
    folder.write("job.txt", description.as_bytes());
    let numbered = |what: &str| -> Vec<String> {
        let names = (0..sizes.len()).map(|chip| format!("{what}{chip}.bin"));
        names.collect()
    };
    let (dumps, backs) = (numbered("dump"), numbered("back"));
    for (chip, (dump, &size)) in dumps.iter().zip(sizes).enumerate() {
        folder.write(dump, &random(chip as u64 + 1, size));
    }
    let run = |command: &str, words: &[&str], files: &[String]| {
        let files = files.iter().map(String::as_str);
        let words: Vec<&str> = words.iter().copied().chain(files).collect();
        let told = folder.run_other(command, &words);
        assert_eq!(text(&told.stderr), "", "{name}: {command}");
        assert_eq!(told.status.code(), Some(0), "{name}: {command}");
    };
    run("layout", &["job.txt", "slot.txt"], &[]);
    run("build", &["job.txt", "table.bin"], &dumps);
    run("read-back", &["slot.txt", "table.bin"], &backs);
    run("verify", &["job.txt"], &dumps);
    for (dump, back) in dumps.iter().zip(&backs) {
        assert!(folder.read(dump) == folder.read(back), "{name}: {back}");
    }
}

#[test]
fn a_2764() {
    does("2764", &pairing("28", "2764"), &[8192]);
}

#[test]
fn a_27c256() {
    does("27256", &pairing("28", "27256"), &[32768]);
}

/// It is seated two pins further on.
#[test]
fn a_2732_in_28_pins() {
    does("2732", &pairing("28", "2732"), &[4096]);
    let told = pairing("28", "2732") + "offset 2\n";
    does("2732-told", &told, &[4096]);
}

#[test]
fn a_27c400() {
    does("27C400", &pairing("40", "27C400"), &[524_288]);
}

#[test]
fn four_banks() {
    let four = banked().replacen("chip again", "chip again\nchip again", 1);
    does("banked", &four, &[8192; 4]);
}

#[test]
fn two_chips_of_a_multi_set() {
    let two = changed(&[
        ("set single", "set multi\nmulti select ce commoned oe"),
        ("settings ce-oe", "settings ce-oe\nchip again"),
    ]);
    does("multi", &two, &[8192; 2]);
}
