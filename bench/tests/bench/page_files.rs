//! `onerom-bench page` and `onerom-bench layout --page`: which files they read and write, what they print
//! and how they end.

use std::fs::File;
use std::os::unix::fs::symlink;
use std::process::{Command, Stdio};

use super::folder::{Folder, SAMPLE, text};
use super::jobs::pairing;
use super::page::{excess, roles};
use super::slips::without_a12;
use super::slots::{banked, changed, multi};

/// The sample's page.
const PAGE: &str = "00 D0   \n01 D1   \n02 D2   \n03 D3   \n04 D4   \n05 D5   \n06 D6   \n07 D7   \n\
    08 -    \n09 A10  \n10 A11  \n11 A12  \n12 A9   \n13 A8   \n14 A7   \n15 A6   \n\
    16 A5   \n17 A4   \n18 A3   \n19 A2   \n20 A1   \n21 A0   \n22 CE   \n23 OE   \n\
    24 -    \n25 -    \n26 -    \n27 -    \n28 -    \n29 -    \n30 -    \n31 -    \n\
    32 -    \n33 -    \n34 -    \n35 -    \n36 -    \n37 -    \n38 -    \n39 -    \n\
    40 -    \n41 -    \n42 -    \n43 -    \n44 -    \n45 -    \n46 -    \n47 -    \n";

fn folder(name: &str) -> Folder {
    Folder::new("page", name)
}

#[test]
fn the_page_goes_to_the_standard_output() {
    let folder = folder("out");
    assert_eq!(folder.done(&["slot.txt"]), PAGE);
    assert_eq!(folder.done(&["slot.txt", "-"]), PAGE);
    assert_eq!(folder.names(), ["chip.bin", "slot.txt"]);
}

#[test]
fn the_page_is_written() {
    let folder = folder("written");
    let writes = || {
        let said = folder.done(&["slot.txt", "page.txt"]);
        assert_eq!(said, "page.txt: pin page\n");
        assert_eq!(text(&folder.read("page.txt")), PAGE);
    };
    writes();
    assert_eq!(folder.names(), ["chip.bin", "page.txt", "slot.txt"]);
    // It takes the place of an old file.
    folder.write("page.txt", &[b'x'; 500]);
    writes();
}

#[test]
fn x_pins_show_in_sets() {
    let folder = folder("sets");
    let shows = |slot: &str| {
        folder.write("slot.txt", slot.as_bytes());
        roles(folder.done(&["slot.txt"]).as_bytes())
    };
    assert!(shows(&banked()).contains(" D7 X1 A10 "));
    assert!(shows(&banked()).ends_with(" A0 X2 OE CE"));
    assert!(shows(&multi()).ends_with(" A0 CE OE X1 X2"));
}

/// The remarks of the board's file say which line of the chip is on each pin.
#[test]
fn a_ready_board_shows_its_own_remarks() {
    let folder = folder("board");
    folder.write("job.txt", pairing("40", "27C400").as_bytes());
    let page = folder.done(&["job.txt"]);
    let board = include_str!("../../../boards/40.txt");
    let mut wanted = vec!["-"; 48];
    for line in board.lines().filter(|line| line.starts_with("pin ")) {
        let words: Vec<&str> = line.split_whitespace().collect();
        let gpio: usize = words[3].parse().expect("a GPIO");
        let role = words[5].trim_end_matches(',');
        // BYTE is high for words of two bytes, and no line.
        wanted[gpio] = if role == "BYTE" { "-" } else { role };
    }
    let rows = (0..).zip(&wanted);
    let wanted: String = rows
        .map(|(gpio, role)| format!("{gpio:02} {role:<5}\n"))
        .collect();
    assert_eq!(page, wanted);
    assert!(page.contains("39 D15  \n") && page.contains("17 A17  \n"));
}

#[test]
fn no_file_is_replaced_by_its_own_page() {
    let folder = folder("kept");
    folder.write("board.txt", SAMPLE.as_bytes());
    folder.write("job.txt", b"include board.txt\n");
    symlink("slot.txt", folder.path.join("link")).expect("a link");
    let names = folder.names();
    for (file, page) in [
        ("slot.txt", "slot.txt"),
        ("slot.txt", "./slot.txt"),
        ("slot.txt", "link"),
        ("job.txt", "board.txt"),
    ] {
        let why = "the page would replace a file that it is made from";
        assert_eq!(folder.unread(&[file, page]), format!("{page}: {why}\n"));
    }
    for kept in ["slot.txt", "board.txt"] {
        assert_eq!(text(&folder.read(kept)), SAMPLE);
    }
    assert_eq!(folder.names(), names);
}

#[test]
fn files_that_cannot_be_used_are_named() {
    let folder = folder("unread");
    let names = folder.names();
    for words in [&["none.txt"][..], &["none.txt", "page.txt"]] {
        assert!(folder.unread(words).starts_with("none.txt: "));
    }
    let said = folder.unread(&["chip.bin", "page.txt"]);
    assert!(said.starts_with("chip.bin, line 1: "));
    let said = folder.unread(&["slot.txt", "none/page.txt"]);
    assert!(said.starts_with("none/page.txt: "));
    assert_eq!(folder.unread(&["slot.txt", "."]), ".: is no plain file\n");
    let said = folder.unread(&["--page", "slot.txt"]);
    assert!(said.starts_with("onerom-bench page: expected --part, found `--page`; "));
    assert_eq!(folder.names(), names);
}

#[test]
fn a_page_that_does_not_get_there_is_a_fault() {
    let folder = folder("full");
    let full = File::create("/dev/full").expect("a device");
    let mut program = Command::new(env!("CARGO_BIN_EXE_onerom-bench"));
    let program = program.args(["page", "slot.txt"]).current_dir(&folder.path);
    let told = program.stdout(Stdio::from(full)).output();
    let told = told.expect("the program runs");
    assert_eq!(told.status.code(), Some(2));
    assert!(text(&told.stderr).starts_with("standard output: "));
}

/// A description that is refused, and how what is said of it begins.
fn refused() -> Vec<(String, &'static str)> {
    let past_limit = banked().replace("limit 524288 ", "limit 8192 ");
    vec![
        (
            changed(&[("pin 10 gpio 21", "")]),
            "address search refused: 3 UnmappedPin, place 10 (socket pin 10): ",
        ),
        (
            changed(&[("pin 11 gpio 0", "")]),
            "select search refused: 3 UnmappedPin, place 11 (chip pin 11): ",
        ),
        (
            without_a12(),
            "chip 0: 4096 of 8192 words reached; an address line is missing?\n--part accepts it\n",
        ),
        (past_limit, "build refused: 11 RomTableTooLarge, place 0: "),
    ]
}

#[test]
fn what_would_not_be_stored_has_no_page() {
    let folder = folder("refused");
    folder.write("page.txt", b"old");
    let names = folder.names();
    for (slot, why) in refused() {
        folder.write("slot.txt", slot.as_bytes());
        for words in [
            &["slot.txt"][..],
            &["slot.txt", "-"],
            &["slot.txt", "page.txt"],
        ] {
            let told = folder.run(words);
            assert_eq!(
                (told.status.code(), text(&told.stdout)),
                (Some(1), String::new())
            );
            assert!(
                text(&told.stderr).starts_with(why),
                "{}",
                text(&told.stderr)
            );
        }
        // Just as `layout` says it.
        let told = folder.run_other("layout", &["--page", "slot.txt", "stored.txt"]);
        assert_eq!(told.status.code(), Some(1));
        assert!(
            text(&told.stderr).starts_with(why),
            "{}",
            text(&told.stderr)
        );
        assert!(!text(&told.stdout).contains("\n47 -"));
        assert_eq!(folder.read("page.txt"), b"old");
        assert_eq!(folder.names(), names);
    }
}

/// What is told of a slot that is stored for all that stands beside the page, on the standard error.
#[test]
fn slips_are_told_beside_the_page() {
    let folder = folder("slips");
    let told = |slot: String, words: &[&str]| {
        folder.write("slot.txt", slot.as_bytes());
        let told = folder.run(words);
        assert_eq!(told.status.code(), Some(0));
        (text(&told.stdout), text(&told.stderr))
    };
    // A6 and A7 on one GPIO.
    let why = "not well wired: GPIO 15 is a candidate of socket pin 3 and socket pin 4\n";
    let shared = changed(&[("pin 3 gpio 14", "pin 3 gpio 15")]);
    let page = PAGE.replace("14 A7   \n", "14 -    \n");
    assert_eq!(
        told(shared.clone(), &["slot.txt"]),
        (page.clone(), why.into())
    );
    let said = told(shared, &["slot.txt", "page.txt"]);
    assert_eq!(said, ("page.txt: pin page\n".into(), why.into()));
    assert_eq!(text(&folder.read("page.txt")), page);

    let page = PAGE.replace("11 A12  \n", "11 -    \n");
    let why = "chip 0: words 0 to 4095 of 8192 are served\n";
    let said = told(without_a12(), &["slot.txt", "--part"]);
    assert_eq!(said, (page, why.into()));
}

#[test]
fn a_part_that_excess_lines_explain_is_told() {
    let folder = folder("excess");
    folder.write("slot.txt", excess("set single").as_bytes());
    let told = folder.run(&["slot.txt"]);
    assert_eq!(told.status.code(), Some(0));
    let wanted = "A0 A1 A2 A3 A4 A5 A6 A7 - - CE OE HALF - - - D0 D1 D2 D3 D4 D5 D6 D7";
    assert_eq!(roles(&told.stdout), wanted);
    let why =
        "chip 0: words 0 to 255 of 512 are served; A8 is past the largest table, and selects\n";
    assert_eq!(text(&told.stderr), why);
}

#[test]
fn a_layout_ends_with_its_page() {
    let folder = Folder::new("layout", "page");
    let alone = folder.done(&["slot.txt"]);
    let said = folder.done(&["slot.txt", "--page"]);
    assert_eq!(said, format!("{alone}\n{PAGE}"));
    let said = folder.done(&["--page", "slot.txt", "stored.txt"]);
    assert_eq!(said, format!("{alone}\nstored.txt: stored slot\n\n{PAGE}"));
    let other = folder.done(&["slot.txt", "other.txt"]);
    assert_eq!(other, format!("{alone}\nother.txt: stored slot\n"));
    assert_eq!(folder.read("stored.txt"), folder.read("other.txt"));
    // Behind what is told of the slot.
    folder.write("slot.txt", excess("set single").as_bytes());
    let said = folder.done(&["slot.txt", "--page"]);
    assert!(
        said.contains("and selects\n\n00 A0   \n01 A1   \n"),
        "{said}"
    );
    assert!(said.ends_with("\n46 -    \n47 -    \n"));
}
