//! `onerom-bench pairings`: its table, its list for programs and how it ends, and its results against those
//! of single runs of `onerom-bench verify`.

use std::fs;
use std::path::{Path, PathBuf};

use super::folder::{Folder, text};
use super::slots::random;
use oracle::random::Random;

const SETS: [&str; 5] = ["single", "banked 2", "banked 4", "multi 2", "multi 3"];

fn root() -> PathBuf {
    Path::new(env!("CARGO_MANIFEST_DIR")).join("..")
}

/// A folder with copies of the repository's boards and chips.
fn folder(name: &str) -> Folder {
    let folder = Folder::new("pairings", name);
    for kind in ["boards", "chips"] {
        fs::create_dir_all(folder.path.join(kind)).expect("a folder");
        for file in fs::read_dir(root().join(kind))
            .expect("it is there")
            .flatten()
        {
            let bytes = fs::read(file.path()).expect("the file is there");
            let name = file.file_name().into_string().expect("a plain name");
            folder.write(&format!("{kind}/{name}"), &bytes);
        }
    }
    folder
}

/// One board and one chip alone, with some of their lines changed.
fn alone(name: &str, board: (&str, &[(&str, &str)]), chip: (&str, &[(&str, &str)])) -> Folder {
    let folder = folder(name);
    for (kind, (own, changes)) in [("boards", board), ("chips", chip)] {
        let mut text = text(&folder.read(&format!("{kind}/{own}.txt")));
        for (line, other) in changes {
            assert!(text.contains(line), "{line}");
            text = text.replace(line, other);
        }
        fs::remove_dir_all(folder.path.join(kind)).expect("it is there");
        fs::create_dir_all(folder.path.join(kind)).expect("a folder");
        folder.write(&format!("{kind}/{own}.txt"), text.as_bytes());
    }
    folder
}

/// What a run says of the only pairing, and its exit code.
fn only(folder: &Folder) -> (Option<i32>, String, String) {
    let told = folder.run(&["boards", "chips", "--csv", "list.csv"]);
    let list = text(&folder.read("list.csv"));
    let line = list.lines().nth(1).expect("a pairing").to_string();
    (told.status.code(), line, text(&told.stderr))
}

#[test]
fn every_board_with_every_chip() {
    let folder = folder("all");
    let names = folder.names();
    let said = folder.done(&["boards", "chips"]);
    let wanted = "\
single

board  23128  2316  23256  2332  2364  27128  2716  27256  2732  27512  2764  27C010  27C020  27C040  27C400
24     -      ok    -      ok    ok    -      ok    -      ok    -      -     -       -       -       -
28     ok     ok    ok     ok    ok    ok     ok    ok     ok    ok     ok    -       -       -       -
28a    ok     ok    ok     ok    ok    ok     ok    ok     ok    ok     ok    -       -       -       -
32     ok     ok    ok     ok    ok    ok     ok    ok     ok    ok     ok    ok      ok      ok      -
40     10     10    10     10    10    10     10    10     10    10     10    10      10      10      ok

ok       reads back whole
-        not tried: the chip has more pins than the socket
10       not tried: 10 IncompatiblePinCount: the chip does not go into this socket

75 pairings: 42 whole, 0 in part, 0 refused, 33 not tried, 0 at fault
";
    assert_eq!(said, wanted);
    assert_eq!(folder.names(), names);
    let page = include_str!("../../README.md");
    let shown = wanted.lines().skip(2).take(10);
    assert!(
        shown
            .filter(|line| !line.is_empty())
            .all(|line| page.contains(line)),
        "README.md shows another table"
    );
}

#[test]
fn sets_have_a_table_each() {
    let folder = folder("sets");
    let said = folder.done(&["--sets", "boards", "chips"]);
    let rows = |set: &str| -> Vec<String> {
        let (_, table) = said.split_once(&format!("{set}\n\n")).expect("a table");
        let rows = table.lines().skip(1).take(5);
        rows.map(str::to_string).collect()
    };
    let tables = SETS.map(rows);
    assert!(tables.iter().all(|rows| rows.len() == 5));
    // Four banks of 64 KiB are past the largest table on this board, two of 8 KiB are not.
    assert!(tables[2][1].contains("b11") && tables[3][1].contains("ok"));
    assert!(said.contains("\nb11      build refused: 11 RomTableTooLarge: the table is larger"));
    assert!(said.contains("\ns7       select search refused: 7 NonContiguousSelect: the select"));
    assert!(said.contains("\n375 pairings: "));
}

#[test]
fn a_line_for_each_pairing() {
    let folder = folder("csv");
    folder.write("chips/a, \"b\".txt", &folder.read("chips/2764.txt"));
    let said = folder.done(&["boards", "--sets", "--csv", "list.csv", "chips"]);
    assert!(said.ends_with("\nlist.csv: 400 pairings\n"));
    let list = text(&folder.read("list.csv"));
    let mut lines = list.lines();
    assert_eq!(
        lines.next(),
        Some("board,chip,set,result,call,number,place")
    );
    assert_eq!(lines.clone().count(), 400);
    assert_eq!(lines.next(), Some("24,23128,single,larger,,,"));
    for line in [
        "28,2764,single,ok,,,",
        "28a,2764,multi 3,ok,,,",
        "28,\"a, \"\"b\"\"\",single,ok,,,",
        "40,2764,banked 2,no-offset,,10,0",
        "32,27C040,banked 2,refused,build,11,0",
    ] {
        assert!(list.lines().any(|one| one == line), "{line}");
    }
    // GPIOs 11, 13 and 14.
    let gap = "24,2716,multi 2,refused,select search,7,26624";
    assert!(list.lines().any(|one| one == gap), "{list}");
}

#[test]
fn what_is_built_and_does_not_come_back_is_told() {
    // A6 and A7 on one GPIO.
    let shared = alone(
        "shared",
        ("28", &[("pin 3 gpio 8", "pin 3 gpio 9")]),
        ("2764", &[]),
    );
    let (code, line, said) = only(&shared);
    assert_eq!(code, Some(1));
    assert_eq!(line, "28,2764,single,refused,read-back,24,64");
    let wanted = "board 28, chip 2764, single: read-back refused: 24 Unserved, place 64 (ROM 0, \
        address 64): no entry gives a word; not well wired: GPIO 9 is a candidate of socket pin 3 \
        and socket pin 4\n";
    assert_eq!(said, wanted);

    // D6 and D7 on one GPIO.
    let joined = alone(
        "joined",
        ("28", &[("pin 19 gpio 31", "pin 19 gpio 30")]),
        ("2764", &[]),
    );
    let (code, line, said) = only(&joined);
    assert_eq!((code, &line[..]), (Some(1), "28,2764,single,differs,,,"));
    assert!(said.contains("single: a word comes back as another; not well wired: GPIO 30 is"));

    // Ce on the GPIO of A0: the table reads back, and the board answers for half of it.
    let enable = alone(
        "enable",
        ("28", &[("pin 20 gpio 18", "pin 20 gpio 15")]),
        ("2764", &[("control oe 22\n", "")]),
    );
    let (code, line, said) = only(&enable);
    assert_eq!((code, &line[..]), (Some(1), "28,2764,single,wiring,,,"));
    assert!(said.contains("single: not well wired: GPIO 15 is a candidate of socket pin 10"));

    // A12 left out.
    let short = alone("short", ("28", &[]), ("2764", &[("21 23 2 ", "21 23 ")]));
    let (code, line, said) = only(&short);
    assert_eq!((code, &line[..]), (Some(1), "28,2764,single,lost,,,"));
    let wanted = "board 28, chip 2764, single: chip 0: 4096 of 8192 words reached; \
        an address line is missing?\n";
    assert_eq!(said, wanted);
}

#[test]
fn a_part_that_excess_lines_explain_is_no_fault() {
    let part = alone(
        "part",
        ("24", &[("socket 24", "socket 24\nlimit 4096")]),
        ("2364", &[]),
    );
    let (code, line, said) = only(&part);
    assert_eq!(
        (code, &line[..], &said[..]),
        (Some(0), "24,2364,single,part,,,", "")
    );
    let said = part.done(&["boards", "chips"]);
    assert!(said.contains("\n24     part\n\npart     a part is served and reads back"));
    assert!(said.contains("\n1 pairing: 0 whole, 1 in part, "));
}

#[test]
fn a_board_can_say_where_chips_sit() {
    let seat = |name: &str, offset: &str| {
        let changed = format!("socket 28\noffset {offset}");
        alone(name, ("28", &[("socket 28", &changed)]), ("2716", &[]))
    };
    let bottom = seat("bottom", "2");
    assert_eq!(only(&bottom).1, "28,2716,single,ok,,,");
    let said = bottom.done(&["boards", "chips"]);
    assert!(said.contains("\nboard 28 says offset 2, for every chip\n"));
    // Chip pin 18 is D6 of a chip of 28 pins.
    let top = seat("top", "0");
    assert!(only(&top).1.starts_with("28,2716,single,refused,"));
    // Larger chips hang over a socket only where the board says so.
    let hang =
        |name: &str, lines: &str| alone(name, ("24", &[("socket 24", lines)]), ("2764", &[]));
    let plain = hang("plain", "socket 24");
    assert_eq!(only(&plain).1, "24,2764,single,larger,,,");
    let over = hang("over", "socket 24\noffset -2");
    let (code, line, _) = only(&over);
    assert_eq!((code, &line[..]), (Some(0), "24,2764,single,ok,,,"));
}

#[test]
fn chips_that_no_line_selects() {
    let lines = [
        ("control ce 20\n", "control other 20\n"),
        ("control oe 22\n", ""),
    ];
    let folder = alone("unselected", ("28", &[]), ("2764", &lines));
    let said = folder.done(&["--sets", "boards", "chips"]);
    let marks: Vec<&str> = said
        .lines()
        .filter(|line| line.starts_with("28 "))
        .collect();
    assert_eq!(
        marks,
        [
            "28     s2",
            "28     s2",
            "28     s2",
            "28     .",
            "28     ."
        ]
    );
    assert!(said.contains("\n.        not tried: the chip has no line to select it by\n"));
}

#[test]
fn files_that_cannot_be_used_are_named() {
    let folder = folder("unread");
    fs::create_dir_all(folder.path.join("empty")).expect("a folder");
    let none = "empty: expected files with names that end in .txt, found none\n";
    assert_eq!(folder.unread(&["empty", "chips"]), none);
    assert_eq!(folder.unread(&["boards", "empty"]), none);
    assert!(folder.unread(&["none", "chips"]).starts_with("none: "));
    // What a shell's *.txt does not have.
    for name in ["empty/.a.txt", "empty/a.text", "empty/txt"] {
        folder.write(name, b"no board");
    }
    assert_eq!(folder.unread(&["empty", "chips"]), none);
    let said = folder.unread(&["chips", "boards"]);
    let wanted = "chips/23128.txt, line 7: expected a line of a board (socket, package, pin, \
        x1, x2, offset, limit, set or multi), found `word`\n";
    assert_eq!(said, wanted);
    let said = folder.unread(&["boards", "boards"]);
    assert!(said.starts_with("boards/24.txt, line 5: expected a line of a chip (word, "));
    let chip = text(&folder.read("chips/2764.txt"));
    folder.write(
        "chips/2764.txt",
        chip.replace("package 28\n", "").as_bytes(),
    );
    let said = folder.unread(&["boards", "chips"]);
    let wanted = "chips/2764.txt, line 6: expected a `package` line of this chip, found none\n";
    assert_eq!(said, wanted);
    folder.write("chips/2764.txt", (chip + "chip again\n").as_bytes());
    let said = folder.unread(&["boards", "chips"]);
    assert_eq!(
        said,
        "chips/2764.txt, line 13: `chip` stands on line 6 already\n"
    );
}

#[test]
fn the_list_replaces_nothing_that_is_read() {
    let folder = folder("kept");
    let kept = |words: &[&str], wanted: &str| {
        assert_eq!(folder.unread(words), wanted);
    };
    kept(
        &["boards", "chips", "--csv", "chips/2764.txt"],
        "chips/2764.txt: the list would replace a file that it is made from\n",
    );
    kept(
        &["boards", "chips", "--csv", "-"],
        "-: expected a file's name: the table goes to the standard output\n",
    );
    kept(
        &["boards", "chips", "--csv"],
        "onerom-bench pairings: expected --sets, --csv FILE, found `--csv`; \
         `onerom-bench pairings --help` says more\n",
    );
    kept(
        &["--csv", "a", "--csv", "b", "boards", "chips"],
        "onerom-bench pairings: expected `--csv` once, found it twice\n",
    );
    assert!(!folder.names().contains(&"a".into()));
}

/// A board with up to three slips of the hand, or none, and now and then a small table.
fn made_board(random: &mut Random, base: &str) -> String {
    let mut lines: Vec<String> = base.lines().map(str::to_string).collect();
    let pins = (0..lines.len()).filter(|&line| lines[line].starts_with("pin "));
    let pins: Vec<usize> = pins.collect();
    for _ in 0..random.below(4) {
        let line = random.pick(&pins);
        lines[line] = slip(random, &lines[line]);
    }
    if random.chance(25) {
        lines.push(format!("limit {}", 256 << random.below(12)));
    }
    lines.join("\n") + "\n"
}

/// A pin that is left out, is on any other GPIO, or has a second one.
fn slip(random: &mut Random, line: &str) -> String {
    let words: Vec<&str> = line.split_whitespace().collect();
    let ["pin", pin, "gpio", gpio, ..] = words[..] else {
        return line.into();
    };
    match random.below(4) {
        0 => "# left out".into(),
        1 => format!("pin {pin} gpio {}", random.below(48)),
        _ => format!("pin {pin} gpio {gpio} {}", random.between(41, 47)),
    }
}

/// The lines by which a description says a set, and how many chips it has.
fn set_lines(set: &str, chip: &str) -> (String, usize) {
    let kinds = chip
        .lines()
        .filter_map(|line| line.strip_prefix("control "));
    let kinds: Vec<&str> = kinds.filter_map(|line| line.split(' ').next()).collect();
    let (kind, count) = set.split_once(' ').unwrap_or((set, "1"));
    let count: usize = count.parse().expect("a number");
    let mut lines = format!("set {kind}\n{}", "chip again\n".repeat(count - 1));
    if kind == "multi" {
        lines += &format!("multi select {}", kinds[0]);
        if kinds.len() > 1 {
            lines += &format!(" commoned {}", kinds[1..].join(" "));
        }
        lines += "\n";
    }
    (lines, count)
}

/// What `verify` says of a pairing, as the list for programs has it: result, call and number.
fn verified(folder: &Folder, [board, chip, set]: [&str; 3]) -> [String; 3] {
    let told_chip = text(&folder.read(&format!("chips/{chip}.txt")));
    let size = told_chip
        .lines()
        .find_map(|line| line.strip_prefix("chip size "));
    let size = size.and_then(|size| size.parse().ok()).expect("a size");
    let (set, count) = set_lines(set, &told_chip);
    let lines = format!("include boards/{board}.txt\ninclude chips/{chip}.txt\n{set}");
    folder.write("slot.txt", lines.as_bytes());
    folder.write("chip.bin", &random(9, size));
    let words = [&["slot.txt"][..], &vec!["chip.bin"; count]].concat();
    let told = folder.run_other("verify", &words);
    let (out, why) = (text(&told.stdout), text(&told.stderr));
    if let Some((call, rest)) = why.split_once(" refused: ") {
        let number = rest.split(' ').next().unwrap_or_default();
        return ["refused".into(), call.into(), number.into()];
    }
    let word = match told.status.code() {
        _ if why.starts_with("does not read back") => "differs",
        Some(1) => "lost",
        _ if out.contains("not well wired") => "wiring",
        _ if out.contains("are served") => "part",
        _ => "ok",
    };
    [word.into(), String::new(), String::new()]
}

/// Holds some lines of a list against `verify`; what is not tried is passed over.
fn as_verified<'a>(folder: &Folder, lines: impl Iterator<Item = &'a str>) -> usize {
    let mut held = 0;
    for line in lines {
        let fields: Vec<&str> = line.split(',').collect();
        if ["larger", "no-offset", "no-select"].contains(&fields[3]) {
            continue;
        }
        let wanted = verified(folder, [fields[0], fields[1], fields[2]]);
        assert_eq!(fields[3..6], wanted, "{line}");
        held += 1;
    }
    held
}

#[test]
fn sets_answer_as_verify_does() {
    let folder = folder("sets-held");
    folder.done(&["boards", "chips", "--sets", "--csv", "list.csv"]);
    let list = text(&folder.read("list.csv"));
    assert_eq!(as_verified(&folder, list.lines().skip(1)), 210);
}

#[test]
fn generated_boards_answer_as_verify_does() {
    let folder = folder("made");
    let base = text(&folder.read("boards/32.txt"));
    fs::remove_dir_all(folder.path.join("boards")).expect("it is there");
    fs::create_dir_all(folder.path.join("boards")).expect("a folder");
    for number in 0..60 {
        let board = made_board(&mut Random::of_case(11, number), &base);
        folder.write(&format!("boards/{number:02}.txt"), board.as_bytes());
    }
    let told = folder.run(&["boards", "chips", "--csv", "list.csv"]);
    assert!(matches!(told.status.code(), Some(0 | 1)));
    let list = text(&folder.read("list.csv"));
    let mut met = std::collections::BTreeSet::new();
    assert_eq!(list.lines().count(), 1 + 60 * 15);
    for line in list.lines().skip(1) {
        let fields: Vec<&str> = line.split(',').collect();
        met.insert(fields[3..5].join(" ").trim_end().to_string());
    }
    assert!(as_verified(&folder, list.lines().skip(1).step_by(5)) > 100);
    for result in [
        "ok",
        "wiring",
        "refused address search",
        "refused select search",
        "refused build",
        "refused read-back",
    ] {
        assert!(met.contains(result), "{result}: {met:?}");
    }
}
