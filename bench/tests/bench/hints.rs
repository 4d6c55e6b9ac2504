//! What is said of a refusal beyond its number and place, and what `layout` says of the build.

use super::folder::{Folder, SAMPLE, text};
use super::slots::{changed, multi, wired};

fn folder(name: &str) -> Folder {
    Folder::new("layout", name)
}

/// What `layout` says of a refused description.
fn refused(folder: &Folder, description: &str) -> String {
    folder.write("slot.txt", description.as_bytes());
    folder.refused(&["slot.txt"])
}

#[test]
fn gpios_that_no_window_holds_are_named() {
    let folder = folder("hint-window");
    let far = changed(&[
        ("pin 2 gpio 11 26", "pin 2 gpio 40"),
        ("pin 10 gpio 21", "pin 10 gpio 2"),
    ]);
    let told = refused(&folder, &far);
    assert!(told.starts_with("address search refused: 9 NoValidLayout, place 0: "));
    let hint =
        "; A12 on GPIO 40 is outside GPIOs 0 to 31, A0 on GPIO 2 is outside GPIOs 16 to 47\n";
    assert!(told.ends_with(hint), "{told}");
    let both = changed(&[
        ("pin 2 gpio 11 26", "pin 2 gpio 40 47"),
        ("pin 10 gpio 21", "pin 10 gpio 2"),
    ]);
    assert!(refused(&folder, &both).contains("; A12 on GPIO 40 or 47 is outside GPIOs 0 to 31, "));
}

#[test]
fn too_few_gpios_below_the_last_are_told() {
    let head = "socket 24\nchip size 8\naddress 1 2 3\ndata 4 5 6 7 8 9 10 11\ncontrol ce 12\n";
    let slot = wired(head, (45..48).chain(16..25));
    let told = refused(&folder("hint-last"), &slot);
    let hint = "; a PIO reads 8 GPIOs or more from the lowest on, and they end past GPIO 47\n";
    assert!(told.ends_with(hint), "{told}");
}

#[test]
fn lines_off_the_socket_are_named() {
    let folder = folder("hint-off");
    let off = changed(&[
        ("set single", "set banked"),
        ("24 21 23 2 ", "24 21 23 30 "),
        ("settings ce-oe", "settings ce-oe\nchip again"),
    ]);
    let told = refused(&folder, &off);
    let hint = "; off the socket of 28 pins: A12 (chip pin 30); X1 and X2 serve such lines, \
        two at most and in Single alone\n";
    assert!(told.ends_with(hint), "{told}");
}

#[test]
fn data_lines_with_a_gap_are_named() {
    let folder = folder("hint-gap");
    let gap = changed(&[("pin 19 gpio 7", "pin 19 gpio 8 27")]);
    let told = refused(&folder, &gap);
    assert!(told.starts_with("select search refused: 9 NoValidLayout, place 0: "));
    assert!(told.contains("; the data lines leave a gap: D0 on GPIO 0, D1 on GPIO 1, "));
    assert!(
        told.ends_with(", D6 on GPIO 6, D7 on GPIO 8 or 27\n"),
        "{told}"
    );
}

#[test]
fn select_lines_outside_the_window_of_the_data_are_named() {
    let folder = folder("hint-select");
    let far = changed(&[
        ("pin 20 gpio 22", "pin 20 gpio 40"),
        ("pin 22 gpio 23", "pin 22 gpio 41"),
    ]);
    let told = refused(&folder, &far);
    let hint = "; ce on GPIO 40 is outside GPIOs 0 to 31, D0 on GPIO 0 is outside GPIOs 16 to 47\n";
    assert!(told.ends_with(hint), "{told}");
}

#[test]
fn both_lengths_are_told() {
    let folder = folder("hint-length");
    folder.write("short.bin", &[0; 8191]);
    let words = ["--any-length", "slot.txt", "table.bin", "short.bin"];
    let told = text(&folder.run_other("build", &words).stderr);
    assert!(
        told.ends_with("; its size is 8192, and there are 8191 bytes\n"),
        "{told}"
    );
    folder.done(&["slot.txt", "stored.txt"]);
    for length in [8191, 9000] {
        folder.write("table.bin", &vec![0; length]);
        let told = folder.run_other("read-back", &["stored.txt", "table.bin", "back.bin"]);
        assert_eq!(told.status.code(), Some(1));
        let hint = format!("; 8192 bytes are declared, and table.bin has {length}\n");
        assert!(text(&told.stderr).ends_with(&hint));
    }
}

/// The searches take these, the build does not.
#[test]
fn layout_tells_what_the_build_refuses() {
    let folder = folder("hint-build");
    let large = changed(&[
        ("pin 10 gpio 21", "pin 10 gpio 30"),
        ("limit 524288", "limit 65536"),
    ]);
    let told = refused(&folder, &large);
    assert!(
        told.starts_with("build refused: 11 RomTableTooLarge, place 0: "),
        "{told}"
    );
    assert!(
        told.ends_with("; it has 4194304 bytes, and the limit is 65536\n"),
        "{told}"
    );
    let two = SAMPLE.to_string() + "chip again\n";
    let told = refused(&folder, &two);
    assert!(
        told.starts_with("build refused: 12 InvalidConfig, place 0: "),
        "{told}"
    );
    assert!(
        told.ends_with("; Single takes 1, and there are 2\n"),
        "{told}"
    );
    folder.refused(&["slot.txt", "stored.txt"]);
    assert!(!folder.names().contains(&"stored.txt".to_string()));
}

#[test]
fn select_lines_have_their_polarity_and_their_chip() {
    let folder = folder("hint-polarity");
    let told = folder.done(&["slot.txt"]);
    assert!(
        told.contains("\n  22  ce, active low        22\n"),
        "{told}"
    );
    folder.write("slot.txt", multi().as_bytes());
    let told = folder.done(&["slot.txt"]);
    for row in [
        "\n  22  ce, selects chip 0, active low  ",
        "\n  24  X1, selects chip 1  ",
        "\n  25  X2, selects chip 2  ",
        "\n  23  oe, commoned, active low  ",
    ] {
        assert!(told.contains(row), "{told}");
    }
    let settings = [(
        "control ce 20\ncontrol oe 22",
        "control cs1 20\ncontrol cs2 22",
    )];
    let high = [("settings ce-oe", "settings chip-select cs1 high cs2 low")];
    folder.write("slot.txt", changed(&[settings[0], high[0]]).as_bytes());
    let told = folder.done(&["slot.txt"]);
    assert!(told.contains("\n  22  cs1, active high  "), "{told}");
    assert!(told.contains("\n  23  cs2, active low   "), "{told}");
}
