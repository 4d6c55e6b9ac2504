//! Stored slots as text: what is written reads back as it was, what is read, and what an error says.

use super::slots::NUMBERED;
use onerom::ByteOrder;
use onerom::description::Candidates;
use onerom::slot::{Layout, Map, Rom, SlotKind, StoredSlot};
use onerom_bench::text::{is_slot, read_slot, write_slot};

/// Every fact once.
const WHOLE: &str = "slot multi
size 67305985
address algorithm 6 base 7 pin 8 pins 9
data algorithm 10 base 11 pin 12
dma 13
bit-mode 14
select algorithm 15 base 16 pin 17
override gpio 8 high
override gpio 63 normal
x1 gpio 24
x2 gpio 25 37
rom size 5
rom size 16777216
address 40 41 42
data 50 51
rom again
";

fn whole() -> StoredSlot {
    let mapped = Rom {
        size: 1 << 24,
        map: Map::of(&[40, 41, 42], &[50, 51]),
    };
    StoredSlot {
        size: 0x0403_0201,
        kind: SlotKind::Multi,
        layout: Some(NUMBERED),
        overrides: vec![200, 63],
        x: [Candidates::One(24), Candidates::Two(25, 37)],
        roms: vec![Rom { size: 5, map: None }, mapped, mapped],
    }
}

fn error(text: &str) -> String {
    read_slot(text).expect_err("no slot").to_string()
}

/// What is written of the whole slot, changed, reads back as the same.
fn comes_back(change: impl FnOnce(&mut StoredSlot)) -> String {
    let mut slot = whole();
    change(&mut slot);
    let text = write_slot(&slot, ByteOrder::LowFirst);
    assert_eq!(read_slot(&text).as_ref(), Ok(&slot), "{text}");
    assert!(is_slot(&text));
    text
}

#[test]
fn every_line_is_written_and_read() {
    assert_eq!(write_slot(&whole(), ByteOrder::LowFirst), WHOLE);
    assert_eq!(read_slot(WHOLE), Ok(whole()));
}

#[test]
fn the_order_is_free_behind_the_first_line() {
    let (first, rest) = WHOLE.split_once('\n').expect("a line");
    let (facts, roms) = rest.split_at(rest.find("rom").expect("a ROM"));
    let mut facts: Vec<&str> = facts.lines().collect();
    // Overrides keep their order.
    facts.rotate_right(2);
    let text = format!(
        "# a remark\n\n  {first} # another\n{roms}{}\n",
        facts.join("\n")
    );
    assert_eq!(read_slot(&text), Ok(whole()));
}

#[test]
fn every_number_comes_back() {
    for byte in 0..=u8::MAX {
        comes_back(|slot| slot.kind = SlotKind::of(byte));
        for place in 0..12 {
            comes_back(|slot| {
                let layout = slot.layout.as_mut().expect("a layout");
                *field(layout, place) = byte;
            });
        }
    }
    for size in [0, 1, 1 << 31, u32::MAX] {
        comes_back(|slot| slot.size = size);
    }
    for size in [0, 1, 1 << 24] {
        comes_back(|slot| slot.roms[0].size = size);
    }
}

fn field(layout: &mut Layout, place: usize) -> &mut u8 {
    let fields = [
        &mut layout.addr_algorithm,
        &mut layout.addr_base,
        &mut layout.base_addr_pin,
        &mut layout.addr_pins,
        &mut layout.data_algorithm,
        &mut layout.data_base,
        &mut layout.base_data_pin,
        &mut layout.dma_algorithm,
        &mut layout.bit_mode,
        &mut layout.cs_algorithm,
        &mut layout.cs_base,
        &mut layout.first_cs_pin,
    ];
    fields.into_iter().nth(place).expect("a field")
}

#[test]
fn every_list_comes_back() {
    for from in [0, 64, 128, 192] {
        comes_back(|slot| slot.overrides = (from..=from + 63).collect());
    }
    comes_back(|slot| slot.overrides.clear());
    let x = [
        Candidates::Absent,
        Candidates::One(0),
        Candidates::One(47),
        Candidates::Two(47, 0),
    ];
    for one in x {
        for two in x {
            comes_back(|slot| slot.x = [one, two]);
        }
    }
    let mut hole = [7; 32];
    (hole[3], hole[31]) = (255, 255);
    for list in [[0; 32], [254; 32], [255; 32], hole] {
        let maps = [([3; 32], list), (list, [3; 32])];
        for (address, data) in maps {
            comes_back(|slot| slot.roms[0].map = Some(Map { address, data }));
        }
    }
}

#[test]
fn what_is_not_there_comes_back() {
    let text = comes_back(|slot| slot.layout = None);
    assert!(!text.contains("algorithm") && !text.contains("dma"));
    comes_back(|slot| slot.roms.clear());
    let text = comes_back(|slot| slot.roms = vec![slot.roms[0]; 4]);
    assert!(text.ends_with("rom size 5\nrom again\nrom again\nrom again\n"));
    assert_eq!(
        read_slot("slot 200\nsize 3\n"),
        Ok(StoredSlot {
            size: 3,
            kind: SlotKind::Unknown(200),
            layout: None,
            overrides: vec![],
            x: [Candidates::Absent; 2],
            roms: vec![],
        })
    );
}

#[test]
fn what_has_no_place_does_not_read_back() {
    let unread = |change: fn(&mut StoredSlot)| {
        let mut slot = whole();
        change(&mut slot);
        error(&write_slot(&slot, ByteOrder::LowFirst))
    };
    let said = unread(|slot| slot.overrides = vec![0; 65]);
    assert_eq!(said, "line 72: expected at most 64 overrides");
    let said = unread(|slot| slot.roms = vec![Rom { size: 5, map: None }; 5]);
    assert_eq!(said, "line 16: expected at most 4 roms");
    let said = unread(|slot| slot.roms[0].size = (1 << 24) + 1);
    assert_eq!(
        said,
        "line 12: expected bytes, 0 to 16777216, found `16777217`"
    );
    let said = unread(|slot| slot.x[0] = Candidates::One(48));
    assert_eq!(said, "line 10: expected a GPIO, 0 to 47, found `48`");
}

#[test]
fn a_slot_is_told_from_a_description() {
    assert!(is_slot("\n# remark\n slot 1\n"));
    for text in ["", "# slot\n", "socket 24\nslot multi\n", "slots\n"] {
        assert!(!is_slot(text));
    }
    assert!(!is_slot(include_str!("../../sample/2764.txt")));
    assert_eq!(
        error("size 3\nslot multi\n"),
        "line 1: expected `slot`, found `size`"
    );
}

#[test]
fn errors_name_line_and_word() {
    let told = |line: &str, what: &str| {
        let text = format!("slot multi\nsize 8\nrom size 4\n{line}\n");
        assert_eq!(error(&text), format!("line 4: {what}"));
    };
    told("slot multi", "`slot` stands on line 1 already");
    told("size 9", "`size` stands on line 2 already");
    told("override 3 high", "expected `gpio`, found `3`");
    told(
        "override gpio 64 high",
        "expected a GPIO, 0 to 63, found `64`",
    );
    told(
        "override gpio 3 up",
        "expected an override (normal, invert, low, high), found `up`",
    );
    told(
        "address algorithm 1 base 256",
        "expected a number, 0 to 255, found `256`",
    );
    told("select base 1", "expected `algorithm`, found `base`");
    told(
        "dma",
        "expected a number, 0 to 255, found the end of the line",
    );
    told("data 256", "expected a GPIO, 0 to 255, found `256`");
    told("data none 3", "expected the end of the line, found `3`");
    told("x1 gpio 3 3", "expected two different GPIOs, found 3 twice");
    told("rom large", "expected `size`, found `large`");
    told(
        &format!("address{}", " 1".repeat(33)),
        "expected at most 32 numbers, found 33",
    );
    told(
        "socket 24",
        "expected slot, size, order, address, data, dma, bit-mode, select, override, x1, x2 or rom, \
         found `socket`",
    );
}

#[test]
fn errors_of_whole_files() {
    assert_eq!(error(""), "line 1: expected a `slot` line, found none");
    let kinds = "expected a number or a slot kind (single-rom, single-ram, banked, multi, \
        system-plugin, user-plugin, pio-plugin)";
    assert_eq!(error("slot rom\n"), format!("line 1: {kinds}, found `rom`"));
    assert_eq!(
        error("slot 256\n"),
        "line 1: expected a number, 0 to 255, found `256`"
    );
    assert_eq!(
        error("slot multi\n\n"),
        "line 2: expected a `size` line, found none"
    );
    let start = "slot multi\nsize 8\n";
    assert_eq!(
        error(&format!("{start}dma 0\n")),
        "line 3: expected the line `address algorithm` of the layout, found none"
    );
    assert_eq!(
        error(&format!("{start}data 3\n")),
        "line 3: expected `algorithm` or a `rom` line before `data`"
    );
    assert_eq!(
        error(&format!("{start}rom again\n")),
        "line 3: expected a rom before `rom again`"
    );
    let rom = format!("{start}rom size 4\n");
    assert_eq!(
        error(&format!("{rom}address 3\n")),
        "line 3: expected a `data` line of this rom, found none"
    );
    assert_eq!(
        error(&format!("{rom}data 3\n")),
        "line 3: expected an `address` line of this rom, found none"
    );
    assert_eq!(
        error(&format!("{rom}data 3\ndata 4\n")),
        "line 5: `data of rom 0` stands on line 4 already"
    );
}
