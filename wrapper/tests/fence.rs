//! The fences: where bytes stand, what is watched, and that a step too far is a fault.

use std::os::unix::process::ExitStatusExt;
use std::process::{Command, ExitStatus};

use onerom::fence::{Lent, Shown, Side};

/// Lengths around those of one, two and four pages.
const LENGTHS: [usize; 10] = [0, 1, 36, 4095, 4096, 4097, 8192, 8193, 16384, 16385];

#[test]
fn shown_bytes_are_a_copy() {
    let mut shown = Shown::default();
    assert!(shown.bytes().is_empty());
    for side in Side::BOTH {
        for length in LENGTHS {
            let bytes: Vec<u8> = (0..length).map(|n| (n % 251) as u8).collect();
            shown.put(&bytes, side);
            assert_eq!(shown.bytes(), bytes);
            let edge = match side {
                Side::Lower => shown.bytes().as_ptr_range().start,
                Side::Upper => shown.bytes().as_ptr_range().end,
            };
            assert_eq!(edge.addr() % 4096, 0);
        }
    }
}

#[test]
fn lent_bytes_are_watched() {
    let mut lent = Lent::default();
    for side in Side::BOTH {
        for length in LENGTHS {
            assert_eq!(lent.lend(length, side), vec![side.watch(); length]);
            assert!(lent.is_kept_past(0) && lent.is_kept_past(length));
            assert!(!lent.is_kept_past(length + 1));
            assert_eq!(lent.front(length + 1).len(), length);
        }
        lent.lend(100, side)[7] ^= 1;
        assert_eq!(lent.front(8)[7], side.watch() ^ 1);
        assert_eq!((lent.is_kept_past(7), lent.is_kept_past(8)), (false, true));
    }
}

/// What the test below does when it is run on its own.
const TRY: &str = "FENCE_TRY";

/// Touches the byte that the variable names; does nothing if there is none.
#[test]
fn touched() {
    let Ok(what) = std::env::var(TRY) else {
        return;
    };
    let words: Vec<&str> = what.split(' ').collect();
    let side = if words[1] == "lower" {
        Side::Lower
    } else {
        Side::Upper
    };
    let length: usize = words[2].parse().expect("a length");
    let place: isize = words[3].parse().expect("a place");
    let (mut shown, mut lent) = (Shown::default(), Lent::default());
    let start = if words[0] == "lent" {
        lent.lend(length, side).as_mut_ptr()
    } else {
        shown.put(&vec![0; length], side);
        shown.bytes().as_ptr().cast_mut()
    };
    let byte = start.wrapping_offset(place);
    // SAFETY: none. Where this is no fault it is a byte of the mapping that nobody else has.
    unsafe {
        match words[4] {
            "read" => drop(byte.read_volatile()),
            _ => byte.write_volatile(1),
        }
    }
}

fn touch(what: &str) -> ExitStatus {
    let mut program = Command::new(std::env::current_exe().expect("this program's name"));
    let words = program.args(["--exact", "touched"]).env(TRY, what);
    words.output().expect("the program runs").status
}

#[test]
fn a_step_too_far_is_a_fault() {
    const SEGMENTATION_FAULT: i32 = 11;
    for length in [0, 36, 4096] {
        for kind in ["lent", "shown"] {
            for how in ["read", "write"] {
                let past = touch(&format!("{kind} upper {length} {length} {how}"));
                assert_eq!(past.signal(), Some(SEGMENTATION_FAULT));
                let before = touch(&format!("{kind} lower {length} -1 {how}"));
                assert_eq!(before.signal(), Some(SEGMENTATION_FAULT));
            }
        }
    }
    for side in ["lower", "upper"] {
        let written = touch(&format!("shown {side} 36 0 write"));
        assert_eq!(written.signal(), Some(SEGMENTATION_FAULT));
        assert!(touch(&format!("shown {side} 36 0 read")).success());
        assert!(touch(&format!("lent {side} 36 35 write")).success());
    }
}
