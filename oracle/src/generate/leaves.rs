//! Cases of the leaves: window, offset, multi-chip select.

use crate::case::{Case, MultiSelect};
use crate::description::{NONE, Settings};
use crate::random::Random;

pub fn window(random: &mut Random) -> Case {
    let edges = [0, 1, 15, 16, 17, 31, 32, 33, 40, 41, 47, 48];
    if random.chance(20) {
        return Case::Window(random.byte(), random.byte());
    }
    let base = if random.chance(50) {
        random.pick(&edges)
    } else {
        random.gpio()
    };
    let span = if random.chance(50) {
        random.pick(&edges)
    } else {
        random.gpio()
    };
    Case::Window(base, span)
}

pub fn offset(random: &mut Random) -> Case {
    let pins = [24, 28, 32, 40];
    let board = random.pick(&pins);
    let chip = if random.chance(80) {
        random.pick(&pins)
    } else {
        random.byte()
    };
    Case::Offset(chip, board)
}

/// Settings in one of the three forms.
pub fn settings(random: &mut Random, form: u8) -> Settings {
    let mut lines = [NONE; 6];
    match form {
        0 => {
            lines[2] = random.below(3) as u8;
            for line in &mut lines[3..] {
                *line = random.pick(&[0, 1, 2, NONE]);
            }
        }
        2 => lines[..2].fill_with(|| random.below(3) as u8),
        _ => {}
    }
    Settings { form, lines }
}

/// Kinds of control lines: 0 to 5 at most once each, others as often as there is room.
pub fn kinds(random: &mut Random) -> Vec<u8> {
    let usual: [&[u8]; 9] = [
        &[2],
        &[0, 1],
        &[2, 3],
        &[2, 3, 4],
        &[2, 3, 4, 5],
        &[0, 1, 2],
        &[0, 6],
        &[1, 0, 3, 2],
        &[0],
    ];
    if random.chance(75) {
        return random.pick(&usual).to_vec();
    }
    let mut all = vec![0, 1, 2, 3, 4, 5, 6, 6];
    random.shuffle(&mut all);
    all.truncate(random.below(9));
    all
}

pub fn multi_select(random: &mut Random) -> Case {
    let mut kinds = kinds(random);
    if random.chance(30) {
        random.shuffle(&mut kinds);
    }
    let (primary, secondary) = (random.below(3) as u8, random.below(3) as u8);
    Case::MultiSelect(MultiSelect {
        kinds,
        primary: settings(random, primary),
        secondary: settings(random, secondary),
    })
}
