//! The sets that are tried, and the slot that a board, a chip and a set make.

use onerom::Description;
use onerom::description::{Kind, Multi, SetType, Setting};
use onerom::layout::cs_data::Role;
use onerom_bench::show::setting;
use onerom_bench::text::{Board, ChipFacts, seat};

/// So many of one chip.
#[derive(Clone, Copy, PartialEq, Eq)]
pub struct Set {
    pub name: &'static str,
    set_type: SetType,
    chips: usize,
}

const fn set(name: &'static str, set_type: SetType, chips: usize) -> Set {
    Set {
        name,
        set_type,
        chips,
    }
}

/// Single first, which is always tried.
pub const SETS: [Set; 5] = [
    set("single", SetType::Single, 1),
    set("banked 2", SetType::Banked, 2),
    set("banked 4", SetType::Banked, 4),
    set("multi 2", SetType::Multi, 2),
    set("multi 3", SetType::Multi, 3),
];

/// Why a pairing is not tried.
#[derive(Clone, Copy, PartialEq, Eq)]
pub enum Untried {
    /// The chip has more pins than the socket.
    Larger,
    /// No chip of another size goes into a socket of 40 pins: refusal 10.
    NoOffset,
    /// The set is Multi, and the chip has no line that would select it.
    NoSelect,
}

/// The slot of a set of this chip on this board.
pub fn slot(board: &Board, told: &ChipFacts, set: Set) -> Result<Description, Untried> {
    let pin_offset = offset(board, told)?;
    let multi = match set.set_type {
        SetType::Multi => Some(multi(told)?),
        _ => None,
    };
    Ok(Description {
        board_pins: board.pins,
        package: board.package,
        set_type: set.set_type,
        word_bytes: told.word_bytes,
        pin_offset,
        largest_table: board.largest_table,
        settings: told.settings,
        multi,
        qualifiers: told.qualifiers.clone(),
        socket: board.socket,
        x: board.x,
        chips: vec![told.chip.clone(); set.chips],
    })
}

/// Where the chip sits: at the socket's bottom, unless the board says otherwise. A larger one hangs
/// over the socket's end, and does so only on a board that says it by an offset below 0.
fn offset(board: &Board, told: &ChipFacts) -> Result<i8, Untried> {
    if told.package > board.pins && board.offset.is_none_or(|offset| offset >= 0) {
        return Err(Untried::Larger);
    }
    let offset = board.offset.or_else(|| seat(board.pins, told.package));
    offset.ok_or(Untried::NoOffset)
}

/// The chip's first control line that is not ignored selects it, and all chips share the others.
fn multi(told: &ChipFacts) -> Result<Multi, Untried> {
    let lines = told.chip.control.iter().map(|&(kind, _)| kind);
    let lines = lines.filter(|&kind| kind != Kind::Other);
    let is_ignored =
        |kind: &Kind| setting(&told.settings, Role::of(*kind as u8)) == Some(Setting::Ignored);
    let (ignored, selects): (Vec<Kind>, Vec<Kind>) = lines.partition(is_ignored);
    let (&select, commoned) = selects.split_first().ok_or(Untried::NoSelect)?;
    Ok(Multi {
        select,
        commoned: commoned.to_vec(),
        ignored,
    })
}
