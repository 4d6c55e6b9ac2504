//! Every board with every chip: which go together.

pub mod csv;
mod sets;
pub mod table;
mod trial;

use onerom::Description;
use onerom_bench::text::{Board, ChipFacts};

use crate::progress::Progress;
pub use sets::{SETS, Set, Untried};
pub use trial::Outcome;
use trial::Trials;

/// A board or a chip, and the name of its file without the ending.
pub struct Named<T> {
    pub name: String,
    pub told: T,
}

/// A board with a set of one chip, and what came of it.
pub struct Pairing<'a> {
    pub board: &'a Named<Board>,
    pub chip: &'a Named<ChipFacts>,
    pub set: Set,
    pub outcome: Outcome,
}

impl Pairing<'_> {
    /// The slot that was tried.
    pub fn slot(&self) -> Result<Description, Untried> {
        sets::slot(&self.board.told, &self.chip.told, self.set)
    }
}

/// Tries them all: set by set, board by board, and on each board chip by chip.
pub fn tried<'a>(
    boards: &'a [Named<Board>],
    chips: &'a [Named<ChipFacts>],
    sets: &[Set],
) -> Vec<Pairing<'a>> {
    let total = sets.len() * boards.len() * chips.len();
    let mut progress = Progress::new("pairings", total as u64);
    let mut trials = Trials::default();
    let on_board = |(set, board)| chips.iter().map(move |chip| (set, board, chip));
    let places = (sets.iter())
        .flat_map(|&set| boards.iter().map(move |board| (set, board)))
        .flat_map(on_board);
    let mut pairings = Vec::with_capacity(total);
    for (set, board, chip) in places {
        let outcome = match sets::slot(&board.told, &chip.told, set) {
            Ok(slot) => trials.tried(&slot),
            Err(why) => Outcome::Untried(why),
        };
        pairings.push(Pairing {
            board,
            chip,
            set,
            outcome,
        });
        progress.step(pairings.len() as u64);
    }
    pairings
}
