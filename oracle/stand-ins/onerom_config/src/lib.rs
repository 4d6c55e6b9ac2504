//! Stands in for the board and chip catalogue: a board and a chip are what one case says they are.
//!
//! The original hands boards and chips about by value and wants their lists for ever, so both are
//! references to lists that are never freed. Equal lists are kept once.

pub mod chip;
pub mod hw;
mod kept;
