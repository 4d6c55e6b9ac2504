//! The byte order of the chips' files: what names it, and what is said of it.

use std::path::Path;

use onerom::{ByteOrder, Description, StoredSlot};
use onerom_bench::text::NamedOrder;

use crate::commands::Flags;
use crate::ending::Fault;

/// The flag by which the chips' files are high byte first.
pub const HIGH_FIRST: &str = "--high-first";

/// The order that a slot's file and the flags name: low byte first if neither does. They cannot
/// contradict each other.
pub fn byte_order(
    file: &Path,
    named: Option<&NamedOrder>,
    flags: &Flags,
) -> Result<ByteOrder, Fault> {
    match named {
        Some(named) if flags.has(HIGH_FIRST) && named.order != ByteOrder::HighFirst => {
            let own = || file.display().to_string();
            let (name, line) = (named.file.clone().unwrap_or_else(own), named.line);
            Err(Fault::File(format!(
                "{name}, line {line}: expected `order high` beside {HIGH_FIRST}, found `order low`; \
                 change the line or leave the flag out"
            )))
        }
        Some(named) => Ok(named.order),
        None if flags.has(HIGH_FIRST) => Ok(ByteOrder::HighFirst),
        None => Ok(ByteOrder::LowFirst),
    }
}

/// The order of a slot's dumps, and why nothing goes by it if so.
#[derive(Clone, Copy)]
pub struct Dumps {
    pub order: ByteOrder,
    without_effect: Option<&'static str>,
}

impl Dumps {
    /// Those of a described slot.
    pub fn of(slot: &Description, order: ByteOrder) -> Self {
        let one_byte = (slot.word_bytes == 1).then_some(ONE_BYTE);
        Self {
            order,
            without_effect: one_byte,
        }
    }

    /// Those of a stored slot.
    pub fn of_stored(slot: &StoredSlot, order: ByteOrder) -> Self {
        let one_byte = (slot.word_bytes() == 1).then_some(ONE_BYTE);
        let plugin = slot.kind.is_plugin().then_some(PLUGIN);
        Self {
            order,
            without_effect: plugin.or(one_byte),
        }
    }

    /// What a report says of an order that is not the usual one, behind these words; nothing where the
    /// order changes nothing.
    pub fn told(self, before: &str) -> String {
        match (self.order, self.without_effect) {
            (ByteOrder::HighFirst, None) => format!("{before}{}", self.order),
            _ => String::new(),
        }
    }

    /// What is to be said where high byte first is asked for and changes nothing.
    pub fn note(self) -> String {
        match (self.order, self.without_effect) {
            (ByteOrder::HighFirst, Some(why)) => {
                format!("{} changes nothing here: {why}\n", self.order)
            }
            _ => String::new(),
        }
    }
}

const ONE_BYTE: &str = "words have one byte";
const PLUGIN: &str = "a plugin is copied as it is";
