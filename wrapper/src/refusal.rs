//! Refusals: numbers, names and what they mean.

use std::fmt;

/// A call of the library.
#[derive(Debug, Clone, Copy, PartialEq, Eq)]
pub enum Call {
    /// `derive_addr_layout`.
    Address,
    /// `derive_cs_data_layout`.
    Select,
    /// `build_rom_image`.
    Build,
    /// `unscramble_slot`.
    ReadBack,
    /// The four above in turn.
    RoundTrip,
    /// `well_wired`.
    WellWired,
    /// `pin_page`.
    Page,
    /// `read_hex`.
    ReadHex,
    /// `write_hex`.
    WriteHex,
}

impl fmt::Display for Call {
    fn fmt(&self, f: &mut fmt::Formatter<'_>) -> fmt::Result {
        f.write_str(match self {
            Self::Address => "address search",
            Self::Select => "select search",
            Self::Build => "build",
            Self::ReadBack => "read-back",
            Self::RoundTrip => "round trip",
            Self::WellWired => "test of the wiring",
            Self::Page => "pin page",
            Self::ReadHex => "reading of Intel HEX",
            Self::WriteHex => "writing of Intel HEX",
        })
    }
}

/// Why a call gave no layout, table, ROM or text.
#[derive(Debug, Clone, Copy, PartialEq, Eq)]
pub struct Refusal {
    /// Who refused: a number can mean one thing in one search and another in the other.
    pub call: Call,
    /// As docs/INTERFACE.md lists them; `interface::refusals` has a name for each.
    pub number: u16,
    /// The refusal's name in that list.
    pub name: &'static str,
    /// The pin, GPIO, chip or word that it is about, as `place_words` says it; 0 where there is none.
    pub place: u64,
}

/// What the place of a refusal counts.
#[derive(Debug, Clone, Copy, PartialEq, Eq)]
enum Place {
    Nothing,
    SocketPin,
    ChipPin,
    /// Of the socket or of the chip, as the search has it that refused.
    Pin,
    XPin,
    GpioSet,
    Gpio,
    Chip,
    RomWord,
}

struct Row {
    name: &'static str,
    meaning: &'static str,
    place: Place,
}

const fn row(name: &'static str, place: Place, meaning: &'static str) -> Row {
    Row {
        name,
        meaning,
        place,
    }
}

/// Number n at place n - 1.
const ROWS: [Row; 28] = [
    row(
        "OutOfDomain",
        Place::Nothing,
        "a record of another length, or a number that no board or chip can have",
    ),
    row(
        "NoSelectLine",
        Place::Nothing,
        "no line selects the chip, or a line of the Multi set is not on it",
    ),
    row("UnmappedPin", Place::SocketPin, "a needed pin has no GPIO"),
    row("MissingXPin", Place::XPin, "a needed X pin has no GPIO"),
    row(
        "MissingAddrPinGpios",
        Place::Nothing,
        "qualifiers are given without an address layout",
    ),
    row(
        "RomTooLargeNoCsConfig",
        Place::Nothing,
        "excess address lines need cs1, which is ignored",
    ),
    row(
        "NonContiguousSelect",
        Place::GpioSet,
        "the select GPIOs leave a gap that cannot be served",
    ),
    row(
        "InteriorIgnoredLine",
        Place::Gpio,
        "an ignored line lies between the select lines",
    ),
    row(
        "NoValidLayout",
        Place::Nothing,
        "no choice of GPIOs fits one PIO window",
    ),
    row(
        "IncompatiblePinCount",
        Place::Nothing,
        "the chip does not go into this socket",
    ),
    row(
        "RomTableTooLarge",
        Place::Nothing,
        "the table is larger than the limit",
    ),
    row(
        "InvalidConfig",
        Place::Nothing,
        "the set type does not take this number of chips",
    ),
    row(
        "BadPosition",
        Place::Nothing,
        "a line's position is not 0 to 31, or a needed X pin or select line is absent",
    ),
    row("MissingImageData", Place::Chip, "a chip has no bytes"),
    row(
        "ShortImageData",
        Place::Chip,
        "a chip has fewer bytes than its size",
    ),
    row("ShortBuffer", Place::Nothing, "a lent buffer is too short"),
    row(
        "WrongSize",
        Place::Nothing,
        "the data's length is not the declared size",
    ),
    row(
        "UnknownSlotType",
        Place::Nothing,
        "the slot's kind is unknown",
    ),
    row(
        "MissingLayout",
        Place::Nothing,
        "there is no layout, or a ROM has no pin map",
    ),
    row(
        "UnknownAlgorithm",
        Place::Nothing,
        "an algorithm or bit mode is unknown",
    ),
    row("BadLayout", Place::Nothing, "the layout contradicts itself"),
    row(
        "XPin",
        Place::XPin,
        "not exactly one GPIO of an X pin is in the table's window",
    ),
    row(
        "Inconsistent",
        Place::RomWord,
        "two entries give different values for one word",
    ),
    row("Unserved", Place::RomWord, "no entry gives a word"),
    row(
        "NoActiveLine",
        Place::Nothing,
        "the Multi set has no active line",
    ),
    row(
        "BadRecord",
        Place::Nothing,
        "a line is no record of Intel HEX, or the end record is missing",
    ),
    row(
        "BadChecksum",
        Place::Nothing,
        "a record's bytes do not sum to zero",
    ),
    row(
        "PastChip",
        Place::Nothing,
        "a record has a data byte past the chip",
    ),
];

/// What a call means otherwise: the select search, the round trip that is either search's, and the
/// calls on Intel HEX, which have no record of the library's.
const OWN_ROWS: [(Call, u16, Row); 6] = [
    (
        Call::Select,
        3,
        row(
            "UnmappedPin",
            Place::ChipPin,
            "a needed pin is off the socket or has no GPIO",
        ),
    ),
    (
        Call::Select,
        9,
        row(
            "NoValidLayout",
            Place::Nothing,
            "no choice of GPIOs has data and selects without gaps, and all of them and the qualifiers in \
             one PIO window",
        ),
    ),
    (
        Call::RoundTrip,
        3,
        row(
            "UnmappedPin",
            Place::Pin,
            "a needed pin is off the socket or has no GPIO",
        ),
    ),
    (
        Call::RoundTrip,
        9,
        row("NoValidLayout", Place::Nothing, "no choice of GPIOs fits"),
    ),
    (Call::ReadHex, 1, CHIP_TOO_LARGE),
    (Call::WriteHex, 1, CHIP_TOO_LARGE),
];

const CHIP_TOO_LARGE: Row = row(
    "OutOfDomain",
    Place::Nothing,
    "a chip has at most 16777216 bytes",
);

const UNKNOWN: Row = row(
    "Unknown",
    Place::Nothing,
    "a number that this program does not know",
);

const PLACES: u32 = 48;

impl Refusal {
    /// The refusal that a call's result says; none if the result is a success.
    pub fn of(call: Call, result: u64) -> Option<Self> {
        (result != 0).then(|| Self::told(call, result))
    }

    /// The same of a call that answers with a length where it succeeds.
    pub fn or_length(call: Call, result: u64) -> Result<usize, Self> {
        match result >> PLACES {
            0 => Ok(result as usize),
            _ => Err(Self::told(call, result)),
        }
    }

    fn told(call: Call, result: u64) -> Self {
        let number = (result >> PLACES) as u16;
        Self {
            call,
            number,
            name: row_of(call, number).name,
            place: result & ((1 << PLACES) - 1),
        }
    }

    /// What it means, in a line.
    pub fn meaning(&self) -> &'static str {
        row_of(self.call, self.number).meaning
    }

    /// The place in words; empty where the refusal names none.
    pub fn place_words(&self) -> String {
        let place = self.place;
        match row_of(self.call, self.number).place {
            Place::Nothing => String::new(),
            Place::SocketPin => format!("socket pin {place}"),
            Place::ChipPin => format!("chip pin {place}"),
            Place::Pin => format!("pin {place}"),
            Place::XPin => format!("X{place}"),
            Place::GpioSet => format!("GPIOs {}", members(place)),
            Place::Gpio => format!("GPIO {place}"),
            Place::Chip => format!("chip {place}"),
            Place::RomWord => format!("ROM {}, address {}", place >> 32, place & 0xffff_ffff),
        }
    }
}

fn row_of(call: Call, number: u16) -> &'static Row {
    let own = OWN_ROWS.iter().find(|row| (row.0, row.1) == (call, number));
    if let Some((_, _, row)) = own {
        return row;
    }
    let place = usize::from(number).checked_sub(1);
    place.and_then(|place| ROWS.get(place)).unwrap_or(&UNKNOWN)
}

fn members(set: u64) -> String {
    let gpios = (0..PLACES).filter(|gpio| set >> gpio & 1 == 1);
    let words: Vec<String> = gpios.map(|gpio| gpio.to_string()).collect();
    words.join(" ")
}

impl fmt::Display for Refusal {
    fn fmt(&self, f: &mut fmt::Formatter<'_>) -> fmt::Result {
        write!(f, "{} {}, place {}", self.number, self.name, self.place)?;
        let words = self.place_words();
        if !words.is_empty() {
            write!(f, " ({words})")?;
        }
        write!(f, ": {}", self.meaning())
    }
}

impl std::error::Error for Refusal {}
