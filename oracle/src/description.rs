//! The description record of docs/INTERFACE.md, by value and as bytes.

pub const LENGTH: usize = 424;

pub const SINGLE: u8 = 0;
pub const BANKED: u8 = 1;
pub const MULTI: u8 = 2;

/// The package of the board's RP2350, by its number in the record.
#[derive(Debug, Clone, Copy, PartialEq, Eq)]
#[repr(u8)]
pub enum Package {
    B = 0,
    A = 1,
}

impl Package {
    fn of(number: u8) -> Option<Self> {
        [Self::B, Self::A]
            .into_iter()
            .find(|package| *package as u8 == number)
    }
}

/// No GPIO, or a setting that nobody gave.
pub const NONE: u8 = 255;

/// A setting under which a control line is not looked at.
pub const IGNORED: u8 = 2;

/// The candidates of a pin: none, one or two GPIOs, `NONE` filling up.
pub type Pin = [u8; 2];

pub const NO_PIN: Pin = [NONE, NONE];

/// The select settings of a chip. Form 0 is by chip selects, 1 by ce and oe, 2 by explicit ce and
/// oe; the lines are ce, oe, cs1 to cs4.
#[derive(Debug, Clone, Copy, PartialEq, Eq)]
pub struct Settings {
    pub form: u8,
    pub lines: [u8; 6],
}

/// The lines of a Multi set by kind.
#[derive(Debug, Clone, PartialEq, Eq)]
pub struct Multi {
    pub select: u8,
    pub commoned: Vec<u8>,
    pub ignored: Vec<u8>,
}

#[derive(Debug, Clone, PartialEq, Eq)]
pub struct Chip {
    pub size: u32,
    pub address_pins: Vec<u8>,
    pub data_pins: Vec<u8>,
    /// Kind and pin of each line.
    pub control: Vec<(u8, u8)>,
}

#[derive(Debug, Clone, PartialEq, Eq)]
pub struct Description {
    pub board_pins: u8,
    pub package: Package,
    pub set_type: u8,
    pub word_bytes: u8,
    pub offset: i16,
    pub largest_table: u32,
    pub settings: Settings,
    pub multi: Option<Multi>,
    pub qualifiers: Vec<u8>,
    /// Socket pin n at place n - 1.
    pub socket: [Pin; 40],
    /// X1 and X2.
    pub x: [Pin; 2],
    pub chips: Vec<Chip>,
}

impl Description {
    /// The record's bytes as a description; none where a byte has a value that the record does not
    /// name. What 01's domain asks beyond that is not looked at here.
    pub fn read(bytes: &[u8; LENGTH]) -> Option<Self> {
        let kept_free = [12, 13, 14, 15, 26, 27];
        if kept_free.iter().any(|&place| bytes[place] != 0) || bytes[7] > 1 {
            return None;
        }
        let pin = |place: usize| [bytes[place], bytes[place + 1]];
        Some(Self {
            board_pins: bytes[0],
            package: Package::of(bytes[1])?,
            set_type: bytes[2],
            word_bytes: bytes[3],
            offset: i16::from(bytes[4] as i8),
            largest_table: u32::from_le_bytes([bytes[8], bytes[9], bytes[10], bytes[11]]),
            settings: Settings {
                form: bytes[16],
                lines: bytes[17..23].try_into().expect("six settings"),
            },
            multi: read_multi(bytes)?,
            qualifiers: read_qualifiers(bytes),
            socket: std::array::from_fn(|n| pin(52 + 2 * n)),
            x: [pin(132), pin(134)],
            chips: read_chips(bytes)?,
        })
    }

    pub fn write(&self) -> [u8; LENGTH] {
        let mut bytes = [0; LENGTH];
        bytes[0] = self.board_pins;
        bytes[1] = self.package as u8;
        bytes[2] = self.set_type;
        bytes[3] = self.word_bytes;
        bytes[4] = self.offset as u8;
        bytes[5] = self.chips.len() as u8;
        bytes[6] = self.qualifiers.len() as u8;
        bytes[8..12].copy_from_slice(&self.largest_table.to_le_bytes());
        bytes[16] = self.settings.form;
        bytes[17..23].copy_from_slice(&self.settings.lines);
        if let Some(multi) = &self.multi {
            bytes[7] = 1;
            bytes[23] = multi.select;
            bytes[24] = multi.commoned.len() as u8;
            bytes[25] = multi.ignored.len() as u8;
            put(&mut bytes[28..], &multi.commoned);
            put(&mut bytes[36..], &multi.ignored);
        }
        put(&mut bytes[44..], &self.qualifiers);
        put(&mut bytes[52..], self.socket.as_flattened());
        put(&mut bytes[132..], self.x.as_flattened());
        for (n, chip) in self.chips.iter().enumerate() {
            put(&mut bytes[136 + 72 * n..], &write_chip(chip));
        }
        bytes
    }

    pub fn chip0(&self) -> &Chip {
        &self.chips[0]
    }

    /// The chip pin's place in the socket, if it has one.
    pub fn socket_pin(&self, chip_pin: u8) -> Option<u8> {
        let pin = i16::from(chip_pin) + self.offset;
        (1..=i16::from(self.board_pins))
            .contains(&pin)
            .then_some(pin as u8)
    }

    pub fn candidates(&self, socket_pin: u8) -> Pin {
        self.socket[usize::from(socket_pin) - 1]
    }
}

fn put(target: &mut [u8], bytes: &[u8]) {
    target[..bytes.len()].copy_from_slice(bytes);
}

/// Only some calls test the list, so a count past its places is no fault here: it reads as that many
/// indices of no line.
fn read_qualifiers(bytes: &[u8; LENGTH]) -> Vec<u8> {
    let count = usize::from(bytes[6]);
    match bytes[44..52].get(..count) {
        Some(indices) => indices.to_vec(),
        None => vec![NONE; count],
    }
}

fn read_multi(bytes: &[u8; LENGTH]) -> Option<Option<Multi>> {
    if bytes[7] == 0 {
        return Some(None);
    }
    Some(Some(Multi {
        select: bytes[23],
        commoned: bytes[28..36].get(..usize::from(bytes[24]))?.to_vec(),
        ignored: bytes[36..44].get(..usize::from(bytes[25]))?.to_vec(),
    }))
}

fn read_chips(bytes: &[u8; LENGTH]) -> Option<Vec<Chip>> {
    let chips = bytes[136..].chunks_exact(72);
    let count = usize::from(bytes[5]);
    if count > 4 || !chips.clone().all(kept_free) {
        return None;
    }
    chips.take(count).map(read_chip).collect()
}

/// The places kept for later are 0 in every chip and line, past their counts too.
fn kept_free(chip: &[u8]) -> bool {
    let levels = chip[48..72].chunks_exact(3).map(|line| line[2]);
    levels.chain([chip[7]]).all(|byte| byte == 0)
}

fn read_chip(bytes: &[u8]) -> Option<Chip> {
    if bytes[6] > 8 {
        return None;
    }
    let lines = bytes[48..72].chunks_exact(3);
    let control = lines.take(usize::from(bytes[6]));
    Some(Chip {
        size: u32::from_le_bytes(bytes[..4].try_into().expect("four bytes")),
        address_pins: bytes[8..32].get(..usize::from(bytes[4]))?.to_vec(),
        data_pins: bytes[32..48].get(..usize::from(bytes[5]))?.to_vec(),
        control: control.map(|line| (line[0], line[1])).collect(),
    })
}

fn write_chip(chip: &Chip) -> [u8; 72] {
    let mut bytes = [0; 72];
    bytes[..4].copy_from_slice(&chip.size.to_le_bytes());
    bytes[4] = chip.address_pins.len() as u8;
    bytes[5] = chip.data_pins.len() as u8;
    bytes[6] = chip.control.len() as u8;
    put(&mut bytes[8..], &chip.address_pins);
    put(&mut bytes[32..], &chip.data_pins);
    for (n, &(kind, pin)) in chip.control.iter().enumerate() {
        put(&mut bytes[48 + 3 * n..], &[kind, pin]);
    }
    bytes
}
