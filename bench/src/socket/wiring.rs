//! What the pins of a socket serve under the layouts that were found, and on which GPIOs.

use onerom::description::{Candidates, Chip, Description, SetType};
use onerom::layout::addr::AddrLayout;
use onerom::layout::cs_data::{CsDataLayout, Line, Role};

/// What a pin serves, and the GPIOs that are taken for it.
#[derive(Debug, Clone, Default)]
pub struct Uses {
    gpios: Vec<u8>,
    roles: Vec<String>,
}

impl Uses {
    fn take(&mut self, gpio: u8) {
        if !self.gpios.contains(&gpio) {
            self.gpios.push(gpio);
        }
    }

    fn add(&mut self, gpio: u8, role: String) {
        self.take(gpio);
        if !self.roles.contains(&role) {
            self.roles.push(role);
        }
    }

    /// The roles, or this word for none.
    pub fn role_words(&self, none: &str) -> String {
        match self.roles[..] {
            [] => none.into(),
            _ => self.roles.join("; "),
        }
    }

    /// What is taken, and in brackets what could have been. Of a pin that serves nothing all are
    /// shown alike.
    pub fn gpio_words(&self, candidates: Candidates) -> String {
        let all: Vec<u8> = candidates.gpios().collect();
        if self.gpios.is_empty() {
            return numbers(&all).unwrap_or("-".into());
        }
        let others: Vec<u8> = (all.into_iter())
            .filter(|gpio| !self.gpios.contains(gpio))
            .collect();
        let taken = numbers(&self.gpios).unwrap_or_default();
        match numbers(&others) {
            Some(others) => format!("{taken} ({others})"),
            None => taken,
        }
    }
}

fn numbers(gpios: &[u8]) -> Option<String> {
    let words: Vec<String> = gpios.iter().map(u8::to_string).collect();
    (!words.is_empty()).then(|| words.join(" "))
}

pub struct Wiring {
    /// Socket pin less chip pin.
    offset: i16,
    /// Socket pin n at place n - 1.
    pub pins: Vec<Uses>,
    /// X1 and X2.
    pub x: [Uses; 2],
}

impl Wiring {
    pub fn of(slot: &Description, addr: &AddrLayout, cs_data: &CsDataLayout) -> Self {
        let mut wiring = Self {
            offset: slot.pin_offset.into(),
            pins: vec![Uses::default(); slot.board_pins.into()],
            x: Default::default(),
        };
        // Both searches go by the first chip.
        if let Some(chip) = slot.chips.first() {
            wiring.address_lines(slot, chip, addr);
            wiring.data_lines(chip, cs_data);
            wiring.select_lines(chip, &cs_data.select, "");
            wiring.select_lines(chip, &cs_data.commoned, ", commoned");
        }
        wiring.picking_pins(slot.set_type, addr);
        wiring
    }

    /// The socket pin that a chip pin stands on; none off the socket.
    fn under(&mut self, chip_pin: u8) -> Option<&mut Uses> {
        let place = i16::from(chip_pin) + self.offset - 1;
        self.pins.get_mut(usize::try_from(place).ok()?)
    }

    /// A line off the socket is on X1, the next on X2.
    fn address_lines(&mut self, slot: &Description, chip: &Chip, addr: &AddrLayout) {
        // With words of two bytes the first address pin picks the byte, and is no line.
        let first = usize::from(slot.word_bytes == 2);
        let pins = chip.address_pins.iter().skip(first);
        let gpios = addr.lines.iter().chain(&addr.excess);
        let mut off_socket = 0;
        for (line, (&pin, &gpio)) in pins.zip(gpios).enumerate() {
            let is_excess = line >= addr.lines.len();
            let mark = if is_excess { ", half select" } else { "" };
            let role = format!("A{line}{mark}");
            if let Some(uses) = self.under(pin) {
                uses.add(gpio, role);
            } else if let Some(uses) = self.x.get_mut(off_socket) {
                uses.add(gpio, role);
                off_socket += 1;
            }
        }
    }

    fn data_lines(&mut self, chip: &Chip, cs_data: &CsDataLayout) {
        for (line, (&pin, &gpio)) in chip.data_pins.iter().zip(&cs_data.data).enumerate() {
            if let Some(uses) = self.under(pin) {
                uses.add(gpio, format!("D{line}"));
            }
        }
    }

    /// Half selects are shown as address lines.
    fn select_lines(&mut self, chip: &Chip, lines: &[Line], mark: &str) {
        for line in lines {
            match line.role {
                Role::X1 => self.x[0].take(line.gpio),
                Role::X2 => self.x[1].take(line.gpio),
                role => {
                    let uses = control_pin(chip, role).and_then(|pin| self.under(pin));
                    if let Some(uses) = uses {
                        uses.add(line.gpio, format!("{role}{mark}"));
                    }
                }
            }
        }
    }

    /// X1 and X2 where they pick a bank or a chip.
    fn picking_pins(&mut self, set_type: SetType, addr: &AddrLayout) {
        for (number, (uses, gpio)) in self.x.iter_mut().zip([addr.x1, addr.x2]).enumerate() {
            let Some(gpio) = gpio else { continue };
            let role = match set_type {
                SetType::Multi => format!("selects chip {}", number + 1),
                SetType::Single | SetType::Banked => format!("bank bit {number}"),
            };
            uses.add(gpio, role);
        }
    }
}

/// The chip pin of a control line that a role names.
fn control_pin(chip: &Chip, role: Role) -> Option<u8> {
    // Kinds and roles have the same numbers up to cs4.
    let named = role.number() <= Role::Cs4.number();
    let is_it = |line: &&(_, u8)| named && line.0 as u8 == role.number();
    chip.control.iter().find(is_it).map(|&(_, pin)| pin)
}
