//! A board: its socket's pin count and the GPIOs of each pin.

use crate::kept;

/// Two bytes a pin, 255 for none: socket pins 1 to 40, then X1, X2.
const X_PLACE: usize = 80;

#[derive(Debug, Clone, Copy, PartialEq, Eq)]
pub struct Board {
    pins: u8,
    candidates: &'static [u8],
}

impl Board {
    pub fn new(pins: u8, candidates: &[u8; 84]) -> Self {
        Self {
            pins,
            candidates: kept::bytes(candidates),
        }
    }

    pub fn chip_pins(&self) -> u8 {
        self.pins
    }

    pub fn gpios_for_socket_pin(&self, pin: u8) -> &'static [u8] {
        self.at(2 * (usize::from(pin) - 1))
    }

    pub fn gpios_for_x_pin(&self, pin: u8) -> &'static [u8] {
        self.at(X_PLACE + 2 * (usize::from(pin) - 1))
    }

    fn at(&self, place: usize) -> &'static [u8] {
        let pair = &self.candidates[place..place + 2];
        let count = pair.iter().take_while(|&&gpio| gpio != 255).count();
        &pair[..count]
    }
}
