//! The board's socket as a drawing.

mod wiring;

use std::fmt::Write;

use onerom::description::Description;
use onerom::layout::addr::AddrLayout;
use onerom::layout::cs_data::CsDataLayout;
use wiring::Wiring;

/// Headings.
const ROLE: &str = "role";
const GPIO: &str = "GPIO";

/// For a pin that serves nothing.
const NO_ROLE: &str = "-";

/// The socket seen from above, pin 1 at the top left: beside each pin its GPIO, what it serves
/// under these layouts, and in brackets the GPIO that was not taken. Below it stand X1 and X2.
///
/// Hand in the layouts that were found for the description. Others are drawn too, as far as they
/// name pins of its first chip.
pub fn drawing(slot: &Description, addr: &AddrLayout, cs_data: &CsDataLayout) -> String {
    let wiring = Wiring::of(slot, addr, cs_data);
    let pins = wiring.pins.len();
    let left = Side::of(slot, &wiring, 1..=pins / 2);
    let right = Side::of(slot, &wiring, (pins / 2 + 1..=pins).rev());
    heading(slot) + &body(&left, &right) + "\n" + &x_pins(slot, &wiring)
}

fn heading(slot: &Description) -> String {
    let (pins, package) = (slot.board_pins, slot.package);
    let mut text = format!("socket of {pins} pins from above, {package}");
    let offset = i16::from(slot.pin_offset);
    if offset != 0 {
        let (socket, chip) = (1.max(1 + offset), 1.max(1 - offset));
        let _ = write!(text, ", chip pin {chip} in socket pin {socket}");
    }
    text + "\n\n"
}

fn body(left: &Side, right: &Side) -> String {
    let (role, gpio, other) = (left.role, left.gpio, right.gpio);
    let mut text = format!("{ROLE:>role$}  {GPIO:>gpio$}  +---\\__/---+  {GPIO:<other$}  {ROLE}\n");
    for (a, b) in left.cells.iter().zip(&right.cells) {
        // A String takes any text, so there is nothing to fail.
        let _ = write!(text, "{:>role$}  {:>gpio$}  ", a.role, a.gpio);
        let _ = write!(text, "| {:>2}    {:>2} |", a.pin, b.pin);
        let _ = writeln!(text, "  {:<other$}  {}", b.gpio, b.role);
    }
    let _ = writeln!(text, "{:>role$}  {:>gpio$}  +----------+", "", "");
    text
}

/// X1 and X2, and what they are for.
fn x_pins(slot: &Description, wiring: &Wiring) -> String {
    let gpios: Vec<String> = (wiring.x.iter().zip(slot.x))
        .map(|(uses, candidates)| uses.gpio_words(candidates))
        .collect();
    let width = gpios.iter().map(String::len).max().unwrap_or(0);
    let rows = (1..).zip(&wiring.x).zip(&gpios);
    rows.map(|((number, uses), gpio)| {
        let role = uses.role_words("not used");
        format!("X{number}  {gpio:<width$}  {role}\n")
    })
    .collect()
}

/// A pin as the drawing has it.
struct Cell {
    pin: usize,
    gpio: String,
    role: String,
}

/// A side's pins from the top down, and how wide their words are.
struct Side {
    cells: Vec<Cell>,
    gpio: usize,
    role: usize,
}

impl Side {
    fn of(slot: &Description, wiring: &Wiring, pins: impl Iterator<Item = usize>) -> Self {
        let cells: Vec<Cell> = pins.filter_map(|pin| cell(slot, wiring, pin)).collect();
        let width = |heading: &str, words: fn(&Cell) -> &String| {
            let widest = cells.iter().map(|cell| words(cell).len()).max();
            widest.unwrap_or(0).max(heading.len())
        };
        let gpio = width(GPIO, |cell| &cell.gpio);
        let role = width(ROLE, |cell| &cell.role);
        Self { cells, gpio, role }
    }
}

fn cell(slot: &Description, wiring: &Wiring, pin: usize) -> Option<Cell> {
    let place = pin.checked_sub(1)?;
    let uses = wiring.pins.get(place)?;
    // A socket of more pins than any has none there.
    let candidates = slot.socket.get(place).copied().unwrap_or_default();
    Some(Cell {
        pin,
        gpio: uses.gpio_words(candidates),
        role: uses.role_words(NO_ROLE),
    })
}
