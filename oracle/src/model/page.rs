//! The pin page, read from document 02's fourth slip: which roles two layouts give each GPIO, and which of
//! several is shown.

use super::domain;
use crate::layout::{AddressLayout, Line, ROLE_HALF, ROLE_X1, ROLE_X2, SelectLayout};

/// Bytes of a page: 48 rows of nine.
pub const LENGTH: usize = 432;

const OUT_OF_DOMAIN: u64 = 1;
const SHORT_BUFFER: u64 = 16;

const GPIOS: u8 = 48;

/// Control lines with the numbers that layouts have for them, in the order in which they are shown.
const CONTROL: [(&str, u8); 6] = [
    ("CE", 0),
    ("OE", 1),
    ("CS1", 2),
    ("CS2", 3),
    ("CS3", 4),
    ("CS4", 5),
];

/// The roles of each GPIO, in the order in which one is shown before another.
#[derive(Debug, PartialEq, Eq)]
pub struct Page(pub(crate) Vec<Vec<String>>);

/// The page that a call writes which is lent so many bytes; a refusal's number where there is none.
pub fn page(address: &AddressLayout, select: &SelectLayout, lent: usize) -> Result<Page, u64> {
    if !(domain::lone_address_layout(address) && domain::select_layout(select)) {
        return Err(OUT_OF_DOMAIN);
    }
    if lent < LENGTH {
        return Err(SHORT_BUFFER);
    }
    let roles = (0..GPIOS).map(|gpio| roles(address, select, gpio));
    Ok(Page(roles.collect()))
}

impl Page {
    pub fn text(&self) -> Vec<u8> {
        let mut text = String::new();
        for (gpio, roles) in self.0.iter().enumerate() {
            let shown = roles.first().map_or("-", String::as_str);
            text += &format!("{gpio:02} {shown:<5}\n");
        }
        text.into_bytes()
    }

    /// How many GPIOs have two different roles or more.
    pub fn shared(&self) -> usize {
        let is_shared = |roles: &&Vec<String>| roles.iter().any(|role| *role != roles[0]);
        self.0.iter().filter(is_shared).count()
    }
}

/// All roles of a GPIO: address, data, X pin, select, commoned.
fn roles(address: &AddressLayout, select: &SelectLayout, gpio: u8) -> Vec<String> {
    let mut roles = numbered("A", &address.lines, gpio);
    roles.extend(numbered("D", &select.data, gpio));
    for (name, own, role) in [("X1", address.x1, ROLE_X1), ("X2", address.x2, ROLE_X2)] {
        if own == Some(gpio) || is_anywhere(select, (role, gpio)) {
            roles.push(name.into());
        }
    }
    roles.extend(control(&select.select, gpio));
    if address.excess.contains(&gpio) || is_anywhere(select, (ROLE_HALF, gpio)) {
        roles.push("HALF".into());
    }
    roles.extend(control(&select.commoned, gpio));
    roles
}

/// The lines on a GPIO, numbered by their places.
fn numbered(letter: &str, lines: &[u8], gpio: u8) -> Vec<String> {
    let own = (0..lines.len()).filter(|&line| lines[line] == gpio);
    own.map(|line| format!("{letter}{line}")).collect()
}

/// Whether either list has a line.
fn is_anywhere(select: &SelectLayout, line: Line) -> bool {
    select.select.contains(&line) || select.commoned.contains(&line)
}

/// The control lines of a list on a GPIO.
fn control(lines: &[Line], gpio: u8) -> Vec<String> {
    let own = CONTROL
        .iter()
        .filter(|(_, kind)| lines.contains(&(*kind, gpio)));
    own.map(|(name, _)| name.to_string()).collect()
}

#[cfg(test)]
mod tests {
    use super::*;

    /// Layouts with D0 on GPIO 47 and nothing else.
    fn layouts() -> (AddressLayout, SelectLayout) {
        let address = AddressLayout {
            base: 0,
            pins: 0,
            x1: None,
            x2: None,
            lines: vec![],
            excess: vec![],
        };
        let select = SelectLayout {
            base: 0,
            base_data_pin: 0,
            base_cs_pin: 0,
            cs_pins: 0,
            ignore: None,
            qualifier: None,
            data: vec![47],
            select: vec![],
            commoned: vec![],
        };
        (address, select)
    }

    /// A GPIO's row.
    fn row(page: &Page, gpio: usize) -> String {
        let text = String::from_utf8(page.text()).expect("letters");
        text[9 * gpio..][..9].to_string()
    }

    #[test]
    fn a_row_has_nine_bytes() {
        let (mut address, select) = layouts();
        address.lines = (0..24).collect();
        let page = page(&address, &select, LENGTH).expect("a page");
        assert_eq!(page.text().len(), LENGTH);
        assert_eq!(
            (row(&page, 9), row(&page, 23)),
            ("09 A9   \n".into(), "23 A23  \n".into())
        );
        assert_eq!(
            (row(&page, 24), row(&page, 47)),
            ("24 -    \n".into(), "47 D0   \n".into())
        );
    }

    #[test]
    fn roles_stand_in_their_order() {
        let (mut address, mut select) = layouts();
        address.lines = vec![5, 7, 7];
        (address.x1, address.x2) = (Some(7), Some(7));
        address.excess = vec![7];
        select.data = vec![5, 5, 7];
        select.select = (0..6).rev().map(|kind| (kind, 7)).collect();
        select.commoned = select.select.clone();
        let found = page(&address, &select, LENGTH).expect("a page");
        let all = "A1 A2 D2 X1 X2 CE OE CS1 CS2 CS3 CS4 HALF CE OE CS1 CS2 CS3 CS4";
        assert_eq!(found.0[7].join(" "), all);
        assert_eq!(
            (row(&found, 5), row(&found, 7)),
            ("05 A0   \n".into(), "07 A1   \n".into())
        );
        assert_eq!(found.shared(), 2);
    }

    #[test]
    fn x_pins_and_half_selects_count_in_every_list() {
        let (address, mut select) = layouts();
        select.select = vec![(ROLE_X2, 1), (ROLE_HALF, 2)];
        select.commoned = vec![(0, 3), (ROLE_HALF, 3), (ROLE_X1, 4), (ROLE_X1, 1), (5, 5)];
        let found = page(&address, &select, LENGTH).expect("a page");
        let shown: Vec<String> = (1..6)
            .map(|gpio| row(&found, gpio)[3..7].to_string())
            .collect();
        assert_eq!(shown, ["X1  ", "HALF", "HALF", "X1  ", "CS4 "]);
        assert_eq!(found.shared(), 2);
    }

    #[test]
    fn refusals_come_in_order() {
        let (mut address, select) = layouts();
        assert_eq!(page(&address, &select, LENGTH - 1), Err(SHORT_BUFFER));
        address.excess = vec![48];
        assert_eq!(page(&address, &select, LENGTH), Err(OUT_OF_DOMAIN));
        assert_eq!(page(&address, &select, 0), Err(OUT_OF_DOMAIN));
    }
}
