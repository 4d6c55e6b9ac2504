//! The layouts as a person wants to see them: for each a line that sums it up, and a table by GPIO.
//! Whatever layout is handed in is shown.

use std::collections::BTreeMap;
use std::fmt::Write;

use onerom::description::{Description, SetType, Setting, Settings};
use onerom::layout::addr::AddrLayout;
use onerom::layout::cs_data::{CsDataLayout, Role};

/// The roles of each GPIO; one GPIO can serve two lines where the wiring shares it.
#[derive(Default)]
struct Roles(BTreeMap<u8, Vec<String>>);

impl Roles {
    fn add(&mut self, gpio: u8, role: String) {
        self.0.entry(gpio).or_default().push(role);
    }

    /// A row for each GPIO: its roles, and the number that it has under the last heading.
    fn table(self, heading: &str, number: impl Fn(u8) -> Option<u8>) -> String {
        let roles: Vec<(u8, String)> = self
            .0
            .into_iter()
            .map(|(gpio, roles)| (gpio, roles.join("; ")))
            .collect();
        let width = roles.iter().map(|(_, role)| role.len()).max();
        let width = width.unwrap_or(0).max("role".len());
        let last = heading.len();
        let mut text = format!("GPIO  {:<width$}  {heading}\n", "role");
        for (gpio, role) in &roles {
            let number = number(*gpio).map_or("-".into(), |number| number.to_string());
            // A String takes any text, so there is nothing to fail.
            let _ = writeln!(text, "{gpio:>4}  {role:<width$}  {number:>last$}");
        }
        text
    }
}

/// The address layout as a table: a row for each GPIO that the address PIO reads, and for each
/// excess line outside of them, with the bit of the table's index that it is.
pub fn addr_table(layout: &AddrLayout) -> String {
    let mut roles = Roles::default();
    for (line, &gpio) in layout.lines.iter().enumerate() {
        roles.add(gpio, format!("A{line}"));
    }
    for (number, x) in (1..).zip([layout.x1, layout.x2]) {
        if let Some(gpio) = x {
            roles.add(gpio, format!("X{number}"));
        }
    }
    for (line, &gpio) in (layout.lines.len()..).zip(&layout.excess) {
        roles.add(gpio, format!("A{line}, excess line"));
    }
    for gpio in (0..layout.pins).filter_map(|pin| layout.base.checked_add(pin)) {
        let role = roles.0.entry(gpio);
        role.or_insert_with(|| vec!["no address line".into()]);
    }
    roles.table("table bit", |gpio| layout.table_bit(gpio))
}

/// The address layout in a line, and an empty line to go before its table: the package, which no
/// drawing names where the select search refuses, base, pins, and the table's size, with the
/// description's limit if that is passed.
pub fn addr_summary(slot: &Description, layout: &AddrLayout) -> String {
    let (package, base, pins) = (slot.package, layout.base, layout.pins);
    let mut text = format!("{package}, base GPIO {base}, {pins} pins, ");
    match layout.table_bytes(slot.word_bytes) {
        Some(bytes) => {
            let _ = write!(text, "table of {} bytes", bytes);
            if bytes > u64::from(slot.largest_table) {
                let _ = write!(text, ", past the limit of {}", slot.largest_table);
            }
        }
        None => text.push_str("table past all limits"),
    }
    text.push_str("\n\n");
    text
}

/// The select and data layout as a table: a row for each GPIO of a line, for the one that is ignored
/// among the selects, and for each qualifier, with its number from the base on. Select lines have
/// their polarity, and in a Multi set the chip that they select.
pub fn cs_data_table(slot: &Description, layout: &CsDataLayout) -> String {
    let mut roles = Roles::default();
    for (line, &gpio) in layout.data.iter().enumerate() {
        roles.add(gpio, format!("D{line}"));
    }
    for (number, line) in layout.select.iter().enumerate() {
        let chip = match line.role {
            _ if slot.set_type != SetType::Multi => "",
            Role::X1 => ", selects chip 1",
            Role::X2 => ", selects chip 2",
            _ if number == 0 => ", selects chip 0",
            _ => "",
        };
        let polarity = polarity(&slot.settings, line.role);
        roles.add(line.gpio, format!("{}{chip}{polarity}", line.role));
    }
    for line in &layout.commoned {
        let polarity = polarity(&slot.settings, line.role);
        roles.add(line.gpio, format!("{}, commoned{polarity}", line.role));
    }
    if let Some(gpio) = layout.ignored_gpio() {
        roles.add(gpio, "no select, ignored".into());
    }
    for gpio in layout.qualifier_gpios() {
        roles.add(gpio, "qualifier".into());
    }
    roles.table("base pin", |gpio| layout.base_pin(gpio))
}

fn polarity(settings: &Settings, role: Role) -> &'static str {
    match setting(settings, role) {
        Some(Setting::ActiveLow) => ", active low",
        Some(Setting::ActiveHigh) => ", active high",
        Some(Setting::Ignored) => ", set as ignored",
        None => "",
    }
}

/// What a control line is set to; nothing of a line that is none. A line whose setting is not given
/// counts as active low.
pub fn setting(settings: &Settings, role: Role) -> Option<Setting> {
    Some(match (*settings, role) {
        (_, Role::X1 | Role::X2 | Role::HalfSelect | Role::Unknown(_)) => return None,
        (Settings::ChipSelects { cs1, .. }, Role::Cs1) => cs1,
        (Settings::ChipSelects { others, .. }, Role::Cs2 | Role::Cs3 | Role::Cs4) => {
            let other = others[usize::from(role.number() - Role::Cs2.number())];
            other.unwrap_or(Setting::ActiveLow)
        }
        (Settings::Explicit { ce, .. }, Role::Ce) => ce,
        (Settings::Explicit { oe, .. }, Role::Oe) => oe,
        (Settings::Explicit { ce, oe }, Role::Cs1 | Role::Cs2) => {
            // cs1 reads ce, or oe if ce is ignored; cs2 reads the other.
            if (ce == Setting::Ignored) == (role == Role::Cs1) {
                oe
            } else {
                ce
            }
        }
        _ => Setting::ActiveLow,
    })
}

/// The select and data layout in a line, and an empty line to go before its table: where data and
/// selects begin, how many GPIOs they take, and what the select algorithm needs.
pub fn cs_data_summary(layout: &CsDataLayout) -> String {
    let (data, first_data) = (layout.data.len(), layout.base_data_pin);
    let (selects, first_select) = (layout.cs_pins, layout.base_cs_pin);
    let mut text = format!(
        "select and data: base GPIO {}, {data} data lines from base pin {first_data}, \
         {selects} select pins from base pin {first_select}",
        layout.base
    );
    if let Some(index) = layout.ignore_index {
        let _ = write!(text, ", ignore index {index}");
    }
    if let Some(qualifiers) = layout.qualifiers {
        let (pins, base_pin) = (qualifiers.pins, qualifiers.base_pin);
        let pattern = qualifiers.pattern;
        let _ = write!(
            text,
            ", {pins} qualifier pins from base pin {base_pin}, pattern {pattern:#010b}"
        );
    }
    text.push_str("\n\n");
    text
}
