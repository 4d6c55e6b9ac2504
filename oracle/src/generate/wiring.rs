//! Descriptions of slots: a chip in a socket, wired to GPIOs as boards are, and now and then not.

use super::leaves;
use crate::case::MultiSelect;
use crate::description::{
    BANKED, Chip, Description, IGNORED, MULTI, Multi, NO_PIN, NONE, Package, Pin, SINGLE, Settings,
};
use crate::model::{domain, multi};
use crate::random::Random;

const TABLES: [u32; 12] = [
    256, 257, 511, 512, 1000, 1024, 2048, 4095, 4096, 8192, 16384, 65536,
];

pub fn description(random: &mut Random) -> Description {
    let mut slot = unwired(random);
    let tokens = order(random, &slot);
    wire(random, &mut slot, &tokens);
    second_candidates(random, &mut slot, &tokens);
    faults(random, &mut slot);
    within_choices(random, &mut slot);
    if slot.package == Package::A && random.chance(12) {
        past_package(random, &mut slot);
    }
    slot
}

/// How many GPIOs the description's package has.
fn gpio_count(slot: &Description) -> usize {
    usize::from(domain::last_gpio(slot.package)) + 1
}

/// Any GPIO of the package.
fn gpio(random: &mut Random, slot: &Description) -> u8 {
    random.below(gpio_count(slot)) as u8
}

/// A GPIO at an edge of a window or of the package.
fn edge(random: &mut Random, slot: &Description) -> u8 {
    match slot.package {
        Package::A => random.pick(&[0, 15, 16, 27, 28, 29]),
        Package::B => random.pick(&[0, 15, 16, 31, 32, 45, 46, 47]),
    }
}

fn set_and_chips(random: &mut Random) -> (u8, usize) {
    let set_type = random.pick(&[SINGLE, SINGLE, SINGLE, BANKED, BANKED, MULTI, MULTI]);
    let right = random.chance(93);
    let chips = match (set_type, right) {
        (SINGLE, true) => 1,
        (SINGLE, false) => random.between(2, 4),
        (BANKED, true) => random.between(2, 4),
        (BANKED, false) => 1,
        (_, true) => random.between(2, 3),
        (_, false) => random.pick(&[1, 4]),
    };
    (set_type, chips)
}

fn largest_table(random: &mut Random) -> u32 {
    match random.below(20) {
        0 => 1 << 20,
        1 => 1 << 19,
        2 => random.between(256, 1 << 20) as u32,
        3..=5 => random.between(256, 4096) as u32,
        _ => random.pick(&TABLES),
    }
}

/// A description with all its numbers but the GPIOs.
fn unwired(random: &mut Random) -> Description {
    let (set_type, chips) = set_and_chips(random);
    let word_bytes = if random.chance(65) { 1 } else { 2 };
    let largest_table = largest_table(random);
    let chip = chip(random, word_bytes);
    let total = chip.address_pins.len() + chip.data_pins.len() + chip.control.len();
    let kinds: Vec<u8> = chip.control.iter().map(|line| line.0).collect();
    let settings = fitting_settings(random, &kinds);
    let has_multi = set_type == MULTI || random.chance(8);
    let multi = has_multi.then(|| multi_config(random, &kinds, &settings));
    let board_pins = match total {
        0..=24 => random.pick(&[24, 28, 32, 40]),
        25..=32 => random.pick(&[28, 32, 40, 40]),
        _ => 40,
    };
    let mut slot = Description {
        board_pins,
        package: random.pick(&[Package::A, Package::B]),
        set_type,
        word_bytes,
        offset: offset(random),
        largest_table,
        settings,
        multi,
        qualifiers: qualifiers(
            random,
            chip.address_pins.len() + 1 - usize::from(word_bytes),
        ),
        socket: [NO_PIN; 40],
        x: [NO_PIN; 2],
        chips: vec![chip; chips],
    };
    seat(random, &mut slot);
    if random.chance(30) {
        later_chips(random, &mut slot);
    }
    sizes(random, &mut slot);
    slot
}

/// Gives the later chips lines of their own: both searches go by chip 0's.
fn later_chips(random: &mut Random, slot: &mut Description) {
    for n in 1..slot.chips.len() {
        let mut own = chip(random, slot.word_bytes);
        own.address_pins.fill_with(|| random.between(1, 40) as u8);
        own.data_pins.fill_with(|| random.between(1, 40) as u8);
        for line in &mut own.control {
            line.1 = random.between(1, 40) as u8;
        }
        slot.chips[n] = own;
    }
}

fn offset(random: &mut Random) -> i16 {
    match random.below(10) {
        0..=5 => 0,
        6..=7 => random.pick(&[2, 4, -2, -4]),
        _ => random.between(0, 8) as i16 - 4,
    }
}

/// A chip by its counts; pins and size come later.
fn chip(random: &mut Random, word_bytes: u8) -> Chip {
    let lines = match random.below(100) {
        0..=49 => random.between(2, 8),
        50..=79 => random.between(7, 11),
        80..=92 => random.between(12, 19),
        _ => random.between(1, 23),
    };
    let data = if random.chance(90) {
        8 * usize::from(word_bytes)
    } else {
        random.between(1, 16)
    };
    let kinds = leaves::kinds(random);
    Chip {
        size: 0,
        address_pins: vec![1; lines + usize::from(word_bytes) - 1],
        data_pins: vec![1; data],
        control: kinds.iter().map(|&kind| (kind, 1)).collect(),
    }
}

fn fitting_settings(random: &mut Random, kinds: &[u8]) -> Settings {
    let by_enable = kinds.iter().any(|&kind| kind < 2);
    let form = match (random.chance(85), by_enable) {
        (true, true) => random.pick(&[1, 1, 2]),
        (true, false) => 0,
        (false, _) => random.below(3) as u8,
    };
    let mut settings = leaves::settings(random, form);
    if form == 0 && settings.lines[2] == IGNORED && random.chance(60) {
        settings.lines[2] = 0;
    }
    settings
}

fn multi_config(random: &mut Random, kinds: &[u8], primary: &Settings) -> Multi {
    let form = primary.form;
    let case = MultiSelect {
        kinds: kinds.to_vec(),
        primary: *primary,
        secondary: leaves::settings(random, form),
    };
    if let (true, Ok(found)) = (random.chance(60), multi::select(&case)) {
        return found;
    }
    let mut named: Vec<u8> = kinds.iter().copied().filter(|&kind| kind < 6).collect();
    random.shuffle(&mut named);
    let select = named.pop().unwrap_or(random.below(6) as u8);
    let split = random.below(named.len() + 1);
    let ignored = named.split_off(split);
    let stray = |random: &mut Random, mut list: Vec<u8>| {
        if random.chance(4) {
            list.push(random.below(6) as u8);
        }
        list.truncate(6);
        list
    };
    Multi {
        select,
        commoned: stray(random, named),
        ignored: stray(random, ignored),
    }
}

fn qualifiers(random: &mut Random, lines: usize) -> Vec<u8> {
    if !random.chance(18) {
        return Vec::new();
    }
    let count = random.between(1, lines.min(8));
    let start = random.below(lines - count + 1);
    let mut list: Vec<u8> = (start..start + count).map(|line| line as u8).collect();
    random.shuffle(&mut list);
    list.truncate(random.between(1, count));
    if list.len() < 8 && random.chance(10) {
        list.push(list[0]);
    }
    list
}

/// Gives each line of chip 0 a pin: on the socket while there are pins, and now and then off it.
fn seat(random: &mut Random, slot: &mut Description) {
    let on = |pin: &u8| slot.socket_pin(*pin).is_some();
    let (mut free, mut off): (Vec<u8>, Vec<u8>) = (1..=40u8).partition(on);
    random.shuffle(&mut free);
    random.shuffle(&mut off);
    let shares_a_minus_1 = slot.word_bytes == 2 && random.chance(60);
    let over = if random.chance(20) {
        random.between(1, 3)
    } else {
        0
    };
    let stray = random.chance(3);
    let chip = &mut slot.chips[0];
    let mut take = |random: &mut Random| free.pop().unwrap_or(random.between(1, 40) as u8);
    chip.address_pins.fill_with(|| take(random));
    chip.data_pins.fill_with(|| take(random));
    for line in &mut chip.control {
        line.1 = take(random);
    }
    if shares_a_minus_1 {
        chip.address_pins[0] = chip.data_pins[chip.data_pins.len() - 1];
    }
    for _ in 0..over.min(off.len()) {
        let line = random.below(chip.address_pins.len());
        chip.address_pins[line] = off.pop().expect("as many as there are");
    }
    if let (true, Some(pin)) = (stray, off.pop()) {
        let line = random.below(chip.data_pins.len());
        chip.data_pins[line] = pin;
    }
    if random.chance(5) {
        let line = random.below(chip.address_pins.len());
        chip.address_pins[line] = random.pick(&chip.data_pins);
    }
    let first = chip.clone();
    slot.chips.fill(first);
}

/// Sizes: all that the lines reach, less, more, odd, no power of two, nothing.
fn sizes(random: &mut Random, slot: &mut Description) {
    let word = u32::from(slot.word_bytes);
    let lines = slot.chip0().address_pins.len() + 1 - slot.word_bytes as usize;
    let reach = (slot.largest_table / word).ilog2() as usize;
    let full = word << lines.min(reach);
    for chip in &mut slot.chips {
        let some = random.below(full as usize + 1) as u32;
        let size = match random.below(20) {
            0 => 0,
            1 => 1,
            2 => some | 1,
            3 => full / 4 * 3,
            4 => some,
            5 => full / 2,
            6 => full * 2,
            7 => full + 1 + some,
            8 => 1 << random.below(12),
            9 => 1 << lines.min(16),
            _ => full,
        };
        chip.size = size.min(1 << 17);
    }
    if random.chance(1) && random.chance(20) {
        slot.chips[0].size = 1 << 24;
    }
}

/// A thing to be wired, in the order of its GPIO.
#[derive(Debug, Clone, Copy, PartialEq, Eq)]
enum Token {
    Pin(u8),
    X(usize),
    Gap,
}

fn pins_of(slot: &Description, kinds: &[u8]) -> Vec<Token> {
    let lines = slot.chip0().control.iter();
    lines
        .filter(|line| kinds.contains(&line.0))
        .map(|line| Token::Pin(line.1))
        .collect()
}

fn mix(random: &mut Random, tokens: &mut [Token]) {
    match random.below(4) {
        0 => tokens.reverse(),
        1 => {}
        _ => random.shuffle(tokens),
    }
}

/// The select lines side by side, or with a gap, or with an ignored line among them.
fn select_block(random: &mut Random, slot: &Description, excess: &[Token]) -> Vec<Token> {
    let mut block = select_pins(slot);
    if let Some(multi) = slot.multi.as_ref().filter(|_| slot.set_type == MULTI) {
        if random.chance(35) {
            block.extend(pins_of(slot, &multi.ignored));
        }
        let x_pins = slot.chips.len().max(2) - 1;
        block.extend([Token::X(1), Token::X(2)].iter().take(x_pins));
    }
    block.extend(excess);
    mix(random, &mut block);
    let gaps = random.pick(&[0, 0, 0, 0, 0, 1, 1, 2, 3]);
    for _ in 0..gaps {
        let place = random.between(0, block.len());
        block.insert(place, Token::Gap);
    }
    block
}

/// All pins in the order of their GPIOs: data, selects and address lines, each in one block.
fn order(random: &mut Random, slot: &Description) -> Vec<Token> {
    let chip = slot.chip0();
    let lines = &chip.address_pins[usize::from(slot.word_bytes) - 1..];
    let reach = (slot.largest_table / u32::from(slot.word_bytes)).ilog2() as usize;
    let (used, excess) = lines.split_at(lines.len().min(reach));
    let tokens = |pins: &[u8]| -> Vec<Token> { pins.iter().map(|&pin| Token::Pin(pin)).collect() };
    let select = select_block(random, slot, &tokens(excess));
    let mut address = tokens(used);
    if slot.set_type == BANKED {
        address.extend([Token::X(1), Token::X(2)]);
    }
    mix(random, &mut address);
    if random.chance(20) {
        let place = random.between(0, address.len());
        address.insert(place, Token::Gap);
    }
    if slot.set_type == SINGLE {
        // Ahead of the address lines they leave these the last GPIOs, where a span is padded.
        let place = random.pick(&[0, address.len(), address.len()]);
        address.splice(place..place, [Token::X(1), Token::X(2)]);
    }
    let mut data = tokens(&chip.data_pins);
    mix(random, &mut data);
    match random.below(6) {
        0 | 1 => [address, select, data].concat(),
        2 => [select, data, address].concat(),
        _ => [data, select, address].concat(),
    }
}

fn place_of(slot: &mut Description, token: Token) -> Option<&mut Pin> {
    match token {
        Token::Pin(pin) => {
            let socket_pin = slot.socket_pin(pin)?;
            Some(&mut slot.socket[usize::from(socket_pin) - 1])
        }
        Token::X(number) => Some(&mut slot.x[number - 1]),
        Token::Gap => None,
    }
}

fn wire(random: &mut Random, slot: &mut Description, tokens: &[Token]) {
    let count = gpio_count(slot);
    let last = count.saturating_sub(tokens.len());
    let start = match random.below(6) {
        0 => 0,
        1 => last,
        2 if slot.package == Package::A => last,
        2 => last.min(16),
        _ => random.between(0, last),
    };
    let mut gpio = start;
    for &token in tokens {
        let next = (gpio % count) as u8;
        match place_of(slot, token) {
            Some(pin) if *pin == NO_PIN => *pin = [next, NONE],
            Some(_) => continue,
            // A line off the socket leaves its GPIO to the next.
            None if token != Token::Gap => continue,
            None => {}
        }
        gpio += 1;
    }
    for pin in &mut slot.socket {
        if *pin == NO_PIN && random.chance(40) {
            *pin = [random.below(count) as u8, NONE];
        }
    }
}

/// Gives some pins a second candidate: X pins and select lines more often than others.
fn second_candidates(random: &mut Random, slot: &mut Description, tokens: &[Token]) {
    let count = match random.below(200) {
        0..=69 => 0,
        70..=159 => random.between(1, 4),
        160..=195 => random.between(5, 10),
        _ => random.between(11, 20),
    };
    let mut chosen = tokens.to_vec();
    random.shuffle(&mut chosen);
    if random.chance(40) {
        let mut selects = select_pins(slot);
        let ignored = slot.multi.as_ref().map(|multi| &multi.ignored[..]);
        selects.extend(pins_of(slot, ignored.unwrap_or_default()));
        random.shuffle(&mut selects);
        chosen.splice(..0, selects);
    }
    if random.chance(40) {
        chosen.splice(..0, [Token::X(1), Token::X(2)]);
    }
    for &token in chosen.iter().take(count) {
        add_second(random, slot, token);
    }
    if random.below(150) == 0 {
        crowd(random, slot);
    }
}

/// The pins of the lines that select, Multi's commoned ones included.
fn select_pins(slot: &Description) -> Vec<Token> {
    match slot.multi.as_ref().filter(|_| slot.set_type == MULTI) {
        Some(multi) => {
            let mut kinds = multi.commoned.clone();
            kinds.push(multi.select);
            pins_of(slot, &kinds)
        }
        None => {
            let active = crate::model::select::active_lines(slot);
            active.iter().map(|line| Token::Pin(line.1)).collect()
        }
    }
}

/// Second candidates for all address lines or all data lines, up to the most that is allowed.
fn crowd(random: &mut Random, slot: &mut Description) {
    let chip = slot.chip0();
    let pins = if random.chance(50) {
        &chip.address_pins
    } else {
        &chip.data_pins
    };
    for pin in pins.clone() {
        add_second(random, slot, Token::Pin(pin));
    }
}

fn add_second(random: &mut Random, slot: &mut Description, token: Token) {
    let near = random.between(0, 6) as i16 - 3;
    let other = match random.chance(40) {
        true => gpio(random, slot),
        false => edge(random, slot),
    };
    let is_near = random.chance(40);
    let swap = random.chance(50);
    let last = i16::from(domain::last_gpio(slot.package));
    if let Some(pin) = place_of(slot, token).filter(|pin| pin[0] != NONE) {
        let beside = (i16::from(pin[0]) + near).clamp(0, last) as u8;
        let second = if is_near { beside } else { other };
        if second != pin[0] {
            *pin = if swap {
                [second, pin[0]]
            } else {
                [pin[0], second]
            };
        }
    }
}

fn faults(random: &mut Random, slot: &mut Description) {
    if random.chance(5) {
        let pin = random.below(usize::from(slot.board_pins));
        slot.socket[pin] = NO_PIN;
    }
    if random.chance(6) {
        slot.x[random.below(2)] = NO_PIN;
    }
    if random.chance(8) {
        let pin = random.below(usize::from(slot.board_pins));
        slot.socket[pin] = [edge(random, slot), NONE];
    }
}

/// The candidates of a pin: of the 40 of a socket, then X1 and X2.
fn nth_pin(slot: &mut Description, number: usize) -> &mut Pin {
    match number {
        0..40 => &mut slot.socket[number],
        _ => &mut slot.x[number - 40],
    }
}

/// Puts candidates past the package's GPIOs: one mostly, at any pin of the 42, used or not, first or
/// second. Such a description is in no call's domain.
fn past_package(random: &mut Random, slot: &mut Description) {
    let next = domain::last_gpio(slot.package) + 1;
    for _ in 0..random.pick(&[1, 1, 1, 1, 2, 3, 8]) {
        let any = random.between(next.into(), 47) as u8;
        let past = random.pick(&[next, next, 31, 32, 47, any]);
        let number = match random.chance(15) {
            true => random.between(40, 41),
            false => random.below(40),
        };
        let second = random.chance(50);
        let pin = nth_pin(slot, number);
        match pin {
            [NONE, _] => *pin = [past, NONE],
            [first, other] if second && *first != past => *other = past,
            [first, other] if *other != past => *first = past,
            _ => {}
        }
    }
}

/// Takes second candidates away until no search lists more than 16.
fn within_choices(random: &mut Random, slot: &mut Description) {
    while !(domain::address_search(slot) && domain::select_search(slot)) {
        nth_pin(slot, random.below(42))[1] = NONE;
    }
}

#[cfg(test)]
mod tests {
    use super::*;

    /// How many of 4000 descriptions pass a test.
    fn count(passes: impl Fn(&Description) -> bool) -> usize {
        let made = (0..4000).map(|number| description(&mut Random::of_case(3, number)));
        made.filter(passes).count()
    }

    fn above(pin: &Pin) -> bool {
        pin.iter().any(|&gpio| gpio != NONE && gpio > 29)
    }

    #[test]
    fn half_is_of_each_package() {
        let a = count(|slot| slot.package == Package::A);
        assert!((1800..2200).contains(&a), "{a}");
    }

    #[test]
    fn candidates_past_the_package_stand_everywhere() {
        let pins = |slot: &Description| [&slot.socket[..], &slot.x].concat();
        let some = |passes: fn(&Description, usize, &Pin) -> bool| {
            let found = count(|slot| {
                let pins = pins(slot);
                let mut past = (0..).zip(&pins).filter(|(_, pin)| above(pin));
                slot.package == Package::A && past.any(|(place, pin)| passes(slot, place, pin))
            });
            assert!(found > 10, "{found}");
            found
        };
        let all = some(|_, _, _| true);
        assert!((150..350).contains(&all), "{all}");
        some(|_, _, pin| pin[0] > 29);
        some(|_, _, pin| pin[0] <= 29);
        some(|_, place, _| place >= 40);
        some(|slot, place, _| (usize::from(slot.board_pins)..40).contains(&place));
        let outside = count(|slot| slot.package == Package::A && !domain::description(slot));
        assert_eq!(outside, all);
        assert_eq!(
            count(|slot| slot.package == Package::B && !domain::description(slot)),
            0
        );
    }

    #[test]
    fn spans_are_padded_past_the_package() {
        let padded = |slot: &Description| {
            let found = crate::model::address::search(slot);
            slot.package == Package::A
                && domain::description(slot)
                && found.is_ok_and(|layout| layout.base + layout.pins > 30)
        };
        let found = count(padded);
        assert!(found > 50, "{found}");
    }
}
