//! The library and the original on the same inputs, by the clock.

mod boards;
pub mod hex;
mod report;
mod tables;

use std::hint::black_box;
use std::path::Path;
use std::process::ExitCode;
use std::time::{Duration, Instant};

use onerom::description::LENGTH;
use onerom::layout::{addr, cs_data};
use onerom::{
    AddrLayout, ByteOrder, Call, CsDataLayout, Description, Refusal, StoredSlot, build_rom_image,
    build_rom_image_into, derive_addr_layout, derive_addr_layout_into, derive_cs_data_layout_into,
    images, table_length, unscramble_slot,
};
use oracle::SKIPPED;
use oracle::answer::fitted;
use oracle::engine::{Job, Told};
use oracle::slot::ChipBytes;

use crate::ending::{Done, Fault, say};
use crate::pairs::swapped;
use crate::progress::Progress;
use crate::{laid_out, plain};
use report::{MARKS, Page};

/// How often all inputs are gone through, and how often each is measured then. The best counts,
/// since other work only ever adds time, and it seldom lasts for all rounds.
const ROUNDS: usize = 7;
const REPEATS: usize = 4;

/// A repeat goes on for this long at least, so that the clock's grain does not matter.
const REPEAT: Duration = Duration::from_millis(20);

/// What a search's work goes by, and that on a table.
const SEARCHED: [&str; 2] = ["two-candidate pins", "choices"];
const TABLE: [&str; 2] = ["entries", "bytes"];

/// A slot, and the two numbers that the work on it goes by.
struct Input {
    name: &'static str,
    size: [u64; 2],
    slot: Description,
    /// That of the chips' bytes, where ours is given any. The original has low byte first alone.
    order: ByteOrder,
}

/// Both sides of a call on one input, ready to be run any number of times.
struct Pair {
    /// What both answer, in a word.
    answer: String,
    original: Box<dyn Fn()>,
    ours: Box<dyn Fn()>,
}

struct Times {
    original: Duration,
    ours: Duration,
}

impl Times {
    fn ratio(&self) -> f64 {
        self.original.as_secs_f64() / self.ours.as_secs_f64()
    }
}

/// An input under the clock, with the best times of each round.
struct Row {
    input: Input,
    pair: Pair,
    rounds: Vec<Times>,
}

/// The inputs of one call.
struct Table {
    call: &'static str,
    size: [&'static str; 2],
    rows: Vec<Row>,
}

/// Measures every call on every input, prints the tables and, if a file is named, puts them into
/// it between the lines that say where they go.
pub fn speed(file: Option<&Path>) -> Done {
    let page = file.map(|file| Page::read(file, MARKS)).transpose()?;
    if cfg!(debug_assertions) {
        let why = "onerom-bench speed measures release builds: cargo run --release -- speed";
        return Err(Fault::Different(why.into()));
    }
    if oracle::original().is_none() {
        say(&format!("{SKIPPED}\n"))?;
        return Ok(ExitCode::SUCCESS);
    }
    let mut tables = tables()?;
    measure(&mut tables);
    let told = report::tables(&tables);
    say(&told)?;
    if let Some(page) = page {
        page.put(&told)?;
    }
    Ok(ExitCode::SUCCESS)
}

fn measure(tables: &mut [Table]) {
    let mut rows: Vec<&mut Row> = tables
        .iter_mut()
        .flat_map(|table| &mut table.rows)
        .collect();
    let steps = 1..=(ROUNDS * rows.len()) as u64;
    let mut progress = Progress::new("measured", *steps.end());
    for (place, step) in (0..rows.len()).cycle().zip(steps) {
        let row = &mut rows[place];
        row.rounds.push(measured(&row.pair));
        progress.step(step);
    }
}

fn tables() -> Result<Vec<Table>, Fault> {
    let (address, select) = (boards::of_address_search(), boards::of_select_search());
    Ok(vec![
        table("address search", SEARCHED, address, address_pair)?,
        table("select search", SEARCHED, select, select_pair)?,
        table("build", TABLE, tables::of_build(), build_pair)?,
        table("read-back", TABLE, tables::of_read_back(), read_back_pair)?,
    ])
}

fn table(
    call: &'static str,
    size: [&'static str; 2],
    inputs: Vec<Input>,
    pair: fn(&Input) -> Option<Pair>,
) -> Result<Table, Fault> {
    let row = |input: Input| -> Result<Row, Fault> {
        let differ = || Fault::Different(format!("{}: the answers differ", input.name));
        let pair = pair(&input).ok_or_else(differ)?;
        let rounds = Vec::new();
        Ok(Row {
            input,
            pair,
            rounds,
        })
    };
    let rows = inputs.into_iter().map(row).collect::<Result<_, _>>()?;
    Ok(Table { call, size, rows })
}

/// The address search on a record, and its answer's record read.
fn address_search(record: &[u8]) -> Result<AddrLayout, Refusal> {
    let mut layout = [0; addr::LENGTH];
    match Refusal::of(Call::Address, derive_addr_layout_into(record, &mut layout)) {
        None => Ok(AddrLayout::read(&layout)),
        Some(refusal) => Err(refusal),
    }
}

/// The same of the select search.
fn select_search(record: &[u8], addr_layout: &[u8]) -> Result<CsDataLayout, Refusal> {
    let mut layout = [0; cs_data::LENGTH];
    let result = derive_cs_data_layout_into(record, addr_layout, &mut layout);
    match Refusal::of(Call::Select, result) {
        None => Ok(CsDataLayout::read(&layout)),
        Some(refusal) => Err(refusal),
    }
}

/// The same of the build, with a table as long as it needs.
fn build(
    record: &[u8],
    addr_layout: &[u8],
    cs_data_layout: &[u8],
    images: &[Option<&[u8]>],
    order: ByteOrder,
) -> Result<Vec<u8>, Refusal> {
    let (spans, bytes) = images::joined(images);
    let mut table = vec![0; table_length(record, addr_layout)];
    let result = build_rom_image_into(
        record,
        addr_layout,
        cs_data_layout,
        &spans,
        &bytes,
        order.number(),
        &mut table,
    );
    match Refusal::of(Call::Build, result) {
        None => Ok(table),
        Some(refusal) => Err(refusal),
    }
}

/// The original with its records made; ours decodes its record in every call.
fn address_pair(Input { slot, .. }: &Input) -> Option<Pair> {
    let record = slot.to_bytes();
    let original = oracle::prepared_address_search(&described(&record)?)?;
    let ours = move || address_search(black_box(&record));
    agreeing("layout", original, ours, plain::address)
}

/// The same of the select search, which is given the found address layout.
fn select_pair(Input { slot, .. }: &Input) -> Option<Pair> {
    let record = slot.to_bytes();
    let layout = derive_addr_layout(slot).ok()?;
    let handed_in = layout.to_bytes();
    let layout = plain::address(layout);
    let original = oracle::prepared_select_search(&described(&record)?, Some(&layout))?;
    let ours = move || select_search(black_box(&record), black_box(&handed_in));
    agreeing("layout", original, ours, plain::select)
}

/// The same of the build, which is given both found layouts and bytes for each chip. High byte first
/// ours is given the same words, so that the tables are the same.
fn build_pair(
    &Input {
        ref slot, order, ..
    }: &Input,
) -> Option<Pair> {
    let record = slot.to_bytes();
    let (addr, cs_data) = laid_out(slot).ok()?;
    let (addr_record, cs_data_record) = (addr.to_bytes(), cs_data.to_bytes());
    let images = chip_bytes(slot);
    let job = Job {
        address: &plain::address(addr),
        select: &plain::select(cs_data),
        images: &images,
        table_length: usize::MAX,
    };
    let original = oracle::prepared_build(&described(&record)?, &job)?;
    let images = images.map(|image| image.bytes());
    let images = match order {
        ByteOrder::LowFirst => images,
        ByteOrder::HighFirst => images.map(swapped),
    };
    let ours = move || {
        let images = images.each_ref().map(|image| Some(&image[..]));
        build(
            black_box(&record),
            black_box(&addr_record),
            black_box(&cs_data_record),
            black_box(&images),
            black_box(order),
        )
    };
    agreeing("table", original, ours, |table| table)
}

/// The same of the read-back, which is given that table and the slot of those layouts.
fn read_back_pair(
    &Input {
        ref slot, order, ..
    }: &Input,
) -> Option<Pair> {
    let record = slot.to_bytes();
    let (addr, cs_data) = laid_out(slot).ok()?;
    let stored = StoredSlot::of_layouts(slot, &addr, &cs_data);
    let images = chip_bytes(slot).map(|image| image.bytes());
    let images = images.each_ref().map(|image| Some(&image[..]));
    let table = build_rom_image(slot, &addr, &cs_data, &images, ByteOrder::LowFirst).ok()?;
    let (address, select) = (plain::address(addr), plain::select(cs_data));
    let theirs = fitted(&described(&record)?, &address, &select, table.len());
    let original = oracle::prepared_read_back(&theirs, &table)?;
    let ours = move || unscramble_slot(black_box(&stored), black_box(&table), black_box(order));
    let low_first: fn(Vec<Vec<u8>>) -> Vec<Vec<u8>> = match order {
        ByteOrder::LowFirst => |roms| roms,
        ByteOrder::HighFirst => |roms| roms.into_iter().map(swapped).collect(),
    };
    agreeing("ROMs", original, ours, low_first)
}

/// As many bytes as each chip has, each chip's own.
fn chip_bytes(slot: &Description) -> [ChipBytes; 4] {
    std::array::from_fn(|chip| ChipBytes {
        present: true,
        length: slot.chips.get(chip).map_or(0, |chip| chip.size),
        seed: chip as u32 * 0x0123_4567,
    })
}

/// None if the answers differ.
fn agreeing<T: PartialEq + 'static, U: 'static>(
    found: &str,
    original: impl Fn() -> Told<T> + 'static,
    ours: impl Fn() -> Result<U, Refusal> + 'static,
    to_plain: fn(U) -> T,
) -> Option<Pair> {
    let told = ours();
    let answer = match &told {
        Ok(_) => found.into(),
        Err(refusal) => format!("refusal {}", refusal.number),
    };
    let same = original() == told.map(to_plain).map_err(plain::failure);
    same.then(|| Pair {
        answer,
        original: Box::new(move || drop(black_box(original()))),
        ours: Box::new(move || drop(black_box(ours()))),
    })
}

fn described(record: &[u8; LENGTH]) -> Option<oracle::description::Description> {
    oracle::description::Description::read(record)
}

/// The two take turns, so that both see the machine in the same state.
fn measured(pair: &Pair) -> Times {
    let (theirs, ours) = (&pair.original, &pair.ours);
    let calls = (calls_of_a_repeat(theirs), calls_of_a_repeat(ours));
    let mut best = Times {
        original: Duration::MAX,
        ours: Duration::MAX,
    };
    for _ in 0..REPEATS {
        best.original = best.original.min(time_of_a_call(theirs, calls.0));
        best.ours = best.ours.min(time_of_a_call(ours, calls.1));
    }
    best
}

/// How many calls fill a repeat.
fn calls_of_a_repeat(call: &dyn Fn()) -> u32 {
    let mut calls = 1;
    while time(call, calls) < REPEAT {
        calls *= 2;
    }
    calls
}

fn time(call: &dyn Fn(), calls: u32) -> Duration {
    let start = Instant::now();
    for _ in 0..calls {
        call();
    }
    start.elapsed()
}

fn time_of_a_call(call: &dyn Fn(), calls: u32) -> Duration {
    time(call, calls) / calls
}
