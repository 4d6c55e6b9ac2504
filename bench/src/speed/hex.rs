//! Intel HEX by the clock: the program beside others that read and write it, and the calls alone.

use std::cell::RefCell;
use std::fs::{self, File};
use std::hint::black_box;
use std::io;
use std::path::{Path, PathBuf};
use std::process::{self, Command, ExitCode, Stdio};
use std::time::{Duration, Instant};

use onerom::{hex_text, read_hex, write_hex};
use oracle::random::Random;

use super::report::{HEX_MARKS, Page, shown};
use super::{ROUNDS, calls_of_a_repeat, time_of_a_call};
use crate::ending::{Done, Fault, say};
use crate::progress::Progress;

/// The chip under the clock: 1 MiB.
const BYTES: usize = 1 << 20;

/// Who reads and writes, ours last.
const PROGRAMS: [&str; 3] = ["objcopy", "srec_cat", "onerom-bench"];

/// What is done with a file.
#[derive(Clone, Copy)]
enum Way {
    Writing,
    Reading,
}

/// A line of the table: how long each took at best; none of a program that is not there.
struct Row {
    what: &'static str,
    times: [Option<Duration>; 3],
}

/// Measures reading and writing of 1 MiB, prints the table and, if a file is named, puts it between
/// the lines that say where it goes.
pub fn speed_hex(file: Option<&Path>) -> Done {
    let page = file.map(|file| Page::read(file, HEX_MARKS)).transpose()?;
    if cfg!(debug_assertions) {
        let why =
            "onerom-bench speed-hex measures release builds: cargo run --release -- speed-hex";
        return Err(Fault::Different(why.into()));
    }
    let folder = Folder::new().map_err(unusable)?;
    let told = table(&measured(&folder)?);
    say(&told)?;
    if let Some(page) = page {
        page.put(&told)?;
    }
    Ok(ExitCode::SUCCESS)
}

fn unusable(why: io::Error) -> Fault {
    Fault::File(format!("a folder for the measured files: {why}"))
}

fn measured(folder: &Folder) -> Result<Vec<Row>, Fault> {
    let mut random = Random::of_case(1, 0);
    let chip: Vec<u8> = (0..BYTES).map(|_| random.byte()).collect();
    let text = hex_text(&chip)?;
    let given = [(BIN, &chip), (TEXT, &text)];
    for (name, bytes) in given {
        fs::write(folder.file(name), bytes).map_err(unusable)?;
    }
    let mut rows = vec![
        programs(folder, "writing, a program's run", Way::Writing, &chip)?,
        programs(folder, "reading, a program's run", Way::Reading, &chip)?,
    ];
    let made = RefCell::new(vec![0; text.len()]);
    let write = || {
        let _ = black_box(write_hex(black_box(&chip), &mut made.borrow_mut()));
    };
    let back = RefCell::new(vec![0; BYTES]);
    let read = || {
        let _ = black_box(read_hex(black_box(&text), &mut back.borrow_mut()));
    };
    rows.push(alone("writing, the call alone", &write));
    rows.push(alone("reading, the call alone", &read));
    Ok(rows)
}

/// The programs take turns, so that all see the machine in the same state.
fn programs(folder: &Folder, what: &'static str, way: Way, chip: &[u8]) -> Result<Row, Fault> {
    let mut times = [None; 3];
    let mut progress = Progress::new(what, ROUNDS as u64);
    for round in 0..ROUNDS {
        for (program, best) in PROGRAMS.iter().zip(&mut times) {
            let Some(time) = run(folder, program, way)? else {
                continue;
            };
            *best = Some(best.map_or(time, |best: Duration| best.min(time)));
            if round == 0 {
                expect_same(folder, program, way, chip)?;
            }
        }
        progress.step(round as u64 + 1);
    }
    Ok(Row { what, times })
}

/// How long a program took; none where it is not there.
fn run(folder: &Folder, program: &str, way: Way) -> Result<Option<Duration>, Fault> {
    let start = Instant::now();
    let told = match command(folder, program, way).map_err(unusable)?.status() {
        Err(why) if why.kind() == io::ErrorKind::NotFound => return Ok(None),
        told => told.map_err(|why| Fault::File(format!("{program}: {why}")))?,
    };
    let time = start.elapsed();
    if !told.success() {
        return Err(Fault::Different(format!("{program}: {told}")));
    }
    Ok(Some(time))
}

/// Ours writes to its standard output, which is a file here: to a file that it is told by name it
/// would go on until the disk has it, and the others do not.
fn command(folder: &Folder, program: &str, way: Way) -> io::Result<Command> {
    let is_ours = program == PROGRAMS[2];
    let mut command = Command::new(if is_ours {
        std::env::current_exe()?
    } else {
        program.into()
    });
    command.args(words(program, way)).current_dir(&folder.0);
    command.stdout(if is_ours {
        File::create(folder.file(MADE))?.into()
    } else {
        Stdio::null()
    });
    Ok(command)
}

/// The files: a chip's bytes, their text, and what a program makes of one of them.
const BIN: &str = "chip.bin";
const TEXT: &str = "chip.hex";
const MADE: &str = "made";

fn words(program: &str, way: Way) -> &'static [&'static str] {
    match (program, way) {
        ("objcopy", Way::Writing) => &["-I", "binary", "-O", "ihex", BIN, MADE],
        ("objcopy", Way::Reading) => &["-I", "ihex", "-O", "binary", TEXT, MADE],
        ("srec_cat", Way::Writing) => &[BIN, "-Binary", "-o", MADE, "-Intel"],
        ("srec_cat", Way::Reading) => &[TEXT, "-Intel", "-o", MADE, "-Binary"],
        (_, Way::Writing) => &["to-hex", BIN, "-"],
        (_, Way::Reading) => &["from-hex", TEXT, "0x100000", "-"],
    }
}

/// What a program made says the chip's bytes: a text may be of another form, but reads as them.
fn expect_same(folder: &Folder, program: &str, way: Way, chip: &[u8]) -> Result<(), Fault> {
    let made = fs::read(folder.file(MADE)).map_err(unusable)?;
    // objcopy's text has segments from 64 KiB on, which are refused.
    if matches!((program, way), ("objcopy", Way::Writing)) {
        return Ok(());
    }
    let mut back = vec![0; chip.len()];
    let is_same = match way {
        Way::Writing => read_hex(&made, &mut back).is_ok() && back == chip,
        Way::Reading => made == chip,
    };
    let differs = || Fault::Different(format!("{program}: what it made is not the chip"));
    is_same.then_some(()).ok_or_else(differs)
}

fn alone(what: &'static str, call: &dyn Fn()) -> Row {
    let calls = calls_of_a_repeat(call);
    let times = (0..ROUNDS).map(|_| time_of_a_call(call, calls));
    Row {
        what,
        times: [None, None, times.min()],
    }
}

fn table(rows: &[Row]) -> String {
    let [one, other, ours] = PROGRAMS;
    let head = format!("| Intel HEX of 1 MiB | {one} | {other} | {ours} |\n|---|---|---|---|\n");
    let time = |time: &Option<Duration>| time.map_or("-".into(), shown);
    let row = |row: &Row| {
        let [one, other, ours] = row.times.each_ref().map(time);
        format!("| {} | {one} | {other} | {ours} |\n", row.what)
    };
    head + &rows.iter().map(row).collect::<String>()
}

/// A folder of its own, which is gone when this is dropped.
struct Folder(PathBuf);

impl Folder {
    fn new() -> io::Result<Self> {
        let name = format!("onerom-bench-speed-{}", process::id());
        let folder = std::env::temp_dir().join(name);
        fs::create_dir(&folder)?;
        Ok(Self(folder))
    }

    fn file(&self, name: &str) -> PathBuf {
        self.0.join(name)
    }
}

impl Drop for Folder {
    fn drop(&mut self) {
        // Nothing hangs on it.
        let _ = fs::remove_dir_all(&self.0);
    }
}
