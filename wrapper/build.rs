//! Has the proved static library built, or takes a ready archive of it, and links it.

use std::env;
use std::fs::{self, File};
use std::io::{BufRead, BufReader, ErrorKind, Read, Write};
use std::path::{Path, PathBuf};
use std::process::{Command, Stdio, exit};
use std::thread;

const LIBRARY: &str = "onerom";

/// The crate whose functions are the library's.
const EXPORTS: &str = "onerom_c";

fn main() {
    println!("cargo:rerun-if-changed=build.rs");
    for name in ["ONEROM_ARCHIVE", "ONEROM_ROOT"] {
        println!("cargo:rerun-if-env-changed={name}");
    }
    check_target();
    let archive = match env::var_os("ONEROM_ARCHIVE").filter(|place| !place.is_empty()) {
        Some(place) => ready(PathBuf::from(place)),
        None => built(&root()),
    };
    let out = PathBuf::from(wanted("OUT_DIR"));
    keep(&archive, &out);
    println!("cargo:rustc-link-search=native={}", out.display());
    println!("cargo:rustc-link-lib=static={LIBRARY}");
    // The tests link the example in C with it.
    println!("cargo:rustc-env=ONEROM_FOLDER={}", out.display());
}

/// Where crates.txt stands: the repository around this package, if nothing else is said.
fn root() -> PathBuf {
    match env::var_os("ONEROM_ROOT") {
        Some(place) => PathBuf::from(place),
        None => Path::new(&wanted("CARGO_MANIFEST_DIR")).join(".."),
    }
}

fn wanted(name: &str) -> String {
    env::var(name).unwrap_or_else(|_| stop(&format!("cargo does not set {name}")))
}

fn stop(why: &str) -> ! {
    eprintln!("onerom: {why}");
    exit(1);
}

fn check_target() {
    let system = [
        wanted("CARGO_CFG_TARGET_ARCH"),
        wanted("CARGO_CFG_TARGET_OS"),
    ];
    if system != ["x86_64", "linux"] {
        stop("the proved library is built for 64-bit Linux on x86-64 alone");
    }
}

/// An archive that was built before, from whatever sources.
fn ready(place: PathBuf) -> PathBuf {
    println!("cargo:rerun-if-changed={}", place.display());
    place
}

/// The folders that the library is made from. What `rt` makes stands beside them, in out/, and is none of them.
fn sources(root: &Path) -> Vec<PathBuf> {
    let crates = root.join("crates");
    let folders =
        fs::read_dir(&crates).unwrap_or_else(|why| stop(&format!("{}: {why}", crates.display())));
    let parts = ["src", "specs", "proofs"];
    folders
        .flatten()
        .flat_map(|one| parts.map(|part| one.path().join(part)))
        .filter(|folder| folder.is_dir())
        .collect()
}

/// The archive of the library, proved and built from the sources below `root`. `rt` proves what it
/// stands on first, and none again that has not changed.
fn built(root: &Path) -> PathBuf {
    println!(
        "cargo:rerun-if-changed={}",
        root.join("crates.txt").display()
    );
    for sources in sources(root) {
        println!("cargo:rerun-if-changed={}", sources.display());
    }
    let folder = root.join("crates").join(EXPORTS);
    prove(&folder);
    folder.join("out").join(format!("lib{EXPORTS}.a"))
}

/// Has `rt` build the static library in this folder, and shows what it proves.
fn prove(folder: &Path) {
    let started = Command::new("rt")
        .arg("lib")
        .current_dir(folder)
        .stdin(Stdio::null())
        .stdout(Stdio::piped())
        .stderr(Stdio::piped())
        .spawn();
    let mut running = started.unwrap_or_else(|why| {
        stop(&match why.kind() {
            ErrorKind::NotFound if folder.is_dir() => NO_RT.into(),
            _ => format!("`rt` in {}: {why}", folder.display()),
        })
    });
    let errors = running
        .stderr
        .take()
        .map(|errors| thread::spawn(|| shown(errors)));
    let said = running.stdout.take().map_or(String::new(), shown);
    let wrong = errors.map_or(String::new(), |errors| errors.join().unwrap_or_default());
    if !running.wait().is_ok_and(|status| status.success()) {
        let place = folder.display();
        stop(&format!(
            "`rt lib` in {place} did not succeed:\n{said}{wrong}"
        ));
    }
}

const NO_RT: &str = "`rt` is not on the path. Rattle's toolchain proves the library and builds it; \
    put its bin folder on the path and build again, or name a ready archive in ONEROM_ARCHIVE";

/// What is said, read to its end. The name of each crate that was checked just now goes to the
/// terminal meanwhile, if there is one: cargo shows a build script's output only when it fails, and
/// proofs take minutes.
fn shown(said: impl Read) -> String {
    let mut terminal = File::options().write(true).open("/dev/tty").ok();
    let mut text = String::new();
    for line in BufReader::new(said).split(b'\n').map_while(Result::ok) {
        let line = String::from_utf8_lossy(&line);
        let checked = line
            .strip_prefix("crate ")
            .and_then(|line| line.split_once(':'));
        if let (Some(terminal), Some((name, _))) = (terminal.as_mut(), checked) {
            // A terminal that is gone keeps nobody from building.
            let _ = writeln!(terminal, "\r\x1b[Kchecked {name}");
        }
        text += &line;
        text.push('\n');
    }
    text
}

fn archive_name() -> String {
    format!("lib{LIBRARY}.a")
}

/// Takes a copy of the archive, under the library's name: the gate clears the folder in which `rt`
/// leaves it.
fn keep(archive: &Path, out: &Path) {
    if let Err(why) = fs::copy(archive, out.join(archive_name())) {
        stop(&format!("{}: {why}", archive.display()));
    }
}
