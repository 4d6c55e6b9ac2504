//! The files that the commands write.

use std::fs::{self, File, Metadata, Permissions};
use std::io::{self, ErrorKind, Write};
use std::os::fd::AsFd;
use std::os::unix::fs::MetadataExt;
use std::path::{Path, PathBuf};
use std::process::{self, ExitCode};

use crate::ending::{Done, Fault, complain, say};
use crate::inputs::NO_FILE;

/// A file and what is to stand in it.
pub type Output<'a> = (&'a Path, &'a [u8]);

/// Puts the bytes under the files' names once they are all written, so that no one finds a part of
/// a file there, nor one of several alone where another cannot be written. A link is followed; a
/// file that is replaced keeps its mode. Not replaced are a read-only file, what is no plain file,
/// such as a device, and the file that the program's own output goes to.
pub fn write_whole(outputs: &[Output]) -> Result<(), Fault> {
    let part = |&(file, bytes): &Output<'_>| {
        let part = Part::write(file, bytes);
        part.map_err(|why| Fault::of_file(file, why))
    };
    // All of them before the first is put in place.
    let parts: Vec<(Part, &Output)> = outputs
        .iter()
        .map(|output| Ok((part(output)?, output)))
        .collect::<Result<_, Fault>>()?;
    for (part, (file, _)) in &parts {
        part.put().map_err(|why| Fault::of_file(file, why))?;
    }
    Ok(())
}

/// A file under a name that it has only until it is whole.
struct Part {
    name: PathBuf,
    file: PathBuf,
}

impl Part {
    fn write(file: &Path, bytes: &[u8]) -> io::Result<Self> {
        let mode = replaceable(file)?;
        let file = followed(file)?;
        let name = part_of(&file);
        let mut new = File::create_new(&name)?;
        let part = Self { name, file };
        new.write_all(bytes)?;
        // Some file systems tell only here that there is no room.
        new.sync_all()?;
        if let Some(mode) = mode {
            new.set_permissions(mode)?;
        }
        Ok(part)
    }

    fn put(&self) -> io::Result<()> {
        fs::rename(&self.name, &self.file)
    }
}

impl Drop for Part {
    /// One that was put in place is there no more.
    fn drop(&mut self) {
        let _ = fs::remove_file(&self.name);
    }
}

/// Links that lead to links are followed so far, as the system does.
const MOST_LINKS: usize = 40;

/// Where a name's links lead to, whether a file is there or not.
fn followed(file: &Path) -> io::Result<PathBuf> {
    let mut place = file.to_path_buf();
    for _ in 0..MOST_LINKS {
        match fs::read_link(&place) {
            Ok(next) => place = place.parent().unwrap_or(Path::new("")).join(next),
            Err(_) => return Ok(place),
        }
    }
    Err(io::Error::other("has too many links"))
}

/// The mode of a file that may be replaced; none where there is no file.
fn replaceable(file: &Path) -> io::Result<Option<Permissions>> {
    let old = match fs::metadata(file) {
        Err(why) if why.kind() == ErrorKind::NotFound => return Ok(None),
        old => old?,
    };
    if is_own_output(&old) {
        let why = "is where this program's own output goes; its help says whether `-` writes there";
        return Err(io::Error::other(why));
    }
    if !old.is_file() {
        return Err(io::Error::other("is no plain file"));
    }
    if old.permissions().readonly() {
        return Err(io::Error::other("is read-only, and is not replaced"));
    }
    Ok(Some(old.permissions()))
}

/// Whether the standard output goes to this file.
fn is_own_output(file: &Metadata) -> bool {
    let own = io::stdout().as_fd().try_clone_to_owned().map(File::from);
    let own = own.and_then(|own| own.metadata());
    own.is_ok_and(|own| (own.dev(), own.ino()) == (file.dev(), file.ino()))
}

/// A name beside the file's that no other run takes.
fn part_of(file: &Path) -> PathBuf {
    let mut name = file.as_os_str().to_owned();
    name.push(format!(".{}.part", process::id()));
    PathBuf::from(name)
}

/// Writes bytes to the standard output, and fails if they do not get there: what reads them needs
/// them all.
pub fn write_out(bytes: &[u8]) -> Result<(), Fault> {
    let mut out = io::stdout();
    let written = out.write_all(bytes).and_then(|()| out.flush());
    written.map_err(|why| Fault::File(format!("standard output: {why}")))
}

/// Writes a file whole and says what it has, or writes to the standard output, where nothing else
/// may stand.
pub fn written(file: &Path, bytes: &[u8], what: &str, open: &str) -> Done {
    if file == Path::new(NO_FILE) {
        complain(open);
        write_out(bytes)?;
    } else {
        write_whole(&[(file, bytes)])?;
        say(&format!("{}: {what}\n{open}", file.display()))?;
    }
    Ok(ExitCode::SUCCESS)
}

/// Tells a file that would be lost: one that is read cannot be written too.
pub fn keep(read: &[PathBuf], what: &str, file: &Path) -> Result<(), Fault> {
    if read.iter().any(|one| is_same(one, file)) {
        let why = format!("the {what} would replace a file that it is made from");
        return Err(Fault::of_file(file, why));
    }
    Ok(())
}

/// Whether two names are of one file, which need not be there yet.
pub fn is_same(one: &Path, other: &Path) -> bool {
    match (place(one), place(other)) {
        (Some(one), Some(other)) => one == other,
        _ => false,
    }
}

/// The file's only name, if its folder is there.
fn place(file: &Path) -> Option<PathBuf> {
    if let Ok(place) = fs::canonicalize(file) {
        return Some(place);
    }
    let file = &followed(file).ok()?;
    let folder = match file.parent()? {
        folder if folder == Path::new("") => Path::new("."),
        folder => folder,
    };
    Some(fs::canonicalize(folder).ok()?.join(file.file_name()?))
}

/// Makes a folder if it is not there, and those above it; no name is the one that is there.
pub fn make_folder(folder: &Path) -> Result<(), Fault> {
    if folder == Path::new("") {
        return Ok(());
    }
    fs::create_dir_all(folder).map_err(|why| Fault::of_file(folder, why))
}

/// Writes files of which none is there yet, all of them or none.
pub fn write_new(outputs: &[Output]) -> Result<(), Fault> {
    let mut own = Vec::new();
    for (file, bytes) in outputs {
        let written = File::create_new(file).and_then(|mut new| {
            own.push(file);
            new.write_all(bytes)
        });
        if let Err(why) = written {
            for file in own {
                // The first fault is the one to tell.
                let _ = fs::remove_file(file);
            }
            return Err(not_new(file, why));
        }
    }
    Ok(())
}

fn not_new(file: &Path, why: io::Error) -> Fault {
    match why.kind() {
        ErrorKind::AlreadyExists => Fault::of_file(file, "is there already, and is not replaced"),
        _ => Fault::of_file(file, why),
    }
}
