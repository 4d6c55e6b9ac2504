//! Bytes between guard pages, to try a call that must touch nothing but what it is handed. A page
//! that nobody may touch stands on each side of some pages, and the bytes flush against one of the
//! two: a step past that end stops the program by a fault. The rest of the pages has a watch byte.
//!
//! `Shown` bytes can only be read, so that a write to them is a fault too; `Lent` ones can be
//! written, and tell whether anything else was. Both keep their pages and use them again, which
//! makes a call on them cheap.

use std::ffi::{CStr, c_char, c_int, c_uint, c_void};
use std::io;
use std::ops::Range;
use std::ptr::{self, NonNull};

/// Bytes of a page on x86-64, for which alone the library is built; the numbers below are Linux's
/// there.
const PAGE: usize = 4096;

const PROT_NONE: c_int = 0;
const PROT_READ: c_int = 1;
const PROT_WRITE: c_int = 2;
const MAP_SHARED: c_int = 1;
const MAP_PRIVATE: c_int = 2;
const MAP_FIXED: c_int = 16;
const MAP_ANONYMOUS: c_int = 32;
const NO_FILE: c_int = -1;

/// How `/proc` shows the memory of rooms that are only read.
const NAME: &CStr = c"onerom fence";

unsafe extern "C" {
    fn mmap(
        start: *mut c_void,
        length: usize,
        protection: c_int,
        flags: c_int,
        file: c_int,
        offset: i64,
    ) -> *mut c_void;
    fn mprotect(start: *mut c_void, length: usize, protection: c_int) -> c_int;
    fn munmap(start: *mut c_void, length: usize) -> c_int;
    fn memfd_create(name: *const c_char, flags: c_uint) -> c_int;
    fn ftruncate(file: c_int, length: i64) -> c_int;
    fn close(file: c_int) -> c_int;
}

/// Which guard page bytes stand against.
#[derive(Debug, Clone, Copy, PartialEq, Eq)]
pub enum Side {
    /// The one before their start: a byte before them is a fault.
    Lower,
    /// The one past their end: a byte past them is a fault.
    Upper,
}

impl Side {
    /// Both, to try a call at each.
    pub const BOTH: [Self; 2] = [Self::Lower, Self::Upper];

    /// The byte around bytes at this side, and in lent ones until they are written. Each side has
    /// its own: a write that changes nothing at one shows at the other.
    pub const fn watch(self) -> u8 {
        match self {
            Self::Lower => 0xA5,
            Self::Upper => 0x5A,
        }
    }
}

/// Pages between two that nobody may touch.
struct Room {
    /// Behind the lower guard page.
    start: NonNull<u8>,
    /// Where the pages are written: of a room that is only read they stand a second time.
    written: NonNull<u8>,
    length: usize,
}

impl Room {
    /// So many pages, to be read and written.
    fn lent(pages: usize) -> Self {
        let length = pages * PAGE;
        let start = between_guards(length);
        // SAFETY: these are whole pages of a mapping that nobody else knows yet.
        let told = unsafe { mprotect(start.as_ptr().cast(), length, PROT_READ | PROT_WRITE) };
        expect(told == 0, "mprotect");
        Self {
            start,
            written: start,
            length,
        }
    }

    /// So many pages that can only be read there. The same memory stands elsewhere too, to be
    /// written: to change the protection around each writing would take longer than most calls.
    fn shown(pages: usize) -> Self {
        let length = pages * PAGE;
        let file = memory(length);
        let start = between_guards(length);
        let fixed = MAP_SHARED | MAP_FIXED;
        // SAFETY: the pages that it takes the place of are a mapping that nobody else knows yet.
        let read = unsafe { mmap(start.as_ptr().cast(), length, PROT_READ, fixed, file, 0) };
        expect(read.addr() != usize::MAX, "mmap");
        let both = PROT_READ | PROT_WRITE;
        // SAFETY: a new mapping where the system finds room takes no memory that is in use.
        let written = unsafe { mmap(ptr::null_mut(), length, both, MAP_SHARED, file, 0) };
        expect(written.addr() != usize::MAX, "mmap");
        // SAFETY: the file is our own, and the mappings keep its memory.
        unsafe { close(file) };
        let written = NonNull::new(written.cast()).expect("no mapping begins at 0");
        Self {
            start,
            written,
            length,
        }
    }

    fn bytes(&self) -> &[u8] {
        // SAFETY: the pages are this room's own, can be read, and are 0 from the start.
        unsafe { std::slice::from_raw_parts(self.start.as_ptr(), self.length) }
    }

    fn bytes_mut(&mut self) -> &mut [u8] {
        // SAFETY: as above; while the room is borrowed here nobody reads its pages at either place.
        unsafe { std::slice::from_raw_parts_mut(self.written.as_ptr(), self.length) }
    }

    fn place(&self, length: usize, side: Side) -> Range<usize> {
        match side {
            Side::Lower => 0..length,
            Side::Upper => self.length - length..self.length,
        }
    }
}

impl Drop for Room {
    fn drop(&mut self) {
        // SAFETY: these are whole mappings, guard pages included, and nobody uses them any more.
        unsafe {
            if self.written != self.start {
                munmap(self.written.as_ptr().cast(), self.length);
            }
            let guard = self.start.as_ptr().sub(PAGE);
            munmap(guard.cast(), self.length + 2 * PAGE);
        }
    }
}

fn expect(done: bool, what: &str) {
    assert!(done, "{what}: {}", io::Error::last_os_error());
}

/// A mapping of so many bytes with a page on each side, none of which may be touched yet; where the
/// bytes begin.
fn between_guards(length: usize) -> NonNull<u8> {
    let (whole, flags) = (length + 2 * PAGE, MAP_PRIVATE | MAP_ANONYMOUS);
    // SAFETY: a new mapping where the system finds room takes no memory that is in use.
    let guard = unsafe { mmap(ptr::null_mut(), whole, PROT_NONE, flags, NO_FILE, 0) };
    // A failure is the place -1.
    expect(guard.addr() != usize::MAX, "mmap");
    // SAFETY: the mapping has three pages or more.
    let start = unsafe { guard.cast::<u8>().add(PAGE) };
    NonNull::new(start).expect("no mapping ends at 0")
}

/// Memory of so many bytes, all 0, that can be mapped in several places.
fn memory(length: usize) -> c_int {
    // SAFETY: the name ends with 0, and the file that is made is our own.
    let file = unsafe { memfd_create(NAME.as_ptr(), 0) };
    expect(file >= 0, "memfd_create");
    // SAFETY: as above.
    expect(unsafe { ftruncate(file, length as i64) } == 0, "ftruncate");
    file
}

/// Rooms of 1, 2, 4 pages and so on, each made when it is first needed: what is watched is never
/// much more than the bytes.
#[derive(Default)]
struct Rooms(Vec<Option<Room>>);

impl Rooms {
    /// Which room so many bytes take.
    fn number(length: usize) -> usize {
        let pages = length.div_ceil(PAGE).max(1);
        pages.next_power_of_two().trailing_zeros() as usize
    }

    fn room(&mut self, number: usize, made: fn(usize) -> Room) -> &mut Room {
        if self.0.len() <= number {
            self.0.resize_with(number + 1, || None);
        }
        self.0[number].get_or_insert_with(|| made(1 << number))
    }

    /// None before the room is made.
    fn bytes(&self, number: usize) -> &[u8] {
        let room = self.0.get(number).and_then(Option::as_ref);
        room.map_or(&[], Room::bytes)
    }
}

/// Bytes that can only be read.
#[derive(Default)]
pub struct Shown {
    rooms: Rooms,
    room: usize,
    place: Range<usize>,
}

impl Shown {
    /// Takes a copy of the bytes, none or any number of them, and has it stand at that side. The one
    /// before is gone.
    pub fn put(&mut self, bytes: &[u8], side: Side) {
        self.room = Rooms::number(bytes.len());
        let room = self.rooms.room(self.room, Room::shown);
        self.place = room.place(bytes.len(), side);
        room.bytes_mut().fill(side.watch());
        room.bytes_mut()[self.place.clone()].copy_from_slice(bytes);
    }

    /// The copy, to be handed to a call; no bytes if none was taken.
    pub fn bytes(&self) -> &[u8] {
        &self.rooms.bytes(self.room)[self.place.clone()]
    }
}

/// Bytes that are lent for writing.
#[derive(Default)]
pub struct Lent {
    rooms: Rooms,
    room: usize,
    place: Range<usize>,
    watch: u8,
}

impl Lent {
    /// So many bytes at that side, none or any number of them, to be handed to a call. They are the
    /// side's watch byte, as is all around them.
    pub fn lend(&mut self, length: usize, side: Side) -> &mut [u8] {
        self.room = Rooms::number(length);
        let room = self.rooms.room(self.room, Room::lent);
        self.place = room.place(length, side);
        self.watch = side.watch();
        let bytes = room.bytes_mut();
        bytes.fill(self.watch);
        &mut bytes[self.place.clone()]
    }

    /// So many of the bytes that were lent last; fewer if there are not so many.
    pub fn front(&self, length: usize) -> &[u8] {
        let lent = &self.rooms.bytes(self.room)[self.place.clone()];
        &lent[..length.min(lent.len())]
    }

    /// Whether the lent bytes begin with these, and nothing else was written.
    pub fn has_only(&self, front: &[u8]) -> bool {
        self.front(front.len()) == front && self.is_kept_past(front.len())
    }

    /// Whether nothing but the first so many of the lent bytes was written: the others and those
    /// around them are the watch byte still. No, if there are not so many.
    pub fn is_kept_past(&self, length: usize) -> bool {
        let bytes = self.rooms.bytes(self.room);
        let (before, past) = (&bytes[..self.place.start], self.place.start + length);
        length <= self.place.len()
            && are_all(before, self.watch)
            && are_all(&bytes[past..], self.watch)
    }
}

/// A page is looked at whole before it is judged, which takes many bytes at a time.
fn are_all(bytes: &[u8], byte: u8) -> bool {
    let mut pages = bytes.chunks(PAGE);
    pages.all(|page| page.iter().fold(0, |found, &one| found | (one ^ byte)) == 0)
}
