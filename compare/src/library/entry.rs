//! The library's entry as a C program sees it, and memory to call it with.

use crate::random::Random;
use crate::reading::Answer;
use std::ffi::{c_int, c_void};

/// The four numbers of an answer.
#[repr(C)]
#[derive(Debug, Clone, Copy, PartialEq, Eq)]
pub struct Values {
    pub number: u32,
    pub index: u32,
    pub total: u32,
    pub errors: u32,
}

impl Values {
    pub fn of(answer: &Answer) -> Values {
        Values {
            number: answer.number,
            index: answer.index,
            total: answer.total,
            errors: answer.errors,
        }
    }
}

extern "C" {
    fn vexil_check(
        sheet: *const u8,
        sheet_len: usize,
        names: *const u8,
        names_len: usize,
        list: *mut u8,
        list_len: usize,
    ) -> Values;

    fn mmap(
        at: *mut c_void,
        len: usize,
        rights: c_int,
        flags: c_int,
        file: c_int,
        offset: i64,
    ) -> *mut c_void;
    fn mprotect(at: *mut c_void, len: usize, rights: c_int) -> c_int;
    fn munmap(at: *mut c_void, len: usize) -> c_int;
}

/// Memory that a call is lent: a part of a room, or nothing at some address.
#[derive(Debug, Clone, Copy)]
pub struct Part {
    start: *mut u8,
    pub len: usize,
}

impl Part {
    /// No bytes at address 0, as C writes an absent buffer.
    pub fn null() -> Part {
        Part {
            start: std::ptr::null_mut(),
            len: 0,
        }
    }

    /// No bytes at address 1, as Rust writes an empty slice.
    pub fn dangling() -> Part {
        Part {
            start: std::ptr::NonNull::dangling().as_ptr(),
            len: 0,
        }
    }
}

/// One call. The list is no part of the sheet's or the names text's memory.
pub fn call(sheet: Part, names: Part, list: Part) -> Values {
    // Every part is of length 0 or of a room that its maker still has.
    unsafe {
        vexil_check(
            sheet.start,
            sheet.len,
            names.start,
            names.len,
            list.start,
            list.len,
        )
    }
}

/// Bytes looked at before and after a part that does not touch the end of its room.
pub const GUARD: usize = 64;
const PAGE: usize = 4096;
// Linux on x86-64, the one system that an archive is made for.
const NO_RIGHTS: c_int = 0;
const READ_AND_WRITE: c_int = 3;
/// Private, of no file, and taken from the machine's memory only where it is written to.
const FLAGS: c_int = 0x2 | 0x20 | 0x4000;

/// Memory between two pages that nobody may read or write.
pub struct Room {
    start: *mut u8,
    len: usize,
}

impl Room {
    /// A room of at least `len` bytes, all 0.
    pub fn new(len: usize) -> Room {
        let len = len.next_multiple_of(PAGE);
        unsafe {
            let whole = mmap(
                std::ptr::null_mut(),
                len + 2 * PAGE,
                NO_RIGHTS,
                FLAGS,
                -1,
                0,
            );
            assert!(whole as isize != -1, "no memory for {len} bytes");
            let start = whole.cast::<u8>().add(PAGE);
            let changed = mprotect(start.cast(), len, READ_AND_WRITE);
            assert!(changed == 0, "no rights for {len} bytes");
            Room { start, len }
        }
    }

    pub fn len(&self) -> usize {
        self.len
    }

    pub fn bytes(&mut self) -> &mut [u8] {
        unsafe { std::slice::from_raw_parts_mut(self.start, self.len) }
    }

    pub fn part(&self, at: usize, len: usize) -> Part {
        assert!(
            at <= self.len && len <= self.len - at,
            "a part has its room"
        );
        Part {
            start: unsafe { self.start.add(at) },
            len,
        }
    }

    /// Puts the bytes at a place of the room, at times none of them at an address of none.
    pub fn lend(&mut self, bytes: &[u8], random: &mut Random) -> Part {
        match random.below(3) {
            0 if bytes.is_empty() => Part::null(),
            1 if bytes.is_empty() => Part::dangling(),
            _ => {
                let at = self.place(bytes.len(), random);
                self.put(bytes, at)
            }
        }
    }

    pub fn put(&mut self, bytes: &[u8], at: usize) -> Part {
        self.bytes()[at..at + bytes.len()].copy_from_slice(bytes);
        self.part(at, bytes.len())
    }

    /// A place for `len` bytes: at the room's start, at its end, or at any alignment inside.
    pub fn place(&self, len: usize, random: &mut Random) -> usize {
        assert!(len + 3 * GUARD <= self.len, "a part has its room");
        match random.below(4) {
            0 => 0,
            1 => self.len - len,
            _ => GUARD + random.below(16),
        }
    }

    /// Where in the room a part of it begins.
    pub fn at(&self, part: Part) -> usize {
        part.start as usize - self.start as usize
    }

    /// Whether a part that was lent these bytes still has them.
    pub fn holds(&mut self, part: Part, bytes: &[u8]) -> bool {
        bytes.is_empty() || {
            let at = self.at(part);
            &self.bytes()[at..at + part.len] == bytes
        }
    }
}

impl Drop for Room {
    fn drop(&mut self) {
        unsafe { munmap(self.start.sub(PAGE).cast(), self.len + 2 * PAGE) };
    }
}
