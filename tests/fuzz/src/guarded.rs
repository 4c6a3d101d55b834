//! Memory between two inaccessible pages, so that a read or write outside of it
//! ends the program.

use std::ffi::{c_int, c_void};
use std::ptr::null_mut;
use std::slice;

const PAGE: usize = 4096;
const PROT_NONE: c_int = 0;
const PROT_READ: c_int = 1;
const PROT_WRITE: c_int = 2;
const MAP_PRIVATE: c_int = 2;
const MAP_ANONYMOUS: c_int = 32;

extern "C" {
    fn mmap(
        address: *mut c_void,
        length: usize,
        protection: c_int,
        flags: c_int,
        file: c_int,
        offset: i64,
    ) -> *mut c_void;
    fn mprotect(address: *mut c_void, length: usize, protection: c_int) -> c_int;
}

/// At which end of the memory the bytes stand, with nothing between them and the
/// inaccessible page.
#[derive(Clone, Copy, Debug, PartialEq, Eq)]
pub enum Side {
    Start,
    End,
}

/// Pages that are kept for the whole run of the program.
pub struct Guarded {
    start: *mut u8,
    length: usize,
}

impl Guarded {
    /// Room for this many bytes, in whole pages.
    pub fn new(room: usize) -> Guarded {
        let length = room.div_ceil(PAGE) * PAGE;
        // SAFETY: a new private mapping touches no memory that is in use, and the
        // middle of it is whole pages of the mapping.
        let start = unsafe {
            let flags = MAP_PRIVATE | MAP_ANONYMOUS;
            let address = mmap(null_mut(), length + 2 * PAGE, PROT_NONE, flags, -1, 0);
            assert!(address as isize != -1, "no memory");
            address.cast::<u8>().add(PAGE)
        };
        let guarded = Guarded { start, length };
        guarded.protect(PROT_READ | PROT_WRITE);
        guarded
    }

    fn protect(&self, protection: c_int) {
        // SAFETY: these are whole pages of this value's own mapping.
        let failed = unsafe { mprotect(self.start.cast(), self.length, protection) };
        assert_eq!(failed, 0, "the pages cannot be protected");
    }

    fn place(&self, length: usize, side: Side) -> *mut u8 {
        assert!(length <= self.length);
        match side {
            Side::Start => self.start,
            // SAFETY: the place lies within the mapping or at its end.
            Side::End => unsafe { self.start.add(self.length - length) },
        }
    }

    /// Room for bytes that may be written.
    pub fn writable(&mut self, length: usize, side: Side) -> &mut [u8] {
        self.protect(PROT_READ | PROT_WRITE);
        // SAFETY: the bytes lie within the mapping, which is borrowed exclusively, can
        // be read and written, and began as zeros.
        unsafe { slice::from_raw_parts_mut(self.place(length, side), length) }
    }

    /// A copy of these bytes that can only be read.
    pub fn read_only(&mut self, bytes: &[u8], side: Side) -> &[u8] {
        self.writable(bytes.len(), side).copy_from_slice(bytes);
        self.protect(PROT_READ);
        // SAFETY: the bytes lie within the mapping and can be read; nothing can write
        // them as long as they are borrowed.
        unsafe { slice::from_raw_parts(self.place(bytes.len(), side), bytes.len()) }
    }
}
