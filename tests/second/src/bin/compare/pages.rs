//! Memory straight from the system: pages between two that nobody may touch, and more than 4 GiB
//! that hold a pattern for the price of one stretch of it.

use std::ffi::{c_char, c_int, c_uint, c_void};
use std::fs::File;
use std::io::{Error, Write};
use std::os::fd::{AsRawFd, FromRawFd};
use std::ptr::null_mut;
use std::slice::from_raw_parts_mut;

const PAGE: usize = 4096;

const PROT_NONE: c_int = 0;
const PROT_READ: c_int = 1;
const PROT_WRITE: c_int = 2;
const MAP_SHARED: c_int = 0x01;
const MAP_PRIVATE: c_int = 0x02;
const MAP_FIXED: c_int = 0x10;
const MAP_ANONYMOUS: c_int = 0x20;
const MAP_NORESERVE: c_int = 0x4000;

// From the C library, which std links anyway.
extern "C" {
    fn mmap(
        address: *mut c_void,
        len: usize,
        protection: c_int,
        flags: c_int,
        file: c_int,
        offset: i64,
    ) -> *mut c_void;
    fn mprotect(address: *mut c_void, len: usize, protection: c_int) -> c_int;
    fn munmap(address: *mut c_void, len: usize) -> c_int;
    fn memfd_create(name: *const c_char, flags: c_uint) -> c_int;
}

/// Address space that nobody may touch yet.
struct Space {
    start: *mut u8,
    len: usize,
}

impl Space {
    fn new(len: usize) -> Result<Space, Error> {
        let flags = MAP_PRIVATE | MAP_ANONYMOUS | MAP_NORESERVE;
        // Safe: a new mapping, wherever the system likes.
        let start = unsafe { mmap(null_mut(), len, PROT_NONE, flags, -1, 0) };
        if start as isize == -1 {
            return Err(Error::last_os_error());
        }
        Ok(Space {
            start: start.cast(),
            len,
        })
    }

    /// `len` bytes from `from` on, inside of this space.
    fn at(&self, from: usize, len: usize) -> *mut u8 {
        assert!(from + len <= self.len);
        // Safe: the sum stays within one mapping.
        unsafe { self.start.add(from) }
    }
}

impl Drop for Space {
    fn drop(&mut self) {
        // Safe: nothing borrowed from this space outlives it.
        unsafe { munmap(self.start.cast(), self.len) };
    }
}

/// Which end of the pages a slice lies at.
#[derive(Clone, Copy, Debug)]
pub enum Edge {
    /// The byte behind its last faults.
    End,
    /// The byte in front of its first faults.
    Start,
}

/// Pages to lend a slice from, between two that fault if they are read or written.
pub struct Fenced {
    space: Space,
    len: usize,
}

impl Fenced {
    /// Room for slices of up to `len` bytes.
    pub fn new(len: usize) -> Result<Fenced, Error> {
        let len = len.next_multiple_of(PAGE);
        let space = Space::new(len + 2 * PAGE)?;
        let inside = space.at(PAGE, len);
        // Safe: whole pages of a mapping of our own.
        match unsafe { mprotect(inside.cast(), len, PROT_READ | PROT_WRITE) } {
            0 => Ok(Fenced { space, len }),
            _ => Err(Error::last_os_error()),
        }
    }

    pub fn lend(&mut self, len: usize, edge: Edge) -> &mut [u8] {
        assert!(len <= self.len, "a slice of {len} bytes fits no fence");
        let from = match edge {
            Edge::End => PAGE + self.len - len,
            Edge::Start => PAGE,
        };
        // Safe: these bytes may be read and written, and are borrowed from this fence alone.
        unsafe { from_raw_parts_mut(self.space.at(from, len), len) }
    }
}

/// Many bytes that repeat one pattern. They take memory only where they are written.
pub struct Repeated {
    space: Space,
    pattern: Vec<u8>,
}

impl Repeated {
    /// `len` bytes or some more; the pattern is of whole pages.
    pub fn new(len: usize, pattern: Vec<u8>) -> Result<Repeated, Error> {
        let space = Space::new(len.next_multiple_of(pattern.len()))?;
        let file = file_with(&pattern)?;
        for from in (0..space.len).step_by(pattern.len()) {
            map(space.at(from, pattern.len()), &pattern, &file, MAP_PRIVATE)?;
        }
        Ok(Repeated { space, pattern })
    }

    /// The same, but all copies of the pattern between the first and the last are one piece of
    /// memory, so that all of it can be written.
    pub fn to_be_written(len: usize, pattern: Vec<u8>) -> Result<Repeated, Error> {
        let repeated = Repeated::new(len, pattern)?;
        let (space, pattern) = (&repeated.space, &repeated.pattern);
        let file = file_with(pattern)?;
        let last = space.len - pattern.len();
        for from in (pattern.len()..last).step_by(pattern.len()) {
            map(space.at(from, pattern.len()), pattern, &file, MAP_SHARED)?;
        }
        Ok(repeated)
    }

    /// Puts the pattern back everywhere.
    pub fn refill(&mut self) {
        let pattern = std::mem::take(&mut self.pattern);
        let bytes = self.bytes();
        let last = bytes.len() - pattern.len();
        for from in [0, pattern.len(), last] {
            bytes[from..from + pattern.len()].copy_from_slice(&pattern);
        }
        self.pattern = pattern;
    }

    pub fn bytes(&mut self) -> &mut [u8] {
        // Safe: all of the space is mapped to be read and written.
        unsafe { from_raw_parts_mut(self.space.start, self.space.len) }
    }

    /// Puts the pattern back at the front.
    pub fn restore(&mut self, len: usize) {
        let pattern = std::mem::take(&mut self.pattern);
        self.bytes()[..len].copy_from_slice(&pattern[..len]);
        self.pattern = pattern;
    }

    /// The first byte behind `front` that is not the pattern's. The pattern is put back there, so
    /// that who comes next is not blamed for it.
    pub fn changed_behind(&mut self, front: usize) -> Option<usize> {
        let pattern = std::mem::take(&mut self.pattern);
        let bytes = self.bytes();
        let mut first = None;
        for start in (0..bytes.len()).step_by(pattern.len()) {
            let skipped = front.saturating_sub(start).min(pattern.len());
            let right = &pattern[skipped..];
            let left = &mut bytes[start + skipped..start + pattern.len()];
            if left != right {
                let changed = (0..left.len()).find(|&at| left[at] != right[at]);
                first = first.or(changed.map(|at| start + skipped + at));
                left.copy_from_slice(right);
            }
        }
        self.pattern = pattern;
        first
    }
}

pub fn first_not_zero(bytes: &[u8]) -> Option<usize> {
    const ZEROS: [u8; 4096] = [0; 4096];
    let mut chunks = bytes.chunks(ZEROS.len()).enumerate();
    let (number, chunk) = chunks.find(|(_, chunk)| *chunk != &ZEROS[..chunk.len()])?;
    let at = chunk.iter().position(|&byte| byte != 0)?;
    Some(number * ZEROS.len() + at)
}

/// A file in memory, which nobody else knows.
fn file_with(bytes: &[u8]) -> Result<File, Error> {
    // Safe: the name is a C string.
    let descriptor = unsafe { memfd_create(c"pattern".as_ptr(), 0) };
    if descriptor < 0 {
        return Err(Error::last_os_error());
    }
    // Safe: the descriptor is open and ours.
    let mut file = unsafe { File::from_raw_fd(descriptor) };
    file.write_all(bytes)?;
    Ok(file)
}

/// Maps the file, which holds the pattern, over as many bytes. Who writes there gets a page of his
/// own, or changes the file for all.
fn map(to: *mut u8, pattern: &[u8], file: &File, kind: c_int) -> Result<(), Error> {
    let protection = PROT_READ | PROT_WRITE;
    let flags = kind | MAP_FIXED | MAP_NORESERVE;
    let file = file.as_raw_fd();
    // Safe: the stretch lies in a space of the caller, who lends nothing of it yet.
    let mapped = unsafe { mmap(to.cast(), pattern.len(), protection, flags, file, 0) };
    if mapped as isize == -1 {
        return Err(Error::last_os_error());
    }
    Ok(())
}
