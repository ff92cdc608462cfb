//! Last words: a call that leaves its slices for a page that nobody may touch ends the process, and
//! this says in which case.

use std::ffi::{c_int, c_void};
use std::io::Write;
use std::slice::from_raw_parts;
use std::str::from_utf8_unchecked;
use std::sync::atomic::{AtomicPtr, AtomicU64, AtomicUsize, Ordering::Relaxed};

const SIGBUS: c_int = 7;
const SIGSEGV: c_int = 11;

// From the C library, which std links anyway.
extern "C" {
    fn signal(number: c_int, handler: usize) -> usize;
    fn write(file: c_int, bytes: *const c_void, len: usize) -> isize;
    fn _exit(status: c_int) -> !;
}

/// A text that a signal handler may look at.
struct Text {
    start: AtomicPtr<u8>,
    len: AtomicUsize,
}

impl Text {
    const fn new() -> Text {
        Text {
            start: AtomicPtr::new(std::ptr::dangling_mut()),
            len: AtomicUsize::new(0),
        }
    }

    fn set(&self, text: &'static str) {
        self.start.store(text.as_ptr().cast_mut(), Relaxed);
        self.len.store(text.len(), Relaxed);
    }

    fn get(&self) -> &'static str {
        // Safe: both come from one text that lives for ever; there is a single thread.
        unsafe {
            let bytes = from_raw_parts(self.start.load(Relaxed), self.len.load(Relaxed));
            from_utf8_unchecked(bytes)
        }
    }
}

static GROUP: Text = Text::new();
static CASE: Text = Text::new();
static NUMBERS: [AtomicU64; 2] = [AtomicU64::new(0), AtomicU64::new(0)];

/// From now on a fault is told before the process ends.
pub fn watch() {
    for number in [SIGSEGV, SIGBUS] {
        // Safe: the handler only formats on its stack, writes and exits.
        unsafe { signal(number, tell as *const () as usize) };
    }
}

pub fn set_group(name: &'static str) {
    GROUP.set(name);
}

pub fn set_case(what: &'static str, a: u64, b: u64) {
    CASE.set(what);
    NUMBERS[0].store(a, Relaxed);
    NUMBERS[1].store(b, Relaxed);
}

extern "C" fn tell(_: c_int) {
    let mut room = [0; 400];
    let mut rest = &mut room[..];
    let (group, what) = (GROUP.get(), CASE.get());
    let [a, b] = [0, 1].map(|at: usize| NUMBERS[at].load(Relaxed));
    // What does not fit is cut off.
    let _ = writeln!(
        rest,
        "FAILED {group}: {what} ({a}, {b}): a call touched memory outside of its slices"
    );
    let len = 400 - rest.len();
    // Safe: the bytes lie in `room`.
    unsafe {
        write(1, room.as_ptr().cast(), len);
        _exit(1)
    }
}
