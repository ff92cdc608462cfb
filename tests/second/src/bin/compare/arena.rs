//! Memory for one call: every lent slice lies between guard bytes, and all that a call may write
//! is filled with a pattern first. Both programs get an exact copy. The slices can be had once more
//! with each against a page that faults when it is touched.

use std::ops::Range;

use second::sample::Rng;

use crate::pages::{Edge, Fenced};

/// At least this many guard bytes lie around each slice.
const GUARD: usize = 24;
const PATTERN_LEN: usize = 1 << 16;
/// No call lends more slices than this, and none of them is longer.
const FENCES: usize = 5;
const FENCED_LEN: usize = 1 << 21;

pub struct Arena {
    pattern: Vec<u8>,
    at: usize,
    /// As both programs find it.
    pub before: Vec<u8>,
    /// As each of them leaves it.
    pub after: [Vec<u8>; 2],
    fences: [Fenced; FENCES],
}

impl Arena {
    pub fn new() -> Arena {
        let mut pattern = Rng::new(0).bytes(PATTERN_LEN);
        // No zero: a program that clears what it should leave is seen at the first byte.
        pattern
            .iter_mut()
            .for_each(|byte| *byte |= (*byte == 0) as u8);
        Arena {
            pattern,
            at: 0,
            before: Vec::new(),
            after: [Vec::new(), Vec::new()],
            fences: std::array::from_fn(|_| {
                Fenced::new(FENCED_LEN).expect("the system gives no pages to fence")
            }),
        }
    }

    /// Each case starts at its own place of the pattern, so that it is the same when run alone.
    pub fn set_place(&mut self, a: u64, b: u64) {
        self.at = (a.wrapping_mul(2741).wrapping_add(b) % PATTERN_LEN as u64) as usize;
    }

    /// Begins a new layout, with another stretch of the pattern than the last.
    pub fn start(&mut self) {
        self.before.clear();
        self.at = (self.at + 4099) % PATTERN_LEN;
        self.guard();
    }

    /// A slice with these bytes, and `behind` right behind it, outside of the slice: a program
    /// that reads too far finds what would tempt it.
    pub fn lend(&mut self, bytes: &[u8], behind: &[u8]) -> Range<usize> {
        let start = self.before.len();
        self.before.extend_from_slice(bytes);
        let end = self.before.len();
        self.before.extend_from_slice(behind);
        self.guard();
        start..end
    }

    /// A slice to write to.
    pub fn lend_room(&mut self, len: usize) -> Range<usize> {
        let start = self.before.len();
        self.fill(len);
        self.guard();
        start..start + len
    }

    /// Copies the layout for both programs.
    pub fn seal(&mut self) {
        for after in &mut self.after {
            after.clone_from(&self.before);
        }
    }

    /// Makes the library's call once more, each slice at an edge of its own pages: a call that reads
    /// or writes beyond that edge ends the process. Tells the answer, and whether all the slices
    /// are left as they are between guard bytes.
    pub fn on_fenced<const N: usize>(
        &mut self,
        lent: [&Range<usize>; N],
        edge: Edge,
        call: impl FnOnce([&mut [u8]; N]) -> u32,
    ) -> (u32, bool) {
        let mut fences = self.fences.iter_mut();
        let mut slices = lent.map(|range| {
            let slice = fences.next().unwrap().lend(range.len(), edge);
            slice.copy_from_slice(&self.before[range.clone()]);
            slice
        });
        let answer = call(slices.each_mut().map(|slice| &mut **slice));
        let library = &self.after[0];
        let mut pairs = lent.into_iter().zip(&slices);
        let same = pairs.all(|(range, slice)| library[range.clone()] == **slice);
        (answer, same)
    }

    /// The guards' lengths vary, and so do the slices' addresses.
    fn guard(&mut self) {
        self.fill(GUARD + self.at % 7);
    }

    fn fill(&mut self, mut len: usize) {
        while len > 0 {
            let take = len.min(PATTERN_LEN - self.at);
            self.before
                .extend_from_slice(&self.pattern[self.at..self.at + take]);
            self.at = (self.at + take) % PATTERN_LEN;
            len -= take;
        }
    }

    /// The first byte that a program changed outside of the ranges that it may write, which are
    /// in ascending order.
    pub fn stray_write(&self, side: usize, allowed: &[Range<usize>]) -> Option<usize> {
        let mut from = 0;
        let end = self.before.len();
        for range in allowed.iter().chain([&(end..end)]) {
            let kept = from..range.start;
            if self.before[kept.clone()] != self.after[side][kept.clone()] {
                return kept
                    .into_iter()
                    .find(|&at| self.before[at] != self.after[side][at]);
            }
            from = range.end;
        }
        None
    }

    /// The first byte in which the two programs differ.
    pub fn difference(&self) -> Option<usize> {
        let [library, second] = &self.after;
        if library == second {
            return None;
        }
        (0..library.len()).find(|&at| library[at] != second[at])
    }
}
