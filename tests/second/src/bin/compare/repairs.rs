//! Faults put right at the byte that is told. Where one byte there can do it, the fault must be
//! gone: the number changes, or the byte moves on.
//!
//! One byte does it for 4 (0 is the size of an empty part, which always fits), for 6 if the last
//! part has more than 20 bytes, for 20 to 23, for a request's 10, and for 8, 9 and an event's 10 if
//! all but the first byte is right. It never does for 5 (a 69th part begins, whatever its size),
//! for 7 (the header's start is told, which is right), for 6 with no part at all or with fewer than
//! 20 bytes, for a 65th route, and for parts of another length than a route or a topic has.

use std::fmt;

use second::frame::number_at;
use second::side::LIBRARY;

use crate::draft::is_right_route;
use crate::tester::{hex, Tester};

/// How often something was put right.
#[derive(Default)]
pub struct Repairs {
    repairs: u64,
    /// Frames that were good in the end.
    good: u64,
}

impl fmt::Display for Repairs {
    fn fmt(&self, f: &mut fmt::Formatter) -> fmt::Result {
        let Repairs { repairs, good } = self;
        write!(
            f,
            "{repairs} faults put right, {good} frames good with that"
        )
    }
}

impl Repairs {
    /// Puts right what the library tells, fault after fault, as long as one byte can do it.
    pub fn one_after_another(&mut self, tester: &mut Tester, bytes: &[u8]) {
        let mut bytes = bytes.to_vec();
        let mut told = told_of(&bytes);
        // Each part is put right twice at the most, as a size and as a route.
        for _ in 0..200 {
            let Some(byte) = right_byte(&bytes, told) else {
                return;
            };
            bytes[told[1] as usize] = byte;
            let next = told_of(&bytes);
            tester.require(next[0] != told[0] || next[1] > told[1], || {
                format!("{told:?} put right is {next:?}: {}", hex(&bytes))
            });
            self.repairs += 1;
            self.good += (next[0] == 0) as u64;
            told = next;
        }
        tester.require(false, || format!("it never ends: {}", hex(&bytes)));
    }
}

/// The number and the byte that the library tells.
fn told_of(bytes: &[u8]) -> [u32; 2] {
    let mut record = [0; 8];
    LIBRARY.read_fault(bytes, &mut record);
    [0, 4].map(|at| number_at(&record, at))
}

/// What the byte told has to be for the fault to be gone, if that alone can do it.
fn right_byte(bytes: &[u8], [number, at]: [u32; 2]) -> Option<u8> {
    let at = at as usize;
    let frame_len = 8 + number_at(bytes.get(4..8)?, 0) as usize;
    let bytes = bytes.get(..frame_len)?;
    // With no part the byte told lies behind the frame.
    let byte = *bytes.get(at)?;
    match number {
        4 => Some(0),
        6 if byte > 20 => Some(20),
        8 => {
            let part = part_with(bytes, at, b'0')?;
            (at != 9 + 38 * 64 && is_right_route(&part)).then_some(b'0')
        }
        9 => {
            let part = part_with(bytes, at, b'a')?;
            is_right_topic(&part).then_some(b'a')
        }
        10 => {
            // An event's field is the last of the frame, a nodeid the one before.
            let nodeid = at + 8 == frame_len;
            (nodeid || bytes.get(at + 1..at + 4) == Some(&[0; 3])).then_some(0)
        }
        20 => Some(0x8E),
        21 => Some(0x01),
        22 => Some(type_for(*bytes.get(at + 1)?)),
        23 => Some(byte & 0x7F),
        _ => None,
    }
}

/// A type that the flags may stand with.
fn type_for(flags: u8) -> u8 {
    match flags & 0x09 {
        0x00 => 8,
        0x01 => 4,
        _ => 1,
    }
}

/// A topic of the form, with its zero byte.
fn is_right_topic(part: &[u8]) -> bool {
    let zero = part.iter().position(|&byte| byte == 0);
    (2..=256).contains(&part.len()) && zero == Some(part.len() - 1)
}

/// The part whose data begin there, with another first byte, in a frame whose sizes are all right.
fn part_with(bytes: &[u8], at: usize, first: u8) -> Option<Vec<u8>> {
    let mut size = 8;
    loop {
        let (data, len) = match *bytes.get(size)? {
            255 => (
                size + 5,
                number_at(bytes.get(size + 1..size + 5)?, 0) as usize,
            ),
            short => (size + 1, short as usize),
        };
        if data == at {
            let mut part = bytes.get(data..data + len)?.to_vec();
            *part.first_mut()? = first;
            return Some(part);
        }
        size = data + len;
    }
}
