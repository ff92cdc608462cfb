//! Buffers that a call changes, put right again outside of what is timed.

use std::cell::RefCell;

use second::demand3::frame_of;
use second::frame::Header;
use second::sample::OwnedMessage;

use crate::frames::route;

/// Both sides get the same buffers, few enough to stay near.
pub const BUFFERS: usize = 16;

/// A message, and buffers to lend with its frame at the front.
pub struct Buffers {
    pub frame: Vec<u8>,
    lent: RefCell<Vec<Vec<u8>>>,
}

impl Buffers {
    pub fn new(message: &OwnedMessage, room: usize) -> Buffers {
        Buffers {
            frame: frame_of(&message.lent()),
            lent: RefCell::new(vec![vec![0; room]; BUFFERS]),
        }
    }

    /// Puts the frame back into so many of them. What lies behind it does not matter.
    pub fn restore(&self, count: usize) {
        for buffer in &mut self.lent.borrow_mut()[..count] {
            buffer[..self.frame.len()].copy_from_slice(&self.frame);
        }
    }

    pub fn with<T>(&self, number: usize, call: impl FnOnce(&mut [u8]) -> T) -> T {
        call(&mut self.lent.borrow_mut()[number])
    }
}

/// A message of a stranger's: one route, and a payload with which the body has so many bytes, or
/// one of 24 bytes.
pub fn message(kind: u8, nodeid: u32, topic: &str, body: Option<usize>) -> OwnedMessage {
    let rest = 38 + 1 + 2 + topic.len() + 5 + 21;
    OwnedMessage {
        header: Header {
            kind,
            flags: 0x0B,
            userid: 1000,
            rolemask: 1,
            first: nodeid,
            second: 1,
        },
        routes: route(5000),
        topic: topic.as_bytes().to_vec(),
        payload: vec![0x7B; body.map_or(24, |body| body - rest)],
    }
}
