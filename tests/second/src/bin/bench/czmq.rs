//! czmq, which `make bench` links: its encode and decode of messages. It copies what it takes apart
//! or puts together; the library's reader only looks at it.

use std::ffi::c_void;

extern "C" {
    fn others_czmq_frame(bytes: *const u8, len: usize) -> *mut c_void;
    fn others_czmq_message(frame: *mut c_void) -> *mut c_void;
    fn others_czmq_decode(frame: *mut c_void) -> usize;
    fn others_czmq_encode(message: *mut c_void) -> usize;
}

/// A message both ways, which is never freed: there are few.
pub struct Czmq {
    frame: *mut c_void,
    message: *mut c_void,
}

impl Czmq {
    /// Of the bytes that its encode makes of the parts.
    pub fn new(bytes: &[u8]) -> Czmq {
        // Safe: the bytes live through the call, which copies them.
        let frame = unsafe { others_czmq_frame(bytes.as_ptr(), bytes.len()) };
        // Safe: the frame is czmq's own.
        let message = unsafe { others_czmq_message(frame) };
        assert!(!message.is_null());
        Czmq { frame, message }
    }

    /// Takes the bytes apart; how many parts they are.
    pub fn decode(&self) -> usize {
        // Safe: the frame is czmq's own, and nothing else uses it meanwhile.
        unsafe { others_czmq_decode(self.frame) }
    }

    /// Puts the parts together; how many bytes they are.
    pub fn encode(&self) -> usize {
        // Safe: the message is czmq's own, and nothing else uses it meanwhile.
        unsafe { others_czmq_encode(self.message) }
    }
}
