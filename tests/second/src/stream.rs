//! The stream reader: where the frames lie that some bytes begin with. Nothing is copied.

use crate::frame::Refusal;
use crate::read::read;

/// What lies behind so many bytes counts as absent.
pub const MAX_STREAM: usize = 1_048_576;
/// Start and length of a frame, 4 bytes each.
pub const ENTRY_LEN: usize = 8;

/// Where a stream stopped, and why. Every stream stops: at its end there are too few bytes.
#[derive(Clone, Copy, Debug, PartialEq, Eq)]
pub struct StreamStop {
    /// Frames listed.
    pub entries: usize,
    pub refusal: Refusal,
    /// Where the frame starts that was refused, or found no room in the list.
    pub start: usize,
}

/// Lists the whole frames one after another. What lies behind the entries stays as it was.
pub fn read_stream(bytes: &[u8], list: &mut [u8]) -> StreamStop {
    let bytes = &bytes[..bytes.len().min(MAX_STREAM)];
    let mut room = list.chunks_exact_mut(ENTRY_LEN);
    let (mut entries, mut start) = (0, 0);
    let refusal = loop {
        let frame_len = match read(&bytes[start..]) {
            Ok(reading) => reading.frame_len,
            Err(refusal) => break refusal,
        };
        // Only a good frame asks for room: a bad one is told as what it is.
        let Some(entry) = room.next() else {
            break Refusal::OutputTooShort;
        };
        put_entry(entry, start, frame_len);
        entries += 1;
        start += frame_len;
    };
    StreamStop {
        entries,
        refusal,
        start,
    }
}

/// Both numbers are at most `MAX_STREAM`.
fn put_entry(entry: &mut [u8], start: usize, len: usize) {
    entry[..4].copy_from_slice(&(start as u32).to_be_bytes());
    entry[4..].copy_from_slice(&(len as u32).to_be_bytes());
}
