//! Streams put together frame by frame, with what the paper says of them.

use crate::draft::{frame_with, Draft};
use crate::stream_calls::StreamTold;

/// Bytes of a stream past so many count as absent.
pub const LIMIT: usize = 1_048_576;
/// Bytes of a stream's record.
pub const RECORD: usize = 12;

/// A frame that the reader refuses.
pub struct BadFrame {
    pub refusal: u32,
    pub bytes: Vec<u8>,
    /// So many of its bytes tell the refusal; with fewer it is 1.
    told_by: usize,
}

/// Good frames, then a bad one or none, then whatever follows it.
pub struct Stream {
    pub bytes: Vec<u8>,
    frame_lens: Vec<usize>,
    /// The refusal behind the good frames, and how many bytes of the whole stream tell it.
    end: (u32, usize),
}

impl Stream {
    pub fn good(frames: &[Vec<u8>]) -> Stream {
        let bytes = frames.concat();
        Stream {
            frame_lens: frames.iter().map(Vec::len).collect(),
            end: (1, bytes.len()),
            bytes,
        }
    }

    pub fn broken(frames: &[Vec<u8>], bad: &BadFrame, behind: &[Vec<u8>]) -> Stream {
        let mut stream = Stream::good(frames);
        stream.end = (bad.refusal, stream.bytes.len() + bad.told_by);
        stream.bytes.extend_from_slice(&bad.bytes);
        stream.bytes.extend(behind.concat());
        stream
    }

    /// What the paper says of its first `len` bytes.
    pub fn told(&self, len: usize) -> StreamTold {
        let len = len.min(LIMIT);
        let mut end = 0;
        let whole = self.frame_lens.iter().take_while(|&&frame_len| {
            end += frame_len;
            end <= len
        });
        let (refusal, told_by) = self.end;
        StreamTold {
            frame_lens: whole.copied().collect(),
            refusal: if len < told_by { 1 } else { refusal },
        }
    }
}

type Change = fn(&mut Draft);

/// Each refusal that a frame can have, at the least once.
pub fn bad_frames() -> Vec<BadFrame> {
    let made = changes().into_iter().map(|(refusal, change)| {
        let mut draft = Draft::request(1, b"kvs.get", Some(b"payload"));
        change(&mut draft);
        (refusal, draft.bytes())
    });
    let no_part = (6, frame_with(&[]));
    made.chain([no_part])
        .map(|(refusal, bytes)| BadFrame {
            refusal,
            told_by: if refusal <= 3 { 8 } else { bytes.len() },
            bytes,
        })
        .collect()
}

/// What makes a good frame a bad one, with its number.
fn changes() -> [(u32, Change); 20] {
    [
        (1, |draft| draft.body_length = Some(32_768)),
        (2, |draft| draft.magic[0] = 0xFE),
        (2, |draft| draft.magic[3] = 0x13),
        (3, |draft| draft.body_length = Some(32_769)),
        (3, |draft| draft.body_length = Some(u32::MAX)),
        (4, |draft| draft.long_first = true),
        (4, |draft| draft.raw = vec![1]),
        (5, |draft| draft.extra.resize(70, vec![])),
        (6, |draft| draft.header.truncate(19)),
        (20, |draft| draft.header[0] = 0),
        (21, |draft| draft.header[1] = 0),
        (22, |draft| draft.header[2] = 3),
        (23, |draft| draft.header[3] |= 0x80),
        (7, |draft| draft.payload = None),
        (7, |draft| draft.delimiter = false),
        (8, |draft| draft.routes[0][0] = b'A'),
        (8, |draft| *draft = Draft::request(65, b"log", None)),
        (9, |draft| draft.topic = Some(b"kvs".to_vec())),
        (10, |draft| draft.set_field(12, 4_294_967_294)),
        (10, |draft| {
            *draft = Draft::event(b"hb", None);
            draft.set_field(16, 1);
        }),
    ]
}
