//! The second program's stream reader by itself.

use crate::calls::read_stream_call;
use crate::demand3::frame_of;
use crate::frame::{number_at, Header, Refusal};
use crate::sample::{route, OwnedMessage, Rng};
use crate::stream::{read_stream, StreamStop, MAX_STREAM};

/// A control message without routes, or a request with so many.
fn frame(routes: usize) -> Vec<u8> {
    let routed = routes > 0;
    let message = OwnedMessage {
        header: Header {
            kind: if routed { 1 } else { 8 },
            flags: if routed { 0x09 } else { 0x00 },
            userid: 1,
            rolemask: 2,
            first: 3,
            second: 4,
        },
        routes: (0..routes as u64)
            .flat_map(|seed| route(&mut Rng::new(seed)))
            .collect(),
        topic: if routed { b"kvs".to_vec() } else { Vec::new() },
        payload: Vec::new(),
    };
    frame_of(&message.lent())
}

fn stop(entries: usize, refusal: Refusal, start: usize) -> StreamStop {
    StreamStop {
        entries,
        refusal,
        start,
    }
}

#[test]
fn a_torn_stream_lists_what_is_whole() {
    let frames = [frame(0), frame(2), frame(0), frame(1)];
    let bytes = frames.concat();
    let ends: Vec<usize> = (0..=4)
        .map(|count| frames[..count].concat().len())
        .collect();
    for len in 0..=bytes.len() {
        let whole = ends.iter().filter(|&&end| end <= len).count() - 1;
        let mut list = [0xA7; 40];
        let stopped = read_stream(&bytes[..len], &mut list);
        assert_eq!(stopped, stop(whole, Refusal::TooFewBytes, ends[whole]));
        for number in 0..whole {
            assert_eq!(number_at(&list, 8 * number) as usize, ends[number]);
            let frame_len = number_at(&list, 8 * number + 4) as usize;
            assert_eq!(frame_len, frames[number].len());
        }
        assert!(list[8 * whole..].iter().all(|&byte| byte == 0xA7));
    }
}

#[test]
fn only_a_good_frame_asks_for_room() {
    let good = [frame(0), frame(1)].concat();
    let bad = [&good[..], b"no frame"].concat();
    for list_len in 0..=24 {
        let room = list_len / 8;
        let mut list = vec![0; list_len];
        let full = stop(room, Refusal::OutputTooShort, [0, 29][room.min(1)]);
        let ended = stop(2, Refusal::TooFewBytes, good.len());
        let right = if room < 2 { full } else { ended };
        assert_eq!(read_stream(&good, &mut list), right);
        let refused = stop(2, Refusal::WrongMagic, good.len());
        let right = if room < 2 { full } else { refused };
        assert_eq!(read_stream(&bad, &mut list), right);
    }
}

#[test]
fn what_lies_past_the_limit_is_absent() {
    let bytes = frame(0).repeat(36_158);
    let mut list = vec![0; bytes.len()];
    let right = stop(36_157, Refusal::TooFewBytes, 36_157 * 29);
    for len in [36_157 * 29, MAX_STREAM - 1, MAX_STREAM, bytes.len()] {
        assert_eq!(read_stream(&bytes[..len], &mut list), right);
    }
}

#[test]
fn a_short_record_writes_nothing() {
    let bytes = frame(1);
    for record_len in 0..12 {
        let (mut list, mut record) = ([0xA7; 8], vec![0xA7; record_len]);
        assert_eq!(read_stream_call(&bytes, &mut list, &mut record), 11);
        assert!(list.iter().chain(&record).all(|&byte| byte == 0xA7));
    }
    let (mut list, mut record) = ([0; 8], [0xA7; 13]);
    assert_eq!(read_stream_call(&bytes, &mut list, &mut record), 0);
    let numbers = [0, 4, 8].map(|at| number_at(&record, at));
    assert_eq!(numbers, [1, 1, bytes.len() as u32]);
    assert_eq!(record[12], 0xA7);
}
