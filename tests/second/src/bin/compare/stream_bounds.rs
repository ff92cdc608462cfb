//! Every boundary of the stream reader but its longest inputs, each with the answer that the paper
//! gives.

use crate::draft::Draft;
use crate::reader_bounds::samples;
use crate::stream_calls::{StreamCase, StreamTold};
use crate::stream_parts::{bad_frames, Stream, RECORD};
use crate::tester::Tester;

pub fn run(tester: &mut Tester) {
    tester.begin_group("stream-bounds");
    torn_streams(tester);
    torn_bad_frames(tester);
    bad_frames_between(tester);
    rubbish_behind(tester);
    lost_bytes(tester);
    rooms(tester);
    records(tester);
    empty_slices(tester);
    tester.end_group("");
}

/// Different good frames.
fn frames() -> Vec<Vec<u8>> {
    samples().iter().map(Draft::bytes).collect()
}

/// The first `len` bytes of a stream, with the others right behind the slice.
fn check(
    tester: &mut Tester,
    label: (&'static str, u64, u64),
    stream: &Stream,
    [len, list_len]: [usize; 2],
) {
    let (bytes, behind) = stream.bytes.split_at(len);
    let case = StreamCase {
        bytes,
        behind,
        list_len,
        record_len: RECORD,
    };
    tester.stream_case(label, &case, &stream.told(len));
}

/// A stream cut at each byte lists what is whole, then says 1, even if its list is full by then.
fn torn_streams(tester: &mut Tester) {
    let mut frames = frames();
    for order in 0..2 {
        let stream = Stream::good(&frames);
        for len in 0..=stream.bytes.len() {
            let whole = stream.told(len).frame_lens.len();
            for list_len in [8 * whole, 8 * frames.len(), (8 * whole).saturating_sub(1)] {
                let label = ("torn", order, len as u64);
                check(tester, label, &stream, [len, list_len]);
            }
        }
        frames.reverse();
    }
}

/// A bad frame that is cut is 1 until enough of it is there.
fn torn_bad_frames(tester: &mut Tester) {
    let good = [Draft::control().bytes(), Draft::event(b"hb", None).bytes()];
    for (number, bad) in bad_frames().iter().enumerate() {
        for front in 0..=2 {
            let stream = Stream::broken(&good[..front], bad, &good);
            for len in 0..=stream.bytes.len() {
                let label = ("torn and bad", number as u64, len as u64);
                check(tester, label, &stream, [len, 8 * front]);
            }
        }
    }
}

/// Each bad frame behind each number of good ones, with frames behind it and without, and with
/// lists that end in front of it, at it and behind it. It is told as what it is, room or not.
fn bad_frames_between(tester: &mut Tester) {
    let good = frames();
    for (number, bad) in bad_frames().iter().enumerate() {
        for front in 0..=good.len() {
            for behind in [0, 1, good.len()] {
                let stream = Stream::broken(&good[..front], bad, &good[..behind]);
                let len = stream.bytes.len();
                let full = 8 * front;
                let shorter = [1, 8, 9].map(|less| full.saturating_sub(less));
                for list_len in [full, full + 7, full + 8, full + 80]
                    .into_iter()
                    .chain(shorter)
                {
                    let label = ("bad frame", number as u64, front as u64);
                    check(tester, label, &stream, [len, list_len]);
                }
            }
        }
    }
}

/// Bytes that are no frame: 1 if there are fewer than eight, then 2.
fn rubbish_behind(tester: &mut Tester) {
    let good = frames();
    for byte in [0x00, 0x12, 0xEE, 0xFF] {
        for count in 0..=20 {
            for front in [0, 1, good.len()] {
                let mut stream = Stream::good(&good[..front]);
                let told = StreamTold {
                    refusal: if count < 8 { 1 } else { 2 },
                    ..stream.told(stream.bytes.len())
                };
                stream.bytes.resize(stream.bytes.len() + count, byte);
                let case = StreamCase {
                    bytes: &stream.bytes,
                    behind: &good[0],
                    list_len: 8 * front,
                    record_len: RECORD,
                };
                tester.stream_case(("rubbish", byte as u64, count as u64), &case, &told);
            }
        }
    }
}

/// A frame that has lost its last byte takes the next one's first, FF, in its place: a control
/// message may have it in its status, an event not in the field that it does not use. What is left
/// of the next frame is none. A frame that has lost its first byte is none either.
fn lost_bytes(tester: &mut Tester) {
    let [control, event] = [Draft::control(), Draft::event(b"hb", None)].map(|draft| draft.bytes());
    let [cut_control, cut_event] = [&control, &event].map(|frame| &frame[..frame.len() - 1]);
    let streams = [
        (vec![cut_control, &control, &control], vec![29], 2),
        (vec![cut_event, &event, &event], vec![], 10),
        (vec![&control, cut_event, &event], vec![29], 10),
        (vec![&control, &control[1..], &control], vec![29], 2),
    ];
    for (number, (parts, frame_lens, refusal)) in streams.into_iter().enumerate() {
        let told = StreamTold {
            frame_lens,
            refusal,
        };
        for list_len in [0, 8, 16, 24] {
            let case = StreamCase {
                bytes: &parts.concat(),
                behind: &[],
                list_len,
                record_len: RECORD,
            };
            let label = ("lost byte", number as u64, list_len as u64);
            tester.stream_case(label, &case, &told);
        }
    }
}

/// Lists of each length, too short, just right and too long.
fn rooms(tester: &mut Tester) {
    let frames: Vec<Vec<u8>> = frames().into_iter().cycle().take(40).collect();
    for count in [0, 1, 2, 3, 8, 40] {
        let stream = Stream::good(&frames[..count]);
        for list_len in 0..=8 * count + 9 {
            let label = ("room", count as u64, list_len as u64);
            check(tester, label, &stream, [stream.bytes.len(), list_len]);
        }
    }
}

/// A short record comes first, whatever the stream and its list, and nothing is written.
fn records(tester: &mut Tester) {
    let good = frames();
    let mut streams = vec![Stream::good(&[]), Stream::good(&good[..3])];
    streams.extend(bad_frames().iter().map(|bad| {
        // The good frame in front of it is to be listed.
        Stream::broken(&good[..1], bad, &good[..1])
    }));
    for (number, stream) in streams.iter().enumerate() {
        for record_len in (0..=26).chain([52, 100, 1000]) {
            for list_len in [0, 8, 40] {
                let case = StreamCase {
                    bytes: &stream.bytes,
                    behind: &[],
                    list_len,
                    record_len,
                };
                let label = ("record", number as u64, record_len as u64);
                tester.stream_case(label, &case, &stream.told(stream.bytes.len()));
            }
        }
    }
}

/// Each slice empty, with the others and without, and good frames right behind an empty input.
fn empty_slices(tester: &mut Tester) {
    let good = frames();
    for count in [0, 1, 8] {
        let stream = Stream::good(&good[..count]);
        for list_len in [0, 1, 7, 8, 9, 64] {
            for record_len in [0, 11, 12, 13] {
                let case = StreamCase {
                    bytes: &stream.bytes,
                    behind: &good[1],
                    list_len,
                    record_len,
                };
                let label = ("empty slices", list_len as u64, record_len as u64);
                tester.stream_case(label, &case, &stream.told(stream.bytes.len()));
            }
        }
    }
}
