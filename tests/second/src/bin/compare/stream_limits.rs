//! Streams about as long as a stream can be, and longer: what lies past the limit counts as absent.

use second::frame::number_at;
use second::side::LIBRARY;

use crate::draft::Draft;
use crate::stream_calls::StreamCase;
use crate::stream_parts::{bad_frames, Stream, LIMIT, RECORD};
use crate::tester::Tester;

const LARGEST: usize = 32_776;
/// As many control messages as there is room for in front of the limit, and the list for them.
const MOST: usize = 36_157;
const MOST_LIST: usize = 289_256;

pub fn run(tester: &mut Tester) {
    tester.begin_group("stream-limits");
    most_frames(tester);
    largest_frames(tester);
    frames_at_the_limit(tester);
    bad_frames_at_the_limit(tester);
    far_past_the_limit(tester);
    several_calls(tester);
    tester.end_group("");
}

fn check(
    tester: &mut Tester,
    label: (&'static str, u64, u64),
    stream: &Stream,
    [len, list_len]: [usize; 2],
) {
    let case = StreamCase {
        bytes: &stream.bytes[..len],
        behind: &[],
        list_len,
        record_len: RECORD,
    };
    tester.stream_case(label, &case, &stream.told(len));
}

/// A control message that differs from number to number.
fn control(number: usize) -> Vec<u8> {
    let mut draft = Draft::control();
    draft.set_field(16, number as u32);
    draft.bytes()
}

/// A request of so many bytes, 295 or more, whose payload would be good frames.
fn request(len: usize) -> Vec<u8> {
    let mut payload = Draft::control().bytes().repeat(len / 29);
    payload.truncate(len - 40);
    Draft::request(0, b"log", Some(&payload)).bytes()
}

/// Good frames of so many bytes together, as few as can be.
fn requests(len: usize) -> Vec<Vec<u8>> {
    let mut frames = Vec::new();
    let mut left = len;
    while left > 0 {
        // What is left must again be enough for a frame.
        let take = match left <= LARGEST {
            true => left,
            false => LARGEST.min(left - 295),
        };
        frames.push(request(take));
        left -= take;
    }
    frames
}

/// The most frames that a stream can have, and inputs that seem to have one more.
fn most_frames(tester: &mut Tester) {
    let frames: Vec<Vec<u8>> = (0..MOST + 50).map(control).collect();
    let stream = Stream::good(&frames);
    let whole = MOST * 29;
    for len in [
        whole - 29,
        whole - 1,
        whole,
        whole + 1,
        LIMIT - 1,
        LIMIT,
        LIMIT + 1,
        whole + 29,
        stream.bytes.len(),
    ] {
        for list_len in [
            0,
            MOST_LIST - 8,
            MOST_LIST - 1,
            MOST_LIST,
            MOST_LIST + 1,
            MOST_LIST + 8,
            MOST_LIST + 400,
        ] {
            let label = ("most frames", len as u64, list_len as u64);
            check(tester, label, &stream, [len, list_len]);
        }
    }
}

/// 31 of the largest frames lie in front of the limit, and most of one more.
fn largest_frames(tester: &mut Tester) {
    for count in [1, 2, 30, 31, 32, 33] {
        let stream = Stream::good(&vec![request(LARGEST); count]);
        let len = stream.bytes.len();
        for room in [0, 1, 29, 30, 31, 32, 33] {
            for list_len in [8 * room, 8 * room + 7] {
                let label = ("largest frames", count as u64, list_len as u64);
                check(tester, label, &stream, [len, list_len]);
            }
        }
    }
}

/// A frame that ends in front of the limit, at it, or past it, up to all of the frame, with more
/// behind it.
fn frames_at_the_limit(tester: &mut Tester) {
    for last in [29, 1024, LARGEST] {
        let near = [
            LIMIT - 29,
            LIMIT - 2,
            LIMIT - 1,
            LIMIT,
            LIMIT + 1,
            LIMIT + 2,
        ];
        let across = [last / 2, last - 9, last - 8, last - 7, last - 1, last];
        for end in near.into_iter().chain(across.map(|past| LIMIT + past)) {
            let mut frames = requests(end - last);
            frames.push(if last == 29 {
                control(1)
            } else {
                request(last)
            });
            frames.extend([control(2), request(500), control(3)]);
            let stream = Stream::good(&frames);
            let all = stream.bytes.len();
            for len in [LIMIT - 1, LIMIT, LIMIT + 1, end - 1, end, end + 29, all] {
                let whole = stream.told(len).frame_lens.len();
                let label = ("at the limit", end as u64, len as u64);
                check(tester, label, &stream, [len, 8 * whole]);
            }
            let whole = stream.told(all).frame_lens.len();
            for list_len in [8 * whole - 1, 8 * frames.len()] {
                let label = ("at the limit, room", end as u64, list_len as u64);
                check(tester, label, &stream, [all, list_len]);
            }
        }
    }
}

/// A bad frame there is told as long as enough of it lies in front of the limit.
fn bad_frames_at_the_limit(tester: &mut Tester) {
    for (number, bad) in bad_frames().iter().enumerate() {
        let len = bad.bytes.len();
        for before in [0, 1, 7, 8, 9, len - 1, len, len + 1] {
            let frames = requests(LIMIT - before);
            let stream = Stream::broken(&frames, bad, &[control(1), request(500)]);
            let label = ("bad at the limit", number as u64, before as u64);
            let lens = [stream.bytes.len(), 8 * frames.len()];
            check(tester, label, &stream, lens);
        }
    }
}

/// Half as much again, and a list that has room for all of it.
fn far_past_the_limit(tester: &mut Tester) {
    for (number, front) in [LIMIT - 295, LIMIT - 1, LIMIT, LIMIT + 1]
        .into_iter()
        .enumerate()
    {
        let mut frames = requests(front);
        frames.extend((0..300).map(control));
        frames.extend(requests(500_000));
        let stream = Stream::good(&frames);
        let lens = [stream.bytes.len(), 8 * frames.len()];
        let label = ("far past the limit", number as u64, front as u64);
        check(tester, label, &stream, lens);
    }
}

/// A stream of twice the limit and more, in several calls: each goes on where the last one stopped,
/// until that is the end. All its frames come, each once.
fn several_calls(tester: &mut Tester) {
    let mut frames: Vec<Vec<u8>> = (0..3000).map(control).collect();
    frames.extend(requests(2 * LIMIT));
    frames.extend((0..3000).map(control));
    let bytes = frames.concat();
    for list_len in [8, 9, 1000, MOST_LIST] {
        let mut list = vec![0; list_len];
        tester.case("several calls", list_len as u64, 0, |tester| {
            let (mut start, mut record) = (0, [0; RECORD]);
            let mut lens = Vec::new();
            while start < bytes.len() {
                let answer = LIBRARY.read_stream(&bytes[start..], &mut list, &mut record);
                tester.count(answer);
                let [count, stop] = [0, 8].map(|at| number_at(&record, at) as usize);
                // Without an entry, or a byte further on, it would never end.
                if answer != 0 || stop == 0 || !(1..=list_len / 8).contains(&count) {
                    break;
                }
                lens.extend((0..count).map(|entry| number_at(&list, 8 * entry + 4) as usize));
                start += stop;
            }
            let right = lens.iter().copied().eq(frames.iter().map(Vec::len));
            tester.require(right && start == bytes.len(), || {
                format!("{} frames, and it ends at {start}", lens.len())
            });
        });
    }
}
