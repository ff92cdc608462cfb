//! Seeded streams: good frames, some with damage, rubbish or a cut, and lists that are too short.
//! What the library lists must be what its own reader says, called again on what remains.

use second::frame::number_at;
use second::sample::Rng;
use second::side::LIBRARY;

use crate::draft::frame_of;
use crate::messages::{right, spoil};
use crate::seeded::{damage, repair_front, Run};
use crate::stream_calls::{StreamAnswer, StreamCase};
use crate::stream_parts::{Stream, LIMIT, RECORD};
use crate::tester::{Expect, Tester};

/// What the streams came to.
#[derive(Default)]
struct Count {
    frames: u64,
    long: u64,
    /// By the refusal that stopped them.
    stops: [u64; 24],
}

pub fn streams(tester: &mut Tester, run: &Run) {
    tester.begin_group("streams");
    tester.set_hint(format!("compare --seed {} --group streams", run.seed));
    let mut count = Count::default();
    for number in run.from..run.from + run.cases {
        let mut rng = Rng::for_case(run.seed, "streams", number);
        tester.case("case", number, run.seed, |tester| {
            seeded_stream(tester, &mut rng, &mut count)
        });
    }
    let stops: Vec<String> = (0..count.stops.len())
        .filter(|&refusal| count.stops[refusal] > 0)
        .map(|refusal| format!("{refusal}: {}", count.stops[refusal]))
        .collect();
    tester.end_group(&format!(
        "seed {}; {} frames listed, {} streams past the limit; stopped with {}",
        run.seed,
        count.frames,
        count.long,
        stops.join(", ")
    ));
}

fn seeded_stream(tester: &mut Tester, rng: &mut Rng, count: &mut Count) {
    let mut frames = frames(rng);
    let spoiled = !frames.is_empty() && rng.once_in(2);
    if spoiled {
        let at = rng.below(frames.len());
        spoil_frame(rng, &mut frames[at]);
    }
    let stream = Stream::good(&frames);
    let len = match rng.below(3) {
        0 => rng.below(stream.bytes.len() + 1),
        _ => stream.bytes.len(),
    };
    let (bytes, rest) = stream.bytes.split_at(len);
    let case = StreamCase {
        bytes,
        behind: if rng.once_in(2) { rest } else { &[] },
        list_len: list_len(rng, frames.len()),
        record_len: match rng.once_in(64) {
            true => rng.below(RECORD),
            false => rng.between(RECORD, 20),
        },
    };
    // What the frames put there come to; of a spoiled one nobody knows.
    let right = (!spoiled).then(|| stream.told(len).answer(case.list_len));
    check(tester, &case, right, count);
}

fn check(tester: &mut Tester, case: &StreamCase, right: Option<StreamAnswer>, count: &mut Count) {
    let short = case.record_len < RECORD;
    let answer = tester.stream(case, Expect::Number(if short { 11 } else { 0 }));
    if short {
        return;
    }
    if let Some(right) = right {
        same(tester, &answer, &right, "the frames put there");
    }
    let by_reads = by_reads(case.bytes, case.list_len);
    same(tester, &answer, &by_reads, "single reads");
    one_after_another(tester, case.bytes, &answer);
    count.frames += answer.entries.len() as u64;
    count.long += (case.bytes.len() > LIMIT) as u64;
    count.stops[answer.numbers[1].min(23) as usize] += 1;
}

/// A few frames, now and then many, or more than a stream can have.
fn frames(rng: &mut Rng) -> Vec<Vec<u8>> {
    let count = match rng.below(8000) {
        0 => usize::MAX,
        1..=80 => rng.between(20, 60),
        81..=400 => 0,
        _ => rng.between(1, 6),
    };
    let (mut frames, mut len) = (Vec::new(), 0);
    while frames.len() < count && len < LIMIT + 40_000 {
        let frame = frame_of(&right(rng).lent());
        len += frame.len();
        frames.push(frame);
    }
    frames
}

/// Changes a frame, or what lies in front of it. It may still be good.
fn spoil_frame(rng: &mut Rng, frame: &mut Vec<u8>) {
    match rng.below(8) {
        0 => {
            let len = rng.between(1, 40);
            let rubbish = rng.bytes(len);
            frame.splice(..0, rubbish);
        }
        1 => {
            let mut message = right(rng);
            spoil(rng, &mut message);
            *frame = frame_of(&message.lent());
        }
        2..=4 => damage(rng, frame),
        _ => {
            damage(rng, frame);
            repair_front(frame);
        }
    }
}

/// Mostly with room for all frames.
fn list_len(rng: &mut Rng, frames: usize) -> usize {
    match rng.below(8) {
        0 => rng.below(8 * frames + 8),
        1 => 8 * rng.below(frames + 1),
        2 => (8 * frames).saturating_sub(rng.between(1, 8)),
        3 => 8 * frames,
        _ => 8 * frames + rng.below(40),
    }
}

fn same(tester: &mut Tester, answer: &StreamAnswer, right: &StreamAnswer, whose: &str) {
    tester.require(answer == right, || {
        format!("{} for {} of {whose}", answer.shown(), right.shown())
    });
}

/// What the paper makes of the library's single reads.
fn by_reads(bytes: &[u8], list_len: usize) -> StreamAnswer {
    let bytes = &bytes[..bytes.len().min(LIMIT)];
    let mut entries = Vec::new();
    let mut start = 0;
    let refusal = loop {
        let mut record = [0; 52];
        match LIBRARY.read(&bytes[start..], &mut record) {
            0 if entries.len() == list_len / 8 => break 11,
            0 => {}
            refusal => break refusal,
        }
        let frame_len = number_at(&record, 0);
        if frame_len == 0 {
            // No frame is: it would never end.
            break 0;
        }
        entries.push([start as u32, frame_len]);
        start += frame_len as usize;
    };
    StreamAnswer {
        refusal: 0,
        numbers: [entries.len() as u32, refusal, start as u32],
        entries,
    }
}

/// The listed frames, each behind the other, are the input up to the stop, and the library reads
/// each of them alone.
fn one_after_another(tester: &mut Tester, bytes: &[u8], answer: &StreamAnswer) {
    let mut at = 0;
    for &[start, len] in &answer.entries {
        let frame = bytes.get(at..at + len as usize).unwrap_or(&[]);
        let mut record = [0; 52];
        let refusal = LIBRARY.read(frame, &mut record);
        let took = number_at(&record, 0);
        tester.require(start as usize == at && refusal == 0 && took == len, || {
            format!("the entry {start}, {len} at byte {at}; read alone {refusal}, {took} bytes")
        });
        at += len as usize;
    }
    let stop = answer.numbers[2] as usize;
    tester.require(stop == at, || format!("it stopped at {stop}, not at {at}"));
}
