//! Streams, lists and records of more than 4 GiB. What lies behind the front of them is looked at
//! once all calls are made.

use second::side::{Side, LIBRARY, SECOND};

use crate::draft::Draft;
use crate::long_lengths::{ABOVE, FRONT};
use crate::pages::Repeated;
use crate::tester::{hex, Tester};

/// The slice that is long.
#[derive(Clone, Copy)]
enum Long {
    Bytes,
    List,
    Record,
}

/// What a call answered, and the front of its list and of its record.
#[derive(PartialEq)]
struct Left {
    answer: u32,
    list: Vec<u8>,
    record: Vec<u8>,
}

/// Lengths that are small, or none, if they are cut to 32 bits.
pub fn run(tester: &mut Tester, memory: &mut Repeated) {
    for (number, long) in [Long::Bytes, Long::List, Long::Record]
        .into_iter()
        .enumerate()
    {
        for len in [1 << 32, (1 << 32) + 5, ABOVE] {
            for side in [LIBRARY, SECOND] {
                tester.case("stream", len as u64, number as u64, |tester| {
                    check(tester, memory, side, long, len);
                });
            }
        }
    }
}

/// Two good frames; behind them there is nothing, or the pattern, which is no frame.
fn check(tester: &mut Tester, memory: &mut Repeated, side: Side, long: Long, len: usize) {
    let frames = [Draft::control().bytes(), Draft::event(b"hb", None).bytes()];
    let bytes = frames.concat();
    memory.restore(FRONT);
    // Lists and records of the tests' own begin like the long ones.
    let kept = memory.bytes()[..24].to_vec();
    let left = call(memory, side, long, len, &bytes);
    tester.count(left.answer);
    let refusal = if matches!(long, Long::Bytes) { 2 } else { 1 };
    let lens = [&frames[0], &frames[1], &bytes].map(|bytes| bytes.len() as u32);
    let entries = [0, lens[0], lens[0], lens[1]].map(u32::to_be_bytes);
    let numbers = [2, refusal, lens[2]].map(u32::to_be_bytes);
    let right = Left {
        answer: 0,
        list: [&entries.concat(), &kept[16..]].concat(),
        record: [&numbers.concat(), &kept[12..]].concat(),
    };
    tester.require(left == right, || {
        let (list, record) = (hex(&left.list), hex(&left.record));
        format!("{} answered {}: {list}, {record}", side.name, left.answer)
    });
}

fn call(memory: &mut Repeated, side: Side, long: Long, len: usize, bytes: &[u8]) -> Left {
    let kept = memory.bytes()[..24].to_vec();
    let (mut list, mut record) = (kept.clone(), kept);
    let memory = &mut memory.bytes()[..len];
    let answer = match long {
        Long::Bytes => {
            memory[..bytes.len()].copy_from_slice(bytes);
            side.read_stream(memory, &mut list, &mut record)
        }
        Long::List => {
            let answer = side.read_stream(bytes, memory, &mut record);
            list.copy_from_slice(&memory[..24]);
            answer
        }
        Long::Record => {
            let answer = side.read_stream(bytes, &mut list, memory);
            record.copy_from_slice(&memory[..24]);
            answer
        }
    };
    Left {
        answer,
        list,
        record,
    }
}
