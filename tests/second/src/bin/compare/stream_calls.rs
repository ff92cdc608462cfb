//! The stream reader on both programs.

use std::ops::Range;

use second::calls::STREAM_RECORD_LEN;
use second::frame::number_at;
use second::stream::{ENTRY_LEN, MAX_STREAM};

use crate::tester::{front, named, Call, Expect, Tester};

pub struct StreamCase<'a> {
    pub bytes: &'a [u8],
    /// Lies right behind the slice, outside of it.
    pub behind: &'a [u8],
    pub list_len: usize,
    pub record_len: usize,
}

/// The library's answer to a stream; all but the refusal is there unless its record is too short.
#[derive(Debug, PartialEq, Eq)]
pub struct StreamAnswer {
    pub refusal: u32,
    /// Start and length of each frame listed.
    pub entries: Vec<[u32; 2]>,
    /// Entries written, the refusal that stopped it, and where.
    pub numbers: [u32; 3],
}

impl StreamAnswer {
    /// That of a record that is too short.
    pub const NOTHING: StreamAnswer = StreamAnswer {
        refusal: 11,
        entries: Vec::new(),
        numbers: [0; 3],
    };

    /// The answer in a few words: a list may be long.
    pub fn shown(&self) -> String {
        let last = self.entries.last();
        let StreamAnswer {
            refusal, numbers, ..
        } = self;
        format!("{refusal}, {numbers:?} in the record and {last:?} as the last entry")
    }
}

/// What the paper says of a stream, whatever its list: the lengths of the good frames that it
/// begins with, and the refusal of what comes next.
#[derive(Clone)]
pub struct StreamTold {
    pub frame_lens: Vec<usize>,
    pub refusal: u32,
}

impl StreamTold {
    /// With a list of that length, 11 comes in place of a good frame for which there is no room.
    pub fn answer(&self, list_len: usize) -> StreamAnswer {
        let room = list_len / ENTRY_LEN;
        let refusal = match self.frame_lens.len() > room {
            true => 11,
            false => self.refusal,
        };
        let mut start = 0;
        let mut entries = Vec::new();
        for &len in self.frame_lens.iter().take(room) {
            entries.push([start, len as u32]);
            start += len as u32;
        }
        StreamAnswer {
            refusal: 0,
            numbers: [entries.len() as u32, refusal, start],
            entries,
        }
    }
}

impl Tester {
    /// One stream as a case of its own, with all that the paper says of it.
    pub fn stream_case(
        &mut self,
        label: (&'static str, u64, u64),
        case: &StreamCase,
        told: &StreamTold,
    ) {
        self.case(label.0, label.1, label.2, |tester| {
            let right = match case.record_len < STREAM_RECORD_LEN {
                true => StreamAnswer::NOTHING,
                false => told.answer(case.list_len),
            };
            let answer = tester.stream(case, Expect::Number(right.refusal));
            tester.require(answer == right, || {
                format!("{} for {}", answer.shown(), right.shown())
            });
        });
    }

    pub fn stream(&mut self, case: &StreamCase, expect: Expect) -> StreamAnswer {
        self.arena.start();
        let bytes = self.arena.lend(case.bytes, case.behind);
        let list = self.arena.lend_room(case.list_len);
        let record = self.arena.lend_room(case.record_len);
        self.arena.seal();
        let refusals = self.on_both([&bytes, &list, &record], |side, [bytes, list, record]| {
            side.read_stream(bytes, list, record)
        });
        let written = [0, 1].map(|side| {
            let entries = self.number_in(side, &record);
            let listed = front(&list, ENTRY_LEN * entries);
            [listed, front(&record, STREAM_RECORD_LEN)]
        });
        self.judge(refusals, expect, [&written[0], &written[1]], || Call {
            name: "lampreycoil_read_stream",
            numbers: String::new(),
            inputs: named(["bytes"], [&bytes]),
            rooms: named(["list", "record"], [&list, &record]),
        });
        if refusals[0] != 0 || record.len() < STREAM_RECORD_LEN {
            return StreamAnswer {
                refusal: refusals[0],
                ..StreamAnswer::NOTHING
            };
        }
        let answer = self.stream_answer(&written[0]);
        self.fault_at_the_stop(case.bytes, &answer);
        answer
    }

    /// What a stream stops at is refused alike by itself, unless there was no room for it.
    fn fault_at_the_stop(&mut self, bytes: &[u8], answer: &StreamAnswer) {
        let [_, refusal, start] = answer.numbers;
        let bytes = &bytes[..bytes.len().min(MAX_STREAM)];
        if let Some(rest) = bytes.get(start as usize..) {
            self.fault_of(rest, if refusal == 11 { 0 } else { refusal });
        }
    }

    /// What the library left in its list and in its record.
    fn stream_answer(&self, [listed, record]: &[Range<usize>; 2]) -> StreamAnswer {
        let [listed, record] = [listed, record].map(|range| &self.arena.after[0][range.clone()]);
        let entry = |bytes: &[u8]| [number_at(bytes, 0), number_at(bytes, 4)];
        StreamAnswer {
            refusal: 0,
            entries: listed.chunks_exact(ENTRY_LEN).map(entry).collect(),
            numbers: [0, 4, 8].map(|at| number_at(record, at)),
        }
    }
}
