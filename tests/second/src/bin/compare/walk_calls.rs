//! The walk on both programs.

use std::ops::Range;

use second::calls::WALK_RECORD_LEN;
use second::demand3::Rest;
use second::floor::Tables;
use second::frame::number_at;
use second::sample::OwnedMessage;

use crate::draft::frame_of;
use crate::tester::{front, hex, named, Call, Expect, Tester};

#[derive(Clone, Copy)]
pub struct WalkCase<'a> {
    pub tables: Tables<'a>,
    pub rank: u32,
    pub buffer: &'a [u8],
    pub record_len: usize,
}

/// The library's answer to a walk; the numbers are there unless its record is too short.
pub struct WalkAnswer {
    pub refusal: u32,
    pub numbers: [u32; 6],
    /// Where the buffer lies in the arena.
    pub buffer: Range<usize>,
}

/// What the paper says of a walk.
#[derive(Clone, Debug)]
pub enum WalkTold {
    Rests(Rest),
    /// The refusal, and the rank and the links so far. On no links the buffer stays; behind a
    /// forward it holds this message and zeros.
    Refused(u32, [u32; 2], Option<OwnedMessage>),
    /// Its record is too short, and so nothing is reported.
    NoRecord,
}

impl Tester {
    /// One walk as a case of its own, with all that the paper says of it.
    pub fn walk_case(&mut self, label: (&'static str, u64, u64), case: &WalkCase, told: &WalkTold) {
        self.case(label.0, label.1, label.2, |tester| {
            let (refusal, numbers) = match told {
                WalkTold::Rests(rest) => (0, rest.numbers),
                WalkTold::Refused(refusal, [rank, links], _) => {
                    (*refusal, [0, 0, 0, 0, *rank, *links])
                }
                WalkTold::NoRecord => (11, [0; 6]),
            };
            let answer = tester.walk(case, Expect::Number(refusal));
            tester.require(answer.numbers == numbers, || {
                format!("{:?} in the record for {numbers:?}", answer.numbers)
            });
            let left = &tester.arena.after[0][answer.buffer];
            let right = match told {
                WalkTold::Rests(rest) => rest.is_in(case.buffer, left),
                WalkTold::Refused(_, _, Some(message)) => {
                    let mut buffer = frame_of(&message.lent());
                    buffer.resize(left.len(), 0);
                    left == buffer
                }
                _ => left == case.buffer,
            };
            let shown = if right { String::new() } else { hex(left) };
            tester.require(right, || format!("{shown} left in the buffer"));
        });
    }

    pub fn walk(&mut self, case: &WalkCase, expect: Expect) -> WalkAnswer {
        let entry = case.rank;
        self.arena.start();
        let tree = self.arena.lend(case.tables.tree, &[0; 4]);
        let services = self.arena.lend(case.tables.services, &[]);
        let identities = self.arena.lend(case.tables.identities, &[]);
        let buffer = self.arena.lend(case.buffer, &[]);
        let record = self.arena.lend_room(case.record_len);
        self.arena.seal();
        let slices = [&tree, &services, &identities, &buffer, &record];
        let refusals = self.on_both(slices, |side, lent| {
            let [tree, services, identities, buffer, record] = lent;
            let tables = Tables {
                tree,
                services,
                identities,
            };
            side.walk(tables, entry, buffer, record)
        });
        let written = [0, 1].map(|side| self.walk_may_write(side, &buffer, &record));
        self.judge_all(refusals, expect, [&written[0], &written[1]], || Call {
            name: "lampreycoil_walk",
            numbers: format!("rank {entry}"),
            inputs: named(
                ["tree", "services", "identities"],
                [&tree, &services, &identities],
            ),
            rooms: named(["buffer", "record"], [&buffer, &record]),
        });
        let answer = WalkAnswer {
            refusal: refusals[0],
            numbers: self.walk_numbers(0, &record),
            buffer,
        };
        // Only a first step can find a frame that is not good.
        self.fault_in_buffer(case.buffer, answer.refusal);
        answer
    }

    /// All zero if the record is too short.
    fn walk_numbers(&self, side: usize, record: &Range<usize>) -> [u32; 6] {
        if record.len() < WALK_RECORD_LEN {
            return [0; 6];
        }
        let left = &self.arena.after[side][record.clone()];
        std::array::from_fn(|place| number_at(left, 4 * place))
    }

    /// The record, refused or not, and the buffer if some step was a forward or the last one made an
    /// error reply. Nothing if the record is too short.
    fn walk_may_write(
        &self,
        side: usize,
        buffer: &Range<usize>,
        record: &Range<usize>,
    ) -> Vec<Range<usize>> {
        let record_front = front(record, WALK_RECORD_LEN);
        match self.walk_numbers(side, record) {
            _ if record.len() < WALK_RECORD_LEN => Vec::new(),
            [0 | 1 | 4 | 5, .., 0] => vec![record_front],
            _ => vec![buffer.clone(), record_front],
        }
    }
}
