//! The calls that answer with two numbers in their record, refused or not, on both programs.

use second::frame::number_at;
use second::side::Side;

use crate::tester::{front, named, Call, Expect, ReadCase, Tester};

/// Bytes of the record.
pub const RECORD: usize = 8;

/// One of these calls, with the name of what it reads.
pub struct TwoNumbers {
    pub name: &'static str,
    pub input: &'static str,
    pub call: fn(&Side, &[u8], &mut [u8]) -> u32,
}

/// What a program answered; the numbers are only there if the record has room for them.
#[derive(Clone, Copy, Debug, PartialEq, Eq)]
pub struct Answer {
    pub refusal: u32,
    pub numbers: [u32; 2],
}

impl Answer {
    /// That of a record that is too short.
    pub const NOTHING: Answer = Answer {
        refusal: 11,
        numbers: [0; 2],
    };

    /// What must be answered: that of a short record comes before what is told of the bytes.
    pub fn due(record_len: usize, told: Option<Answer>) -> Option<Answer> {
        match record_len < RECORD {
            true => Some(Answer::NOTHING),
            false => told,
        }
    }

    fn in_record(refusal: u32, record: &[u8]) -> Answer {
        Answer {
            refusal,
            numbers: [0, 4].map(|at| number_at(record, at)),
        }
    }
}

impl TwoNumbers {
    /// What one program answers, without guards.
    pub fn answer_of(&self, side: &Side, bytes: &[u8]) -> Answer {
        // Rubbish, so that a number that is not written is seen.
        let mut record = [0xA7; RECORD];
        let refusal = (self.call)(side, bytes, &mut record);
        Answer::in_record(refusal, &record)
    }
}

impl Tester {
    /// The call on both programs. Its refusal must be that of `right`, if that is known; the
    /// numbers are the caller's to look at.
    pub fn two_numbers(
        &mut self,
        call: &TwoNumbers,
        case: &ReadCase,
        right: Option<Answer>,
    ) -> Answer {
        self.arena.start();
        let bytes = self.arena.lend(case.bytes, case.behind);
        let record = self.arena.lend_room(case.record_len);
        self.arena.seal();
        let refusals = self.on_both([&bytes, &record], |side, [bytes, record]| {
            (call.call)(side, bytes, record)
        });
        let written = match case.record_len < RECORD {
            true => vec![],
            false => vec![front(&record, RECORD)],
        };
        let expect = right.map_or(Expect::Agreed, |right| Expect::Number(right.refusal));
        self.judge_all(refusals, expect, [&written, &written], || Call {
            name: call.name,
            numbers: String::new(),
            inputs: named([call.input], [&bytes]),
            rooms: named(["record"], [&record]),
        });
        match case.record_len < RECORD {
            true => Answer::NOTHING,
            false => Answer::in_record(refusals[0], &self.arena.after[0][record]),
        }
    }
}
