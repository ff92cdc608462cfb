//! The step on both programs, and what the paper says of it, told apart from either.

use std::ops::Range;

use second::calls::STEP_RECORD_LEN;
use second::floor::Tables;
use second::frame::{number_at, Header};
use second::sample::{OwnedMessage, OwnedTables};

use crate::draft::frame_of;
use crate::tester::{front, hex, named, Call, Expect, Tester};

#[derive(Clone, Copy)]
pub struct StepCase<'a> {
    pub tables: Tables<'a>,
    pub rank: u32,
    pub buffer: &'a [u8],
    pub record_len: usize,
}

/// The library's answer to a step; the numbers are only there if it accepted.
pub struct StepAnswer {
    pub refusal: u32,
    pub numbers: [u32; 4],
    /// Where the buffer lies in the arena.
    pub buffer: Range<usize>,
}

/// What the paper says of a step.
#[derive(Clone, Debug)]
pub enum Told {
    Refused(u32),
    /// Answer, its number and the error number; the buffer stays.
    Kept([u32; 3]),
    /// The same, with the message whose frame is now in the buffer, and zeros behind it.
    Made([u32; 3], OwnedMessage),
}

impl Tester {
    /// One step as a case of its own, with all that the paper says of it.
    pub fn step_case(&mut self, label: (&'static str, u64, u64), case: &StepCase, told: &Told) {
        self.case(label.0, label.1, label.2, |tester| {
            tester.step_told(case, told);
        });
    }

    /// One step, with all that the paper says of it.
    pub fn step_told(&mut self, case: &StepCase, told: &Told) -> StepAnswer {
        let (numbers, buffer) = match told {
            Told::Refused(number) => return self.step(case, Expect::Number(*number)),
            Told::Kept(numbers) => (numbers, case.buffer.to_vec()),
            Told::Made(numbers, message) => {
                let mut buffer = frame_of(&message.lent());
                buffer.resize(case.buffer.len(), 0);
                (numbers, buffer)
            }
        };
        let answer = self.step(case, Expect::Number(0));
        let frame_len = 8 + number_at(&buffer, 4);
        let right = [numbers[0], numbers[1], numbers[2], frame_len];
        self.require(answer.numbers == right, || {
            format!("{:?} in the record for {right:?}", answer.numbers)
        });
        if self.arena.after[0][answer.buffer.clone()] != buffer {
            let left = hex(&self.arena.after[0][answer.buffer.clone()]);
            self.require(false, || format!("{left} left for {}", hex(&buffer)));
        }
        answer
    }

    pub fn step(&mut self, case: &StepCase, expect: Expect) -> StepAnswer {
        let rank = case.rank;
        self.arena.start();
        let tree = self.arena.lend(case.tables.tree, &[0; 4]);
        let services = self.arena.lend(case.tables.services, &[]);
        let identities = self.arena.lend(case.tables.identities, &[]);
        let buffer = self.arena.lend(case.buffer, &[]);
        let record = self.arena.lend_room(case.record_len);
        self.arena.seal();
        let slices = [&tree, &services, &identities, &buffer, &record];
        let refusals = self.on_both(slices, |side, lent| {
            let [tree, services, identities, buffer, record] = lent;
            let tables = Tables {
                tree,
                services,
                identities,
            };
            side.step(tables, rank, buffer, record)
        });
        let written = [0, 1].map(|side| self.step_may_write(side, &buffer, &record));
        self.judge(refusals, expect, [&written[0], &written[1]], || Call {
            name: "lampreycoil_step",
            numbers: format!("rank {rank}"),
            inputs: named(
                ["tree", "services", "identities"],
                [&tree, &services, &identities],
            ),
            rooms: named(["buffer", "record"], [&buffer, &record]),
        });
        let answer = self.step_answer(refusals[0], buffer, record);
        self.fault_in_buffer(case.buffer, answer.refusal);
        answer
    }

    fn step_answer(
        &mut self,
        refusal: u32,
        buffer: Range<usize>,
        record: Range<usize>,
    ) -> StepAnswer {
        let mut answer = StepAnswer {
            refusal,
            numbers: [0; 4],
            buffer,
        };
        if answer.refusal == 0 && record.len() >= STEP_RECORD_LEN {
            let left = &self.arena.after[0][record];
            answer.numbers = std::array::from_fn(|place| number_at(left, 4 * place));
            self.step_is_whole(&answer);
        }
        answer
    }

    /// What a broker refuses with one of the reader's numbers the reader refuses alike.
    pub fn fault_in_buffer(&mut self, buffer: &[u8], refusal: u32) {
        if matches!(refusal, 1..=10 | 20..=23) {
            self.fault_of(buffer, refusal);
        }
    }

    /// The buffer only if the answer is a forward or an error reply.
    fn step_may_write(
        &self,
        side: usize,
        buffer: &Range<usize>,
        record: &Range<usize>,
    ) -> Vec<Range<usize>> {
        let record_front = front(record, STEP_RECORD_LEN);
        match self.number_in(side, record) {
            2 | 3 => vec![buffer.clone(), record_front],
            _ => vec![record_front],
        }
    }

    /// What holds of every answer: its numbers, the frame's length and the zeros behind it.
    fn step_is_whole(&mut self, answer: &StepAnswer) {
        let [kind, number, error, frame_len] = answer.numbers;
        let left = &self.arena.after[0][answer.buffer.clone()];
        let told_len = match left.len() {
            0..8 => 0,
            _ => 8 + number_at(left, 4),
        };
        let behind = left.get(frame_len as usize..).unwrap_or(&[]);
        let cleared = !matches!(kind, 2 | 3) || behind.iter().all(|&byte| byte == 0);
        let numbers_fit = match kind {
            1 | 2 => error == 0,
            3 | 4 => number == 0 && matches!(error, 38 | 113),
            5 => number == 0 && error == 0,
            _ => false,
        };
        self.require(numbers_fit && told_len == frame_len && cleared, || {
            let numbers = [kind, number, error, frame_len];
            format!("{numbers:?} in the record, a frame of {told_len}, cleared {cleared}")
        });
    }
}

/// The request on its way: the broker's identity is on top.
pub fn pushed(tables: &OwnedTables, rank: u32, request: &OwnedMessage) -> OwnedMessage {
    OwnedMessage {
        routes: [tables.identity(rank), &request.routes].concat(),
        ..request.clone()
    }
}

/// The response on its way: the top route is gone.
pub fn popped(response: &OwnedMessage) -> OwnedMessage {
    OwnedMessage {
        routes: response.routes[37..].to_vec(),
        ..response.clone()
    }
}

/// The error reply to a request.
pub fn error_reply(request: &OwnedMessage, error: u32) -> OwnedMessage {
    let streaming = request.header.flags & 0x40 != 0;
    OwnedMessage {
        header: Header {
            kind: 2,
            flags: if streaming { 0x49 } else { 0x09 },
            userid: 0xFFFF_FFFF,
            rolemask: 0,
            first: error,
            second: request.header.second,
        },
        routes: request.routes.clone(),
        topic: request.topic.clone(),
        payload: Vec::new(),
    }
}

/// An error that is due: told to the sender, or silenced.
pub fn told_error(request: &OwnedMessage, error: u32) -> Told {
    if request.header.flags & 0x04 != 0 {
        Told::Kept([4, 0, error])
    } else {
        Told::Made([3, 0, error], error_reply(request, error))
    }
}
