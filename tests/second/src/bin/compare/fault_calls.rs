//! The reader that tells the byte at fault, on both programs.

use second::frame::number_at;
use second::side::{Side, LIBRARY, SECOND};

use crate::tester::{hex, ReadCase, Tester};
use crate::two_numbers::{Answer, TwoNumbers, RECORD};

const READ_FAULT: TwoNumbers = TwoNumbers {
    name: "lampreycoil_read_fault",
    input: "bytes",
    call: Side::read_fault,
};

impl<'a> ReadCase<'a> {
    /// With a record for the number and the byte.
    pub fn fault(bytes: &'a [u8]) -> ReadCase<'a> {
        ReadCase {
            record_len: RECORD,
            ..ReadCase::new(bytes)
        }
    }
}

/// The answer that tells a number and a byte.
fn answer([number, byte]: [u32; 2]) -> Answer {
    Answer {
        refusal: number,
        numbers: [number, byte],
    }
}

impl Tester {
    /// One frame as a case of its own, with the number and the byte that the paper says.
    pub fn fault_case(&mut self, label: (&'static str, u64, u64), case: &ReadCase, told: [u32; 2]) {
        self.case(label.0, label.1, label.2, |tester| {
            tester.fault(case, Some(told));
        });
    }

    /// Tells the number and the byte that the library told.
    pub fn fault(&mut self, case: &ReadCase, told: Option<[u32; 2]>) -> [u32; 2] {
        let right = Answer::due(case.record_len, told.map(answer));
        let answer = self.two_numbers(&READ_FAULT, case, right);
        self.require(right.is_none_or(|right| right == answer), || {
            format!("{answer:?} for {right:?} of {}", hex(case.bytes))
        });
        if case.record_len >= RECORD {
            self.fault_is_whole(case.bytes, answer);
        }
        answer.numbers
    }

    /// A frame that another call was given, and what the reader says of it. If it fails and is to
    /// be shown, it is made again with guards.
    pub fn fault_of(&mut self, bytes: &[u8], number: u32) -> [u32; 2] {
        let [library, second] = [LIBRARY, SECOND].map(|side| READ_FAULT.answer_of(&side, bytes));
        self.count_fault();
        if library != second && self.shows() {
            self.fault(&ReadCase::fault(bytes), None);
        }
        self.require(library == second && library.refusal == number, || {
            format!("library and second answered {library:?} and {second:?} for {number}")
        });
        self.fault_is_whole(bytes, library);
        library.numbers
    }

    /// What holds of every answer: its number is the reader's, and stands in the record too; 1, 2
    /// and 3 tell no byte, and all others one of the body.
    fn fault_is_whole(&mut self, bytes: &[u8], answer: Answer) {
        let [number, byte] = answer.numbers;
        let read = LIBRARY.read(bytes, &mut [0; 52]);
        let body = bytes.get(4..8).map_or(0, |length| number_at(length, 0)) as u64;
        let fits = match number {
            0..=3 => byte == 0,
            // With no part the body has no byte that could be told.
            6 if body == 0 => byte == 8,
            _ => (8..8 + body).contains(&(byte as u64)),
        };
        self.require(fits && [answer.refusal, read] == [number; 2], || {
            format!("{answer:?} where the reader says {read}: {}", hex(bytes))
        });
    }
}
