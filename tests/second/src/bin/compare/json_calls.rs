//! The check of JSON on both programs.

use second::side::{Side, LIBRARY, SECOND};

use crate::tester::{ReadCase, Tester};
pub use crate::two_numbers::RECORD;
use crate::two_numbers::{Answer, TwoNumbers};

const CHECK_JSON: TwoNumbers = TwoNumbers {
    name: "lampreycoil_check_json",
    input: "payload",
    call: Side::check_json,
};
/// Longer payloads have no room among the guards.
const SHOWN_WHOLE: usize = 1 << 21;

pub struct JsonCase<'a> {
    pub payload: &'a [u8],
    /// Lies right behind the slice, outside of it.
    pub behind: &'a [u8],
    pub record_len: usize,
}

impl<'a> JsonCase<'a> {
    pub fn new(payload: &'a [u8]) -> JsonCase<'a> {
        JsonCase {
            payload,
            behind: &[],
            record_len: RECORD,
        }
    }
}

/// What the rules say of a payload.
#[derive(Clone, Copy, Debug, PartialEq, Eq)]
pub enum Told {
    Yes,
    No(usize),
    TooDeep(usize),
}

impl Told {
    pub fn answer(self) -> Answer {
        let (refusal, answer, byte) = match self {
            Told::Yes => (0, 1, 0),
            Told::No(byte) => (0, 2, byte),
            Told::TooDeep(byte) => (26, 0, byte),
        };
        Answer {
            refusal,
            numbers: [answer, byte as u32],
        }
    }
}

impl Tester {
    /// One payload as a case of its own, with what the rules say of it if that is known.
    pub fn json_case(
        &mut self,
        label: (&'static str, u64, u64),
        case: &JsonCase,
        told: Option<Told>,
    ) {
        self.case(label.0, label.1, label.2, |tester| {
            tester.json(case, told);
        });
    }

    /// The same without guards around the slices, for cases by the million.
    pub fn quick_json_case(
        &mut self,
        label: (&'static str, u64, u64),
        payload: &[u8],
        told: Option<Told>,
    ) {
        self.case(label.0, label.1, label.2, |tester| {
            tester.quick_json(payload, told);
        });
    }

    /// A call without guards. If it fails and is to be shown, it is made again with them.
    pub fn quick_json(&mut self, payload: &[u8], told: Option<Told>) -> Answer {
        let [library, second] = [LIBRARY, SECOND].map(|side| answer_of(&side, payload));
        if library == second && told.is_none_or(|told| told.answer() == library) {
            self.count(library.refusal);
            self.count_json(library);
            return library;
        }
        if payload.len() <= SHOWN_WHOLE && self.shows() {
            self.json(&JsonCase::new(payload), told);
        }
        self.require(false, || {
            format!("library and second answered {library:?} and {second:?} for {told:?}")
        });
        library
    }

    pub fn json(&mut self, case: &JsonCase, told: Option<Told>) -> Answer {
        let right = Answer::due(case.record_len, told.map(Told::answer));
        let lent = ReadCase {
            bytes: case.payload,
            behind: case.behind,
            record_len: case.record_len,
        };
        let answer = self.two_numbers(&CHECK_JSON, &lent, right);
        self.require(right.is_none_or(|right| right == answer), || {
            let text = String::from_utf8_lossy(case.payload);
            let text: String = text.chars().take(200).collect();
            format!("{answer:?} for {right:?} of {text:?}")
        });
        self.count_json(answer);
        answer
    }

    fn count_json(&mut self, answer: Answer) {
        if answer == Told::Yes.answer() {
            self.count_yes();
        }
    }

    /// Ends a group with how many of its payloads are JSON.
    pub fn end_json_group(&mut self, remark: &str) {
        let yes = self.yes();
        self.end_group(&format!("{remark}{yes} times JSON"));
    }
}

/// What one program says of a payload.
pub fn answer_of(side: &Side, payload: &[u8]) -> Answer {
    CHECK_JSON.answer_of(side, payload)
}
