//! Payloads of all sizes from a few bytes to some MiB, and records of each length.

use crate::json_calls::{JsonCase, Told, RECORD};
use crate::tester::Tester;

/// The longest payload that a frame can have is a little below.
const BODY: usize = 32_768;
const MIB: usize = 1 << 20;

/// What a payload is filled with: its front, a piece again and again, and its end.
const FILLINGS: [[&str; 3]; 15] = [
    ["", " ", "{}\0"],
    ["{", "\t\r\n ", "}\0"],
    ["{}", "\n", "\0"],
    ["{\"\":\"", "a", "\"}\0"],
    ["{\"", "\u{7F} ~!#[]", "\":0}\0"],
    ["{\"\":\"", "é", "\"}\0"],
    ["{\"\":\"", "漢", "\"}\0"],
    ["{\"\":\"", "😀", "\"}\0"],
    ["{\"\":\"", "plain text, é, ", "\"}\0"],
    ["{\"\":\"", "\\n\\\"\\u00e9", "\"}\0"],
    ["{\"\":1", "0", "}\0"],
    ["{\"\":0.1", "0", "e-1}\0"],
    ["{\"\":[", "0,", "0]}\0"],
    ["{\"\":[", "{\"a\":[true,\"\"]},", "null]}\0"],
    ["{", "\"a\":-1.5,", "\"\":{}}\0"],
];

pub fn run(tester: &mut Tester) {
    tester.begin_group("json-sizes");
    let few = 0..=160;
    let edges = [255, 256, 4095, 4096, 65_535, 65_536, 65_537];
    for len in few.chain(edges).chain(BODY - 40..=BODY + 10) {
        sized(tester, len, Tester::json_sized);
    }
    for len in [MIB - 1, MIB, 5 * MIB + 3] {
        sized(tester, len, Tester::quick_json_case);
    }
    records(tester);
    empty(tester);
    tester.end_json_group("");
}

/// A payload of exactly so many bytes, which white space behind the object makes up.
fn payload(len: usize, [front, piece, end]: [&str; 3]) -> Option<Vec<u8>> {
    let pieces = len.checked_sub(front.len() + end.len())? / piece.len();
    let mut payload = [front, &piece.repeat(pieces), end].concat().into_bytes();
    payload.pop();
    payload.resize(len - 1, b' ');
    payload.push(0);
    Some(payload)
}

type Check = fn(&mut Tester, (&'static str, u64, u64), &[u8], Option<Told>);

impl Tester {
    fn json_sized(&mut self, label: (&'static str, u64, u64), bytes: &[u8], told: Option<Told>) {
        self.json_case(label, &JsonCase::new(bytes), told);
    }
}

/// Whole, without its last byte, with a zero too many, and with a fault near its ends and in its middle.
fn sized(tester: &mut Tester, len: usize, check: Check) {
    for (number, filling) in FILLINGS.into_iter().enumerate() {
        let Some(mut payload) = payload(len, filling) else {
            continue;
        };
        let label = |what| (what, len as u64, number as u64);
        check(tester, label("whole"), &payload, Some(Told::Yes));
        let told = Some(Told::No(len - 1));
        check(tester, label("no zero"), &payload[..len - 1], told);
        for at in [0, len / 3, len / 2, len - 9.min(len), len - 2, len - 1] {
            let kept = payload[at];
            payload[at] = 0x01;
            check(tester, label("fault"), &payload, Some(Told::No(at)));
            payload[at] = kept;
        }
        payload.push(0);
        check(tester, label("two zeros"), &payload, Some(Told::No(len)));
    }
}

/// A short record comes first and is not written to; of a longer one the front alone is.
fn records(tester: &mut Tester) {
    let deep = ["{\"\":", &"[".repeat(40)].concat();
    let payloads: [(&[u8], Told); 7] = [
        (b"{}\0", Told::Yes),
        (b"{\"a\":[1,2,3]}\0", Told::Yes),
        (b"", Told::No(0)),
        (b"{", Told::No(1)),
        (b"{\"a\":[1,2,3]}\0\0", Told::No(14)),
        (b"{\"a\":\xFF", Told::No(5)),
        (deep.as_bytes(), Told::TooDeep(35)),
    ];
    for (number, (payload, told)) in payloads.into_iter().enumerate() {
        for record_len in (0..=20).chain([52, 100, 1000]) {
            let case = JsonCase {
                record_len,
                ..JsonCase::new(payload)
            };
            let label = ("record", number as u64, record_len as u64);
            tester.json_case(label, &case, Some(told));
        }
    }
}

/// Nothing at all, with a good payload right behind it.
fn empty(tester: &mut Tester) {
    for record_len in [0, RECORD - 1, RECORD, RECORD + 1] {
        let case = JsonCase {
            payload: b"",
            behind: b"{}\0",
            record_len,
        };
        tester.json_case(("empty", record_len as u64, 0), &case, Some(Told::No(0)));
    }
}
