//! That the byte told is the first that cannot go on, by trial: what stands in front of it is completed
//! to a good payload in one of many ways, and together with it in none.

use second::json::{check_json, Verdict};

use crate::json_calls::Told;
use crate::tester::Tester;

const TEMPLATES: [&str; 9] = [
    "{}\0",
    " { } \0",
    "{\"a\":1,\"b\":[]}\0",
    "{\"\":[true,false,null]}\0",
    "{\"\":[0,-1.5e+3,{}]}\0",
    "{ \"a\" : { \"\\n\" : \"\\u12eF\" } }\0",
    "{\"é€😀\":\"\u{800}\u{D7FF}\u{10000}\"}\0",
    "{\"\":[[{\"\":[]}],\"]\",\"}\"]}\0",
    "{\"a name\":\"a value\"}\0",
];

/// Put at each place of a template.
const BYTES: &[u8] =
    b"{}[]\":,\\/ 01-+.eEtruflsna\0\x0B\x1F\x7F\x80\x9F\xA0\xBF\xC1\xC2\xE0\xED\xF0\xF4\xF5";

/// What completes a token that broke off. The brace is for nothing but white space.
#[rustfmt::skip]
const TOKENS: [&[u8]; 24] = [
    b"", b"0", b"n", b"0000", b"000", b"00", b"{",
    b"rue", b"ue", b"e", b"alse", b"lse", b"se", b"ull", b"ll", b"l",
    b"\x80", b"\x80\x80", b"\x80\x80\x80", b"\xA0\x80", b"\x90\x80\x80",
    b"\"", b"\"\"", b":",
];
/// And what a level needs before it is closed.
const REST: [&[u8]; 6] = [b"", b"\"", b"\":0", b":0", b"0", b"\"\":0"];

pub fn run(tester: &mut Tester) {
    tester.begin_group("json-places");
    for (number, template) in TEMPLATES.into_iter().enumerate() {
        let template = template.as_bytes();
        for at in 0..template.len() {
            for &byte in BYTES {
                let replaced = [&template[..at], &[byte], &template[at + 1..]].concat();
                let inserted = [&template[..at], &[byte], &template[at..]].concat();
                for payload in [replaced, inserted, template[..at].to_vec()] {
                    let label = ("place", number as u64, (at * 256) as u64 + byte as u64);
                    tester.case(label.0, label.1, label.2, |tester| check(tester, &payload));
                }
            }
        }
    }
    tester.end_json_group("");
}

fn check(tester: &mut Tester, payload: &[u8]) {
    let answer = tester.quick_json(payload, None);
    let told = answer.numbers[1] as usize;
    if answer == Told::Yes.answer() {
        return;
    }
    let in_front = payload.get(..told);
    tester.require(in_front.is_some_and(begins_json), || {
        format!("nothing found that completes the bytes in front of {told} of {payload:x?}")
    });
    let with_it = payload.get(..=told);
    tester.require(!with_it.is_some_and(begins_json), || {
        format!("byte {told} of {payload:x?} can go on")
    });
}

/// Whether one of the endings makes it good.
fn begins_json(front: &[u8]) -> bool {
    let is_good = |payload: &[u8]| check_json(payload) == Verdict::Json;
    TOKENS.into_iter().any(|token| {
        REST.into_iter().any(|rest| {
            let open = [front, token, rest].concat();
            is_good(&open) || is_good(&[&open[..], &closing(&open), &[0]].concat())
        })
    })
}

/// What closes the levels that are open, found without any grammar.
fn closing(payload: &[u8]) -> Vec<u8> {
    let mut closing = Vec::new();
    let mut in_string = false;
    let mut bytes = payload.iter();
    while let Some(byte) = bytes.next() {
        match byte {
            b'\\' if in_string => {
                bytes.next();
            }
            b'"' => in_string = !in_string,
            _ if in_string => {}
            b'{' => closing.push(b'}'),
            b'[' => closing.push(b']'),
            b'}' | b']' => {
                closing.pop();
            }
            _ => {}
        }
    }
    closing.reverse();
    closing
}
