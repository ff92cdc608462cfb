//! Each byte at each place of payloads that have everything in them, and payloads cut at each place.

use crate::json_calls::{JsonCase, Told};
use crate::tester::Tester;

const TEMPLATES: [&str; 11] = [
    "{}\0",
    " {} \0",
    "{\"a\":1}\0",
    "{ \"a\" : [ ] , \"b\" : { } }\0",
    "{\"\":[true,false,null,[[]],{\"x\":{}}]}\0",
    "{\"\":[0,-1,10.25,1e5,2E-3,-3.40e+056]}\0",
    "{\"\\\"\\\\\\/\\b\\f\\n\\r\\t\":\"\\u00e9\\uD83D\\uDE00\"}\0",
    "{\"é€😀\":\"a\u{80}b\u{7FF}\u{800}漢\u{FFFF}\u{10000}\u{10FFFF}\"}\0",
    "{\"a name of forty bytes, all of them plain\":\"and a value that is as plain, and longer\"}\0",
    "\t\r\n {\t\r\n \"k\"\t\r\n :\t\r\n [\t\r\n 1\t\r\n ,\t\r\n {\t\r\n }\t\r\n ]\t\r\n }\t\r\n \0",
    "{\"id\":17,\"ok\":true,\"list\":[1,-2.5e+3,\"é\\n\",null],\"more\":{\"a\":{\"b\":[]}}}\0",
];

pub fn run(tester: &mut Tester) {
    tester.begin_group("json-bytes");
    for (number, template) in TEMPLATES.into_iter().enumerate() {
        let template = template.as_bytes();
        for at in 0..=template.len() {
            cut(tester, number, template, at);
            for byte in 0..=255 {
                changed(tester, number, template, at, byte);
            }
        }
    }
    tester.end_json_group("");
}

/// What begins a good payload and is none is a no at its length, whatever lies behind it.
fn cut(tester: &mut Tester, number: usize, template: &[u8], at: usize) {
    let told = match at == template.len() {
        true => Told::Yes,
        false => Told::No(at),
    };
    let case = JsonCase {
        behind: &template[at..],
        ..JsonCase::new(&template[..at])
    };
    tester.json_case(("cut", number as u64, at as u64), &case, Some(told));
}

/// The byte in place of the one that is there, in front of it, and as the last of all.
fn changed(tester: &mut Tester, number: usize, template: &[u8], at: usize, byte: u8) {
    let (front, behind) = template.split_at(at);
    let rest = behind.get(1..).unwrap_or(&[]);
    let same = behind.first() == Some(&byte);
    let told = match byte {
        _ if same => Some(Told::Yes),
        _ if at == template.len() || is_never_allowed(byte) => Some(Told::No(at)),
        _ => None,
    };
    let place = (at * 256) as u64 + byte as u64;
    let label = |what| (what, number as u64, place);
    let replaced = [front, &[byte], rest].concat();
    tester.json_case(label("replaced"), &JsonCase::new(&replaced), told);
    let told = told.filter(|_| !same);
    let inserted = [front, &[byte], behind].concat();
    tester.json_case(label("inserted"), &JsonCase::new(&inserted), told);
    // The last byte of the payload may be the zero that ends it.
    let told = told.filter(|_| byte != 0);
    let case = JsonCase {
        behind,
        ..JsonCase::new(&replaced[..at + 1])
    };
    tester.json_case(label("last"), &case, told);
}

/// Neither inside of strings nor outside, wherever it stands.
fn is_never_allowed(byte: u8) -> bool {
    matches!(byte, 0x01..=0x08 | 0x0B | 0x0C | 0x0E..=0x1F | 0xC0 | 0xC1 | 0xF5..)
}
