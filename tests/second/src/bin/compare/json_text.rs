//! UTF-8 in strings: each lead byte with each second byte, the bytes behind them at their limits, and
//! each character that there is. What is right is told by Rust's own `str::from_utf8`.

use std::str::from_utf8;

use crate::json_calls::Told;
use crate::tester::Tester;

/// Around the text: a name, and a value that begins at another place of a word.
const FRAMES: [(&[u8], &[u8]); 2] = [(b"{\"", b"\":0}\0"), (b"{\"a\":[\"b", b"c\"]}\0")];
/// Around the limits of what may stand behind a lead byte.
const LIMITS: [u8; 4] = [0x7F, 0x80, 0xBF, 0xC0];

pub fn run(tester: &mut Tester) {
    tester.begin_group("json-text");
    limits(tester);
    whole_bytes(tester);
    all_characters(tester);
    all_surrogates(tester);
    tester.end_json_group("");
}

/// The text in each frame, whole and cut at each of its bytes.
fn check(tester: &mut Tester, text: &[u8]) {
    let name = text.iter().fold(0, |name, &byte| name << 8 | byte as u64);
    for (place, (front, behind)) in FRAMES.into_iter().enumerate() {
        let payload = [front, text, behind].concat();
        let told = match fault_in(text) {
            Some(at) => Told::No(front.len() + at),
            None => Told::Yes,
        };
        tester.quick_json_case(("text", name, place as u64), &payload, Some(told));
        for len in 0..=text.len() {
            let told = match fault_in(&text[..len]) {
                Some(at) => Told::No(front.len() + at),
                None => Told::No(front.len() + len),
            };
            let label = ("cut text", name, (8 * place + len) as u64);
            tester.quick_json_case(label, &payload[..front.len() + len], Some(told));
        }
    }
}

/// The first byte that cannot go on; behind a text that breaks off it is the one behind it.
fn fault_in(text: &[u8]) -> Option<usize> {
    let fault = from_utf8(text).err()?;
    let at = fault.valid_up_to();
    // It counts the bytes that did begin a character. A byte that begins none counts as one too.
    let begun = match text[at] {
        0xC2..=0xF4 => fault.error_len().unwrap_or(text.len() - at),
        _ => 0,
    };
    Some(at + begun)
}

fn limits(tester: &mut Tester) {
    for lead in 0x80..=0xFF {
        for second in 0x00..=0xFF {
            for third in LIMITS {
                for fourth in LIMITS {
                    check(tester, &[lead, second, third, fourth]);
                }
            }
        }
    }
}

/// Each third and each fourth byte behind the limits of the second.
fn whole_bytes(tester: &mut Tester) {
    for lead in 0xC2..=0xF4 {
        for second in [0x80, 0x8F, 0x90, 0x9F, 0xA0, 0xBF] {
            for byte in 0x20..=0xFF {
                // A quote ends the text, and a backslash begins an escape.
                if byte != b'"' && byte != b'\\' {
                    check(tester, &[lead, second, byte]);
                    check(tester, &[lead, second, 0x80, byte]);
                    check(tester, &[lead, second, 0xBF, byte]);
                }
            }
        }
    }
}

/// A thousand to a payload.
fn all_characters(tester: &mut Tester) {
    let all: Vec<char> = (' '..=char::MAX)
        .filter(|&character| character != '"' && character != '\\')
        .collect();
    for (number, characters) in all.chunks(1000).enumerate() {
        let text: String = characters.iter().collect();
        let payload = format!("{{\"{text}\":\"{text}\"}}\0");
        let label = ("characters", number as u64, 0);
        tester.quick_json_case(label, payload.as_bytes(), Some(Told::Yes));
    }
}

/// As three bytes they are none; as an escape they need no partner.
fn all_surrogates(tester: &mut Tester) {
    for surrogate in 0xD800..=0xDFFFu32 {
        let [second, third] = [surrogate >> 6, surrogate].map(|bits| 0x80 | (bits & 0x3F) as u8);
        let payload = [b"{\"a", &[0xED, second, third][..], b"\":0}\0"].concat();
        let label = ("surrogate", surrogate as u64, 0);
        tester.quick_json_case(label, &payload, Some(Told::No(4)));
        let payload = format!("{{\"\\u{surrogate:04x}\":\"\\u{surrogate:04X}\"}}\0");
        let label = ("escaped surrogate", surrogate as u64, 0);
        tester.quick_json_case(label, payload.as_bytes(), Some(Told::Yes));
    }
}
