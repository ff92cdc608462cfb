//! All texts of a few characters in place of a value, of members, of a string's inside or of the whole
//! payload.

use crate::json_calls::Told;
use crate::tester::Tester;

/// All texts of up to so many of these characters, between a front and what lies behind.
struct Family {
    name: &'static str,
    alphabet: &'static [u8],
    longest: u32,
    front: &'static [u8],
    behind: &'static [u8],
}

const GRAMMAR: &[u8] = b"{}[]\":,0-.e\\ ut";

const FAMILIES: [Family; 9] = [
    family("a value", GRAMMAR, 6, b"{\"\":", b"}\0"),
    family("elements", GRAMMAR, 5, b"{\"\":[", b"]}\0"),
    family("members", GRAMMAR, 5, b"{", b"}\0"),
    family("a payload", GRAMMAR, 5, b"", b"\0"),
    family("nothing behind", GRAMMAR, 4, b"{\"\":", b""),
    family(
        "a string",
        b"\"\\u0Fgn\x01\x7F\xC3\xA9\xED",
        5,
        b"{\"\":\"",
        b"\"}\0",
    ),
    family(
        "a name",
        b"\"\\u9a:0\0\xE2\x82\xAC\xF0",
        5,
        b"{\"",
        b"\":0}\0",
    ),
    family("words", b"truefalsn,", 6, b"{\"\":[", b"]}\0"),
    family("around it", b"{} \t\n\r\0\x0B\xEF\xBB\xBF/", 5, b"", b""),
];

const fn family(
    name: &'static str,
    alphabet: &'static [u8],
    longest: u32,
    front: &'static [u8],
    behind: &'static [u8],
) -> Family {
    Family {
        name,
        alphabet,
        longest,
        front,
        behind,
    }
}

const DIGITS_AND_SIGNS: &[u8] = b"01-+.eE,";

/// Longer ones, of texts that still can go on alone.
const LONGER: Family = family("a value, longer", GRAMMAR, 7, b"{\"\":", b"}\0");

pub fn run(tester: &mut Tester) {
    tester.begin_group("json-short");
    for family in &FAMILIES {
        each(family, |label, payload| {
            tester.quick_json_case(label, payload, None);
        });
    }
    longer(tester, &LONGER, &mut Vec::new(), 0);
    tester.end_json_group("");
}

/// Numbers have a third opinion: the states that their grammar goes through.
pub fn numbers(tester: &mut Tester) {
    tester.begin_group("json-numbers");
    let member = family("a number", DIGITS_AND_SIGNS, 7, b"{\"\":", b"}\0");
    let elements = family("numbers", DIGITS_AND_SIGNS, 6, b"{\"\":[", b"]}\0");
    for (family, behind_comma) in [(member, State::Name), (elements, State::Start)] {
        let front = family.front.len();
        each(&family, |label, payload| {
            let text = &payload[front..payload.len() - family.behind.len()];
            let told = match fault_in(text, behind_comma) {
                Some(at) => Told::No(front + at),
                None => Told::Yes,
            };
            tester.quick_json_case(label, payload, Some(told));
        });
    }
    tester.end_json_group("");
}

/// Shorter texts come first. The label has the text's length and its number among those.
fn each(family: &Family, mut visit: impl FnMut((&'static str, u64, u64), &[u8])) {
    let letters = family.alphabet;
    for len in 0..=family.longest {
        let text = vec![letters[0]; len as usize];
        let mut payload = [family.front, &text, family.behind].concat();
        for number in 0..(letters.len() as u64).pow(len) {
            let mut rest = number as usize;
            for place in &mut payload[family.front.len()..][..len as usize] {
                *place = letters[rest % letters.len()];
                rest /= letters.len();
            }
            visit((family.name, len as u64, number), &payload);
        }
    }
}

/// The text, and all that begin with it unless nothing goes on inside of it: that has been told then,
/// whatever comes behind.
fn longer(tester: &mut Tester, family: &Family, text: &mut Vec<u8>, number: u64) {
    let payload = [family.front, text, family.behind].concat();
    let label = (family.name, text.len() as u64, number);
    let mut goes_on = true;
    tester.case(label.0, label.1, label.2, |tester| {
        let [answer, byte] = tester.quick_json(&payload, None).numbers;
        goes_on = answer == 1 || byte as usize >= family.front.len() + text.len();
    });
    if text.len() == family.longest as usize || !goes_on {
        return;
    }
    for (place, &letter) in family.alphabet.iter().enumerate() {
        text.push(letter);
        let number = number * family.alphabet.len() as u64 + place as u64;
        longer(tester, family, text, number);
        text.pop();
    }
}

/// What a number has behind it so far.
#[derive(Clone, Copy, PartialEq)]
enum State {
    Start,
    Minus,
    Zero,
    Digits,
    Point,
    Fraction,
    E,
    Sign,
    Exponent,
    /// A comma in an object asks for a name, which no text here has.
    Name,
}

fn fault_in(text: &[u8], behind_comma: State) -> Option<usize> {
    use State::*;
    let mut state = Start;
    for (at, byte) in text.iter().enumerate() {
        state = match (state, byte) {
            (Start, b'-') => Minus,
            (Start | Minus, b'0') => Zero,
            (Start | Minus, b'1') | (Digits, b'0' | b'1') => Digits,
            (Zero | Digits, b'.') => Point,
            (Point | Fraction, b'0' | b'1') => Fraction,
            (Zero | Digits | Fraction, b'e' | b'E') => E,
            (E, b'+' | b'-') => Sign,
            (E | Sign | Exponent, b'0' | b'1') => Exponent,
            (Zero | Digits | Fraction | Exponent, b',') => behind_comma,
            _ => return Some(at),
        };
    }
    // An array may be empty, but behind a comma it goes on.
    let empty = text.is_empty() && behind_comma == Start;
    let ends = matches!(state, Zero | Digits | Fraction | Exponent);
    (!ends && !empty).then_some(text.len())
}
