//! The rules of JSON payloads one by one, each answer written out by hand: two programs that share
//! a wrong reading agree with each other, but not with this.

use crate::json_calls::{JsonCase, Told};
use crate::tester::Tester;
use Told::{No, Yes};

/// A rule, and payloads with what it says of them.
type Rule = (&'static str, &'static [(&'static [u8], Told)]);

const WHOLE: Rule = (
    "the whole payload",
    &[
        (b"{}\0", Yes),
        (b" {} \0", Yes),
        (b"\t\n\r {}\r\n\t \0", Yes),
        (b"", No(0)),
        (b"\0", No(0)),
        (b" ", No(1)),
        (b" \t\n\r", No(4)),
        (b" \0", No(1)),
        (b"{", No(1)),
        (b"{ ", No(2)),
        (b"{\0", No(1)),
        (b"{\0}\0", No(1)),
        (b"{}", No(2)),
        (b"{}  ", No(4)),
        (b"{}\0\0", No(3)),
        (b"{}\0 ", No(3)),
        (b"{}\0\n", No(3)),
        (b"{}\0{}\0", No(3)),
        (b"{} \0x", No(4)),
        (b"{}{}\0", No(2)),
        (b"{} {}\0", No(3)),
        (b"{},\0", No(2)),
        (b"{}}\0", No(2)),
        (b"{}]\0", No(2)),
        (b"[]\0", No(0)),
        (b"[{}]\0", No(0)),
        (b" [\0", No(1)),
        (b"\"a\"\0", No(0)),
        (b"0\0", No(0)),
        (b"null\0", No(0)),
        (b"}\0", No(0)),
    ],
);

const SPACE: Rule = (
    "white space",
    &[
        (b"{ \t\n\r\"\" \t\n\r: \t\n\r[ \t\n\r0 \t\n\r, \t\n\r0 \t\n\r] \t\n\r, \"\":{ \t\n\r} \t\n\r}\0", Yes),
        (b"\xEF\xBB\xBF{}\0", No(0)),
        (b" \xEF\xBB\xBF{}\0", No(1)),
        (b"{}\xEF\xBB\xBF\0", No(2)),
        (b"\x0B{}\0", No(0)),
        (b"{\x0C}\0", No(1)),
        (b"{}\x0B\0", No(2)),
        (b"{}\x1F\0", No(2)),
        (b"{}\x7F\0", No(2)),
        (b"{\x08}\0", No(1)),
        (b"{\xC2\xA0}\0", No(1)),
        (b"{\"\":\xA0 0}\0", No(4)),
        (b"{\"\":0\x85}\0", No(5)),
        (b"{}//\0", No(2)),
        (b"/**/{}\0", No(0)),
        (b"{\"\"#\n:0}\0", No(3)),
        (b"{\"\":tr ue}\0", No(6)),
        (b"{\"\":1 0}\0", No(6)),
    ],
);

const OBJECTS: Rule = (
    "objects",
    &[
        (b"{\"a\":1}\0", Yes),
        (b"{\"a\":1,\"b\":2}\0", Yes),
        (b"{\"a\":1,\"a\":1}\0", Yes),
        (b"{\"\":\"\",\"\":{}}\0", Yes),
        (b"{\"a\"}\0", No(4)),
        (b"{\"a\",\"b\"}\0", No(4)),
        (b"{\"a\":}\0", No(5)),
        (b"{\"a\":,\0", No(5)),
        (b"{\"a\"::1}\0", No(5)),
        (b"{\"a\"=1}\0", No(4)),
        (b"{\"a\" \"b\"}\0", No(5)),
        (b"{a:1}\0", No(1)),
        (b"{'a':1}\0", No(1)),
        (b"{1:1}\0", No(1)),
        (b"{null:1}\0", No(1)),
        (b"{{}:1}\0", No(1)),
        (b"{[]:1}\0", No(1)),
        (b"{:1}\0", No(1)),
        (b"{,}\0", No(1)),
        (b"{,\"a\":1}\0", No(1)),
        (b"{\"a\":1,}\0", No(7)),
        (b"{\"a\":1, }\0", No(8)),
        (b"{\"a\":1,,\"b\":1}\0", No(7)),
        (b"{\"a\":1 \"b\":2}\0", No(7)),
        (b"{\"a\":1;\"b\":2}\0", No(6)),
        (b"{\"a\":1]\0", No(6)),
        (b"{\"a\":1}}\0", No(7)),
        (b"{\"a\":{}\0", No(7)),
        (b"{]\0", No(1)),
        (b"{\"a\":1,{\0", No(7)),
        (b"{\"a\":1,0\0", No(7)),
        (b"{\"a\":1,\0", No(7)),
        (b"{\"a\":1,", No(7)),
    ],
);

const ARRAYS: Rule = (
    "arrays",
    &[
        (b"{\"\":[]}\0", Yes),
        (b"{\"\":[1]}\0", Yes),
        (b"{\"\":[1,\"\",{},[],null]}\0", Yes),
        (b"{\"\":[[],[[]],{\"\":[{}]}]}\0", Yes),
        (b"{\"\":[,1]}\0", No(5)),
        (b"{\"\":[1,]}\0", No(7)),
        (b"{\"\":[1, ]}\0", No(8)),
        (b"{\"\":[1,,2]}\0", No(7)),
        (b"{\"\":[1 2]}\0", No(7)),
        (b"{\"\":[1}\0", No(6)),
        (b"{\"\":[}\0", No(5)),
        (b"{\"\":[\0", No(5)),
        (b"{\"\":[", No(5)),
        (b"{\"\":[]]}\0", No(6)),
        (b"{\"\":[1:2]}\0", No(6)),
        (b"{\"\":[\"a\":1]}\0", No(8)),
        (b"{\"\":[][]}\0", No(6)),
        (b"{\"\":[]{}}\0", No(6)),
        (b"{\"\":(1)}\0", No(4)),
    ],
);

const WORDS: Rule = (
    "words",
    &[
        (b"{\"\":true}\0", Yes),
        (b"{\"\":false}\0", Yes),
        (b"{\"\":null}\0", Yes),
        (b"{\"\":[true,false,null]}\0", Yes),
        (b"{\"\":tru}\0", No(7)),
        (b"{\"\":t", No(5)),
        (b"{\"\":True}\0", No(4)),
        (b"{\"\":tRue}\0", No(5)),
        (b"{\"\":truE}\0", No(7)),
        (b"{\"\":truee}\0", No(8)),
        (b"{\"\":truefalse}\0", No(8)),
        (b"{\"\":fals}\0", No(8)),
        (b"{\"\":fAlse}\0", No(5)),
        (b"{\"\":falsee}\0", No(9)),
        (b"{\"\":false", No(9)),
        (b"{\"\":f0}\0", No(5)),
        (b"{\"\":nul}\0", No(7)),
        (b"{\"\":nil}\0", No(5)),
        (b"{\"\":nulll}\0", No(8)),
        (b"{\"\":null\0", No(8)),
        (b"{\"\":NaN}\0", No(4)),
        (b"{\"\":nan}\0", No(5)),
        (b"{\"\":Infinity}\0", No(4)),
        (b"{\"\":-Infinity}\0", No(5)),
        (b"{\"\":undefined}\0", No(4)),
    ],
);

/// Each stands behind `{"":`, and in front of `}` and the zero byte.
const NUMBERS: &[(&str, Option<usize>)] = &[
    ("0", None),
    ("-0", None),
    ("1", None),
    ("-1", None),
    ("10", None),
    ("1234567890", None),
    ("0.0", None),
    ("-0.0", None),
    ("0.10", None),
    ("1.5", None),
    ("0e0", None),
    ("0E0", None),
    ("1e1", None),
    ("1E1", None),
    ("1e+1", None),
    ("1E+1", None),
    ("1e-1", None),
    ("1E-1", None),
    ("0E-00", None),
    ("1e0001", None),
    ("1.0e+10", None),
    ("1e999999", None),
    ("-1e-999999", None),
    (
        "123456789012345678901234567890.123456789012345678901234567890",
        None,
    ),
    ("00", Some(1)),
    ("01", Some(1)),
    ("-01", Some(2)),
    ("-00", Some(2)),
    ("-", Some(1)),
    ("--1", Some(1)),
    ("-+1", Some(1)),
    ("- 1", Some(1)),
    ("-e1", Some(1)),
    ("+1", Some(0)),
    ("+", Some(0)),
    (".5", Some(0)),
    ("-.5", Some(1)),
    ("1.", Some(2)),
    ("1..5", Some(2)),
    ("1.e1", Some(2)),
    ("1.-5", Some(2)),
    ("1. 5", Some(2)),
    ("1 .5", Some(2)),
    ("1.5.5", Some(3)),
    ("1.5e", Some(4)),
    ("1.5x", Some(3)),
    ("1e", Some(2)),
    ("0e", Some(2)),
    ("1e+", Some(3)),
    ("1e-", Some(3)),
    ("1e+-1", Some(3)),
    ("1ee1", Some(2)),
    ("1e.5", Some(2)),
    ("1e1.5", Some(3)),
    ("1e1e1", Some(3)),
    ("1e1+1", Some(3)),
    ("1e 1", Some(2)),
    ("1 e1", Some(2)),
    ("1+1", Some(1)),
    ("1-1", Some(1)),
    ("0x10", Some(1)),
    ("0b1", Some(1)),
    ("1_000", Some(1)),
    ("1,000", Some(2)),
    ("1a", Some(1)),
    ("1n", Some(1)),
    ("1\"", Some(1)),
    ("1{", Some(1)),
    ("1[", Some(1)),
    ("1/", Some(1)),
    ("1:", Some(1)),
];

/// Each stands between the quotes of a name or of a value.
const TEXTS: &[(&[u8], Option<usize>)] = &[
    (b"", None),
    (b"plain text", None),
    (b" !#[]{}:,'/~", None),
    (b"\x7F", None),
    (b"\\\"\\\\\\/\\b\\f\\n\\r\\t", None),
    (b"\\u0000", None),
    (b"\\u0123\\u4567\\u89ab\\ucdef\\u89AB\\uCDEF", None),
    (b"\\uD800", None),
    (b"\\uDBFF\\uDFFF", None),
    (b"\\uDFFF", None),
    (b"\\uDC00\\uD800", None),
    (b"\\uD800x", None),
    (b"\\uFFFE\\uFFFF", None),
    (b"\\u00000", None),
    (b"\\\\u", None),
    (b"\\a", Some(1)),
    (b"\\v", Some(1)),
    (b"\\0", Some(1)),
    (b"\\x41", Some(1)),
    (b"\\'", Some(1)),
    (b"\\U0041", Some(1)),
    (b"\\N", Some(1)),
    (b"\\B", Some(1)),
    (b"\\ ", Some(1)),
    (b"\\\n", Some(1)),
    (b"\\\0", Some(1)),
    (b"\\\x7F", Some(1)),
    (b"\\\xC3\xA9", Some(1)),
    (b"\\u", Some(2)),
    (b"\\u1", Some(3)),
    (b"\\u12", Some(4)),
    (b"\\u123", Some(5)),
    (b"\\ug123", Some(2)),
    (b"\\u1G23", Some(3)),
    (b"\\u12`3", Some(4)),
    (b"\\u123@", Some(5)),
    (b"\\u123:", Some(5)),
    (b"\\u123/", Some(5)),
    (b"\\u{41}", Some(2)),
    (b"\\u+041", Some(2)),
    (b"\\u 041", Some(2)),
    (b"\\uD800\\u", Some(8)),
    (b"a\0b", Some(1)),
    (b"a\tb", Some(1)),
    (b"a\nb", Some(1)),
    (b"a\rb", Some(1)),
    (b"a\x1Fb", Some(1)),
    (b"12345678\x1F", Some(8)),
    (b"\"", Some(1)),
    (b"a\"b", Some(2)),
];

/// The same for UTF-8.
const SEQUENCES: &[(&[u8], Option<usize>)] = &[
    (b"\xC2\x80", None),
    (b"\xDF\xBF", None),
    (b"\xE0\xA0\x80", None),
    (b"\xE0\xBF\xBF", None),
    (b"\xE1\x80\x80", None),
    (b"\xEC\xBF\xBF", None),
    (b"\xED\x80\x80", None),
    (b"\xED\x9F\xBF", None),
    (b"\xEE\x80\x80", None),
    (b"\xEF\xB7\x90", None),
    (b"\xEF\xBB\xBF", None),
    (b"\xEF\xBF\xBD\xEF\xBF\xBE\xEF\xBF\xBF", None),
    (b"\xF0\x90\x80\x80", None),
    (b"\xF0\x9F\xBF\xBF", None),
    (b"\xF3\xBF\xBF\xBF", None),
    (b"\xF4\x80\x80\x80", None),
    (b"\xF4\x8F\xBF\xBF", None),
    (b"\x80", Some(0)),
    (b"\xBF", Some(0)),
    (b"\xC0\x80", Some(0)),
    (b"\xC1\xBF", Some(0)),
    (b"\xC2", Some(1)),
    (b"\xC2\x7F", Some(1)),
    (b"\xC2\xC0", Some(1)),
    (b"\xC2\x80\x80", Some(2)),
    (b"\xC2\\u0000", Some(1)),
    (b"\xC2\0", Some(1)),
    (b"\xE0\x80\x80", Some(1)),
    (b"\xE0\x9F\xBF", Some(1)),
    (b"\xE0\xA0", Some(2)),
    (b"\xE1\x80", Some(2)),
    (b"\xE1\x80 ", Some(2)),
    (b"\xE1\x80\xC0", Some(2)),
    (b"\xE1\x80\x80\x80", Some(3)),
    (b"\xED\xA0\x80", Some(1)),
    (b"\xED\xBF\xBF", Some(1)),
    (b"\xED\xA0\x80\xED\xB0\x80", Some(1)),
    (b"\xF0\x80\x80\x80", Some(1)),
    (b"\xF0\x8F\xBF\xBF", Some(1)),
    (b"\xF0\x90", Some(2)),
    (b"\xF0\x90\x80", Some(3)),
    (b"\xF1\x80\x7F\x80", Some(2)),
    (b"\xF1\x80\x80\xC0", Some(3)),
    (b"\xF1\x80\x80\x80\x80", Some(4)),
    (b"\xF4\x90\x80\x80", Some(1)),
    (b"\xF4\xBF", Some(1)),
    (b"\xF5\x80\x80\x80", Some(0)),
    (b"\xF7\xBF\xBF\xBF", Some(0)),
    (b"\xF8\x88\x80\x80\x80", Some(0)),
    (b"\xFC\x84\x80\x80\x80\x80", Some(0)),
    (b"\xFE", Some(0)),
    (b"\xFF", Some(0)),
];

pub fn run(tester: &mut Tester) {
    tester.begin_group("json-rules");
    for (rule, payloads) in [WHOLE, SPACE, OBJECTS, ARRAYS, WORDS] {
        for (number, (payload, told)) in payloads.iter().enumerate() {
            check(tester, (rule, number as u64, 0), payload, *told);
        }
    }
    numbers(tester);
    texts(tester, "strings", TEXTS);
    texts(tester, "UTF-8", SEQUENCES);
    outside_of_strings(tester);
    tester.end_json_group("");
}

/// The payload alone, and with the front of another right behind it, which is no part of it.
fn check(tester: &mut Tester, label: (&'static str, u64, u64), payload: &[u8], told: Told) {
    for behind in [&b""[..], b"\0", b" {}\0", b"\x80\"}\0"] {
        let case = JsonCase {
            behind,
            ..JsonCase::new(payload)
        };
        tester.json_case(label, &case, Some(told));
    }
}

fn told_at(front: usize, fault: Option<usize>) -> Told {
    fault.map_or(Yes, |at| No(front + at))
}

fn numbers(tester: &mut Tester) {
    for (place, (front, behind)) in [("{\"\":", "}\0"), ("{\"\":[0, ", " ]}\0")]
        .into_iter()
        .enumerate()
    {
        for (number, (text, fault)) in NUMBERS.iter().enumerate() {
            let label = ("numbers", number as u64, place as u64);
            // In the array a comma asks for a value, and the three zeros are no number.
            let fault = match (*text, place) {
                ("1,000", 1) => Some(3),
                _ => *fault,
            };
            // A number that only lacks its end sees the space behind it, and not the brace.
            let payload = [front, text, behind].concat();
            let told = told_at(front.len(), fault);
            check(tester, label, payload.as_bytes(), told);
        }
    }
}

fn texts(tester: &mut Tester, rule: &'static str, texts: &[(&[u8], Option<usize>)]) {
    let frames: [(&[u8], &[u8]); 4] = [
        (b"{\"", b"\":0}\0"),
        (b"{\"\":\"", b"\"}\0"),
        (b"{\"\":[\"12345", b"\"]}\0"),
        (b"{\"a\":0,\"1234567", b"89abcdefghi\":0}\0"),
    ];
    for (number, (text, fault)) in texts.iter().enumerate() {
        for (place, (front, behind)) in frames.iter().enumerate() {
            // Letters behind a text that breaks off are no hex digits in the one frame only.
            if place == 3 && text.starts_with(b"\\u") && fault.is_some() {
                continue;
            }
            let payload = [front, *text, *behind].concat();
            let label = (rule, number as u64, place as u64);
            check(tester, label, &payload, told_at(front.len(), *fault));
        }
    }
}

/// There a byte above 7F is a no at itself, whatever it begins.
fn outside_of_strings(tester: &mut Tester) {
    let fronts = [
        "", " ", "{", "{\"\"", "{\"\":", "{\"\":0", "{\"\":0,", "{\"\":[", "{}",
    ];
    for (place, front) in fronts.into_iter().enumerate() {
        for (number, (sequence, _)) in SEQUENCES.iter().enumerate() {
            if sequence[0] < 0x80 {
                continue;
            }
            let payload = [front.as_bytes(), sequence, b"}\0"].concat();
            let label = ("above 7F outside", place as u64, number as u64);
            check(tester, label, &payload, No(front.len()));
        }
    }
}
