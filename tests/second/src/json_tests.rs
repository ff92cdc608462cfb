//! The second program's check of JSON by itself.

use crate::calls::check_json_call;
use crate::frame::number_at;
use crate::json::Verdict::{self, Json, NotJson, TooDeep};
use crate::json::{check_json, MAX_DEPTH};

/// The payload with its zero byte.
fn ended(text: &str) -> Verdict {
    check_json(&[text.as_bytes(), &[0]].concat())
}

#[test]
fn each_kind_of_value_passes() {
    for value in [
        "{}", "[]", "\"\"", "0", "-0", "10", "1.5", "-2e9", "3E+08", "true", "false", "null",
    ] {
        for text in [
            format!("{{\"a\":{value}}}"),
            format!("\t{{ \"a\" : [ {value} , {value} ]\r\n,\"a\":{value} }} "),
        ] {
            assert_eq!(ended(&text), Json, "{text}");
        }
    }
}

#[test]
fn the_first_byte_that_cannot_go_on_is_told() {
    let cases = [
        ("", 0),
        ("  ", 2),
        ("[]", 0),
        ("{,", 1),
        ("{} x", 3),
        ("{\"a\" 1}", 5),
        ("{\"a\":01}", 6),
        ("{\"a\":1.}", 7),
        ("{\"a\":1e}", 7),
        ("{\"a\":-}", 6),
        ("{\"a\":1,}", 7),
        ("{\"a\":[1,]}", 8),
        ("{\"a\":[1}", 7),
        ("{\"a\":trug}", 8),
        ("{\"\\x\":1}", 3),
        ("{\"\\u12g4\":1}", 6),
        ("{\"\n\":1}", 2),
    ];
    for (text, byte) in cases {
        assert_eq!(ended(text), NotJson(byte), "{text}");
    }
}

#[test]
fn the_zero_byte_is_the_last() {
    assert_eq!(check_json(b"{}"), NotJson(2));
    assert_eq!(check_json(b"{}\0"), Json);
    assert_eq!(check_json(b"{}\0\0"), NotJson(3));
    assert_eq!(check_json(b"{}\0 "), NotJson(3));
    assert_eq!(check_json(b"{\"\0\":1}\0"), NotJson(2));
}

#[test]
fn a_payload_cut_short_stops_at_its_length() {
    let whole = "{\"name é\\u00e9\" : [-1.5e+3, true, {\"\": null}]}\0".as_bytes();
    assert_eq!(check_json(whole), Json);
    for len in 0..whole.len() {
        assert_eq!(check_json(&whole[..len]), NotJson(len));
    }
}

#[test]
fn text_is_utf_8() {
    let cases: [(&[u8], Option<usize>); 13] = [
        (b"\xC2\x80", None),
        (b"\xEF\xBF\xBF", None),
        (b"\xF4\x8F\xBF\xBF", None),
        (b"\x7F", None),
        (b"\x80", Some(0)),
        (b"\xC0\x80", Some(0)),
        (b"\xF5\x80", Some(0)),
        (b"\xC2 ", Some(1)),
        (b"\xE0\x80\x80", Some(1)),
        (b"\xED\xA0\x80", Some(1)),
        (b"\xF0\x8F\x80\x80", Some(1)),
        (b"\xF4\x90\x80\x80", Some(1)),
        (b"\xF1\x80\x80 ", Some(3)),
    ];
    for (text, fault) in cases {
        // A few bytes in front, so that the fault lies at each place of a word.
        for front in 0..9 {
            let payload = [b"{\"", &b"plain text"[..front], text, b"\":0}\0"].concat();
            let right = fault.map_or(Json, |at| NotJson(2 + front + at));
            assert_eq!(check_json(&payload), right, "{payload:x?}");
        }
    }
}

#[test]
fn only_so_many_levels_pass() {
    for opening in ["[", "{\"\":"] {
        let closing = if opening == "[" { "]" } else { "}" };
        let nested = |levels: usize| {
            let inner = opening.repeat(levels - 1) + "0" + &closing.repeat(levels - 1);
            ended(&format!("{{\"\":{inner}}}"))
        };
        assert_eq!(nested(MAX_DEPTH), Json);
        let byte = 4 + opening.len() * (MAX_DEPTH - 1);
        assert_eq!(nested(MAX_DEPTH + 1), TooDeep(byte));
        assert_eq!(nested(MAX_DEPTH + 9), TooDeep(byte));
    }
}

#[test]
fn a_short_record_writes_nothing() {
    for record_len in 0..8 {
        let mut record = vec![0xA7; record_len];
        assert_eq!(check_json_call(b"{}\0", &mut record), 11);
        assert!(record.iter().all(|&byte| byte == 0xA7));
    }
    let mut record = [0xA7; 9];
    assert_eq!(check_json_call(b"{]\0", &mut record), 0);
    assert_eq!([0, 4].map(|at| number_at(&record, at)), [2, 1]);
    assert_eq!(record[8], 0xA7);
}
