//! Every boundary of the reader, each with the answer that the paper gives.

use crate::draft::{field_values, fits_route, frame_with, header, push_part, route, Draft};
use crate::tester::{Expect, ReadCase, Tester};

pub fn run(tester: &mut Tester) {
    tester.begin_group("reader-bounds");
    cut_frames(tester);
    bytes_behind(tester);
    shorter_bodies(tester);
    records(tester);
    prefix(tester);
    body_limit(tester);
    part_sizes(tester);
    part_counts(tester);
    headers(tester);
    types_and_flags(tester);
    empty_parts(tester);
    route_bytes(tester);
    route_lengths(tester);
    topics(tester);
    last_fields(tester);
    tester.end_group("");
}

/// Frames of each type that are accepted.
pub fn samples() -> Vec<Draft> {
    vec![
        Draft::control(),
        Draft::request(0, b"log", None),
        Draft::request(0, b"log", Some(b"")),
        Draft::request(3, b"kvs.get", Some(b"payload")),
        Draft::routed(2, 1, &[b't'; 255], Some(&[9; 255])),
        Draft::routed(2, 0, &[b't'; 254], None),
        Draft::event(b"hb", None),
        Draft::event(&[b'e'; 253], Some(&[7; 300])),
    ]
}

fn number(tester: &mut Tester, what: &'static str, at: usize, bytes: &[u8], refusal: u32) {
    let label = (what, at as u64, refusal as u64);
    tester.read_case(label, &ReadCase::new(bytes), Expect::Number(refusal));
}

/// A frame with its last bytes missing is 1, even if they lie right behind the slice.
fn cut_frames(tester: &mut Tester) {
    for (sample, draft) in samples().iter().enumerate() {
        let frame = draft.bytes();
        for len in 0..frame.len() {
            let case = ReadCase {
                bytes: &frame[..len],
                behind: &frame[len..],
                record_len: 52,
            };
            let label = ("cut", sample as u64, len as u64);
            tester.read_case(label, &case, Expect::Number(1));
        }
    }
}

fn bytes_behind(tester: &mut Tester) {
    for (sample, draft) in samples().iter().enumerate() {
        let frame = draft.bytes();
        for longer in [0, 1, 2, 8, 29, 1000, 40_000] {
            let bytes = [&frame[..], &vec![0xEE; longer]].concat();
            tester.case("bytes behind", sample as u64, longer as u64, |tester| {
                let answer = tester.read(&ReadCase::new(&bytes), Expect::Number(0));
                tester.require(answer.record[0] as usize == frame.len(), || {
                    format!("the frame took {} bytes", answer.record[0])
                });
            });
        }
    }
}

/// A body length that ends inside a part is 4 even though the input goes on; one that ends
/// between two parts leaves a last part that is no header, 6.
fn shorter_bodies(tester: &mut Tester) {
    for draft in samples() {
        let mut ends = vec![0];
        let mut body = Vec::new();
        for part in draft.parts() {
            push_part(&mut body, part, false);
            ends.push(body.len());
        }
        for len in 0..body.len() {
            let mut shorter = draft.clone();
            shorter.body_length = Some(len as u32);
            let refusal = if ends.contains(&len) { 6 } else { 4 };
            number(tester, "shorter body", len, &shorter.bytes(), refusal);
        }
        for longer in 1..20 {
            let mut claimed = draft.clone();
            claimed.body_length = Some((body.len() + longer) as u32);
            number(tester, "longer body", longer, &claimed.bytes(), 1);
        }
    }
}

fn records(tester: &mut Tester) {
    let wrong = vec![0; 20];
    for draft in samples() {
        for record_len in 0..=64 {
            for bytes in [draft.bytes(), wrong.clone(), Vec::new()] {
                let case = ReadCase {
                    bytes: &bytes,
                    behind: &[],
                    record_len,
                };
                let refusal = match bytes.len() {
                    _ if record_len < 52 => 11,
                    0 => 1,
                    20 => 2,
                    _ => 0,
                };
                let label = ("record", record_len as u64, bytes.len() as u64);
                tester.read_case(label, &case, Expect::Number(refusal));
            }
        }
    }
}

fn prefix(tester: &mut Tester) {
    let frame = Draft::control().bytes();
    for at in 0..4 {
        for byte in 0..=255 {
            let mut bytes = frame.clone();
            bytes[at] = byte;
            let refusal = if byte == frame[at] { 0 } else { 2 };
            number(tester, "magic", at, &bytes, refusal);
        }
    }
    for length in [0x8001, 0x1_0000, 0x100_0015, 0x8000_0015, u32::MAX] {
        let mut draft = Draft::control();
        draft.body_length = Some(length);
        number(tester, "body length", 0, &draft.bytes(), 3);
    }
    number(tester, "empty body", 0, &frame_with(&[]), 6);
}

/// Bodies of 32,768 and 32,769 bytes, whole and cut.
fn body_limit(tester: &mut Tester) {
    for routes in [0, 1, 63, 64] {
        let rest = 38 * routes + 1 + 5 + 5 + 21;
        for (body, refusal) in [(32_767, 0), (32_768, 0), (32_769, 3), (40_000, 3)] {
            let payload = vec![0x33; body - rest];
            let frame = Draft::request(routes, b"log", Some(&payload)).bytes();
            number(tester, "body limit", body, &frame, refusal);
            let cut = &frame[..frame.len() - 1];
            let refusal = if refusal == 0 { 1 } else { 3 };
            number(tester, "body limit, cut", body, cut, refusal);
        }
    }
}

/// Payloads whose size is written in each way, at the body's end and before it.
fn part_sizes(tester: &mut Tester) {
    for len in 0..=300 {
        for long in [false, true] {
            let mut body = vec![2, b'e', 0];
            if !long && len >= 255 {
                continue;
            }
            if long {
                body.push(255);
                body.extend_from_slice(&(len as u32).to_be_bytes());
            } else {
                body.push(len as u8);
            }
            body.extend_from_slice(&vec![0x77; len]);
            push_part(&mut body, &header(4, 3, 1, 0), false);
            let refusal = if long && len < 255 { 4 } else { 0 };
            number(tester, "size", len, &frame_with(&body), refusal);
        }
    }
    sizes_past_the_end(tester);
}

fn sizes_past_the_end(tester: &mut Tester) {
    let rights = header(8, 0, 1, 2);
    for size in [
        256,
        1000,
        32_768,
        65_535,
        1 << 24,
        1 << 31,
        u32::MAX - 8,
        u32::MAX,
    ] {
        let mut body = vec![255];
        body.extend_from_slice(&size.to_be_bytes());
        body.extend_from_slice(&[0; 255]);
        number(tester, "past the end", size as usize, &frame_with(&body), 4);
    }
    for left in 0..4 {
        let mut body = Vec::new();
        push_part(&mut body, &rights, false);
        body.push(255);
        body.extend_from_slice(&vec![0; left]);
        let frame = frame_with(&body);
        number(tester, "size past the end", left, &frame, 4);
        // The same with the size's other bytes behind the frame.
        let longer = [&frame[..], &[0, 0, 1, 0, 0, 0, 0, 0]].concat();
        number(tester, "size past the end, more behind", left, &longer, 4);
    }
    for size in 1..255 {
        let frame = frame_with(&[&[size][..], &vec![0; size as usize - 1]].concat());
        let longer = [&frame[..], &[0; 8]].concat();
        number(tester, "one byte past the end", size as usize, &longer, 4);
    }
}

fn part_counts(tester: &mut Tester) {
    for routes in 0..=70 {
        for payload in [None, Some(&b"x"[..])] {
            let frame = Draft::request(routes, b"log", payload).bytes();
            let parts = routes + 3 + payload.is_some() as usize;
            let refusal = match routes {
                _ if parts > 68 => 5,
                65.. => 8,
                _ => 0,
            };
            number(tester, "routes", routes, &frame, refusal);
        }
    }
    for parts in 1..=72 {
        let refusal = if parts > 68 { 5 } else { 6 };
        number(
            tester,
            "empty parts",
            parts,
            &frame_with(&vec![0; parts]),
            refusal,
        );
    }
    byte_behind_the_parts(tester);
    fault_before_the_69th(tester);
}

/// With 68 parts any further byte is 5; with 67 it begins one more part.
fn byte_behind_the_parts(tester: &mut Tester) {
    for first in 0..=255 {
        let mut full = Draft::request(64, b"log", Some(b"x"));
        number(tester, "68 parts", 0, &full.bytes(), 0);
        full.raw = vec![first];
        number(
            tester,
            "a byte behind 68 parts",
            first as usize,
            &full.bytes(),
            5,
        );
        let mut one_less = Draft::request(64, b"log", None);
        one_less.raw = vec![first];
        let refusal = if first == 0 { 6 } else { 4 };
        number(
            tester,
            "a byte behind 67 parts",
            first as usize,
            &one_less.bytes(),
            refusal,
        );
    }
}

/// A fault in part 68 or before is 4 although a 69th part would follow.
fn fault_before_the_69th(tester: &mut Tester) {
    for at in 0..72 {
        let mut body = vec![0; at];
        body.extend_from_slice(&[255, 0, 0, 0, 254]);
        body.extend_from_slice(&[0; 400]);
        let refusal = if at >= 68 { 5 } else { 4 };
        number(tester, "fault in a part", at, &frame_with(&body), refusal);
    }
}

fn headers(tester: &mut Tester) {
    for len in 0..=300 {
        let mut draft = Draft::event(b"hb", None);
        draft.header.resize(len, 0);
        let refusal = if len == 20 { 0 } else { 6 };
        number(tester, "header length", len, &draft.bytes(), refusal);
    }
    for byte in 0..=255 {
        for (at, right, wrong) in [(0, 0x8E, 20), (1, 0x01, 21)] {
            let mut draft = Draft::control();
            draft.header[at] = byte;
            let refusal = if byte == right { 0 } else { wrong };
            number(tester, "header byte", at, &draft.bytes(), refusal);
        }
    }
    // A right header that is not the last part is only a part.
    for mut draft in samples() {
        draft.raw = vec![1, 0];
        number(tester, "part behind the header", 1, &draft.bytes(), 6);
    }
    let mut long = Draft::control();
    long.long_first = true;
    number(tester, "header with a 4-byte size", 20, &long.bytes(), 4);
}

/// Each type with each flags byte over all sets of parts.
fn types_and_flags(tester: &mut Tester) {
    let types = (0..=20).chain([31, 32, 33, 64, 72, 127, 128, 129, 136, 255]);
    for kind in types {
        for flags in 0..=255 {
            for present in 0..16 {
                let (draft, bits) = with_parts(present);
                let mut draft = draft;
                draft.header[2] = kind;
                draft.header[3] = flags;
                draft.set_field(16, 0);
                let expect = flags_expected(kind, flags, bits);
                let label = ("type and flags", kind as u64, flags as u64);
                tester.read_case(label, &ReadCase::new(&draft.bytes()), expect);
            }
        }
    }
}

/// A draft with some parts, and the flags that say so.
fn with_parts(present: u8) -> (Draft, u8) {
    let mut draft = Draft::control();
    let mut bits = 0;
    if present & 1 != 0 {
        draft.topic = Some(b"kvs.put\0".to_vec());
        bits |= 0x01;
    }
    if present & 2 != 0 {
        draft.payload = Some(if present & 8 != 0 { vec![] } else { vec![5; 9] });
        bits |= 0x02;
    }
    if present & 4 != 0 {
        draft.delimiter = true;
        draft.routes = (0..present as u64 & 2).map(route).collect();
        bits |= 0x08;
    }
    (draft, bits)
}

fn flags_expected(kind: u8, flags: u8, bits: u8) -> Expect {
    if ![1, 2, 4, 8].contains(&kind) {
        return Expect::Number(22);
    }
    if flags & 0x80 != 0 {
        return Expect::Number(23);
    }
    if flags & 0x0B != bits {
        return Expect::Refused;
    }
    let allowed: &[u8] = match kind {
        1 | 2 => &[0x09, 0x0B],
        4 => &[0x01, 0x03],
        _ => &[0x00],
    };
    Expect::Number(if allowed.contains(&bits) { 0 } else { 7 })
}

/// An empty part is the delimiter, the topic or the payload by its place alone.
fn empty_parts(tester: &mut Tester) {
    let topic = &b"log\0"[..];
    let bad = &b"no route"[..];
    let good = &route(1)[..];
    let cases: [(u8, u8, &[&[u8]], u32); 16] = [
        (1, 0x0B, &[&[], topic, &[]], 0),
        (1, 0x0B, &[good, &[], topic, &[]], 0),
        (1, 0x09, &[&[], topic, &[]], 7),
        (1, 0x09, &[&[], &[]], 9),
        (1, 0x0B, &[&[], &[], &[]], 9),
        (1, 0x0B, &[&[], &[], topic], 9),
        (1, 0x0B, &[topic, &[]], 7),
        (1, 0x09, &[topic, &[]], 7),
        (1, 0x09, &[topic], 7),
        (1, 0x09, &[topic, &[], topic], 8),
        (1, 0x09, &[bad, topic], 7),
        (1, 0x0B, &[bad, &[], topic], 7),
        (4, 0x01, &[&[]], 9),
        (4, 0x03, &[&[], &[]], 9),
        (4, 0x03, &[topic, &[]], 0),
        (8, 0x00, &[&[]], 7),
    ];
    for (place, (kind, flags, parts, refusal)) in cases.into_iter().enumerate() {
        let mut body = Vec::new();
        parts
            .iter()
            .for_each(|part| push_part(&mut body, part, false));
        push_part(&mut body, &header(kind, flags, 0, 0), false);
        number(tester, "empty part", place, &frame_with(&body), refusal);
    }
    empty_payload_start(tester);
}

/// A payload that is there and empty starts at the byte behind its size.
fn empty_payload_start(tester: &mut Tester) {
    let empty = Draft::request(2, b"log", Some(b"")).bytes();
    tester.case("an empty payload's start", 0, 0, |tester| {
        let answer = tester.read(&ReadCase::new(&empty), Expect::Number(0));
        let right = [2, 9, 8 + 38 * 2 + 2, 3, 8 + 38 * 2 + 1 + 5 + 1, 0];
        tester.require(answer.record[7..] == right, || {
            format!("the record holds {:?}", answer.record)
        });
    });
}

/// Every byte at every place of the first and of the last of three routes.
fn route_bytes(tester: &mut Tester) {
    for which in [0, 2] {
        for place in 0..37 {
            for byte in 0..=255 {
                let mut draft = Draft::request(3, b"kvs.get", None);
                draft.routes[which][place] = byte;
                let refusal = if fits_route(place, byte) { 0 } else { 8 };
                number(tester, "route byte", place, &draft.bytes(), refusal);
            }
        }
    }
}

fn route_lengths(tester: &mut Tester) {
    for which in 0..3 {
        for len in 0..=300 {
            let mut draft = Draft::request(3, b"kvs.get", None);
            draft.routes[which].resize(len, 0);
            // An empty one is the delimiter, with parts too many behind it.
            let refusal = match len {
                0 => 7,
                37 => 0,
                _ => 8,
            };
            number(tester, "route length", len, &draft.bytes(), refusal);
        }
    }
    // Two routes whose bytes together are as many as two right ones have.
    let mut draft = Draft::request(2, b"kvs.get", None);
    draft.routes[0].truncate(36);
    draft.routes[1].push(0);
    number(tester, "36 and 38 bytes", 0, &draft.bytes(), 8);
}

fn topics(tester: &mut Tester) {
    let make = |routed: bool, part: Vec<u8>| {
        let mut draft = match routed {
            true => Draft::request(1, b"", None),
            false => Draft::event(b"", Some(b"p")),
        };
        draft.topic = Some(part);
        draft.bytes()
    };
    for routed in [true, false] {
        for len in 0..=520 {
            let part = [&vec![0xC3; len][..], &[0]].concat();
            let refusal = if (1..=255).contains(&len) { 0 } else { 9 };
            number(tester, "topic length", len, &make(routed, part), refusal);
            let bare = make(routed, vec![b'x'; len]);
            number(tester, "topic without its zero", len, &bare, 9);
        }
        for len in [1, 2, 9, 253, 254, 255] {
            for zero in 0..len {
                let mut part = [&vec![b'.'; len][..], &[0]].concat();
                part[zero] = 0;
                number(tester, "zero in the topic", zero, &make(routed, part), 9);
            }
        }
        for byte in 0..=255 {
            let refusal = if byte == 0 { 9 } else { 0 };
            let frame = make(routed, vec![b'a', byte, 0]);
            number(tester, "topic byte", byte as usize, &frame, refusal);
        }
    }
}

/// Only a request's nodeid and an event's second field are looked at.
fn last_fields(tester: &mut Tester) {
    for value in field_values() {
        for mut draft in samples() {
            for extra in [0x00, 0x04, 0x10, 0x20, 0x40, 0x74] {
                draft.header[3] = draft.header[3] & 0x0B | extra;
                for field in [4, 8, 12, 16] {
                    let mut changed = draft.clone();
                    changed.set_field(field, value);
                    let refusal = match (draft.kind(), field) {
                        (1, 12) if value == 4_294_967_294 => 10,
                        (4, 16) if value != 0 => 10,
                        _ => 0,
                    };
                    number(tester, "field", field, &changed.bytes(), refusal);
                }
            }
        }
    }
}
