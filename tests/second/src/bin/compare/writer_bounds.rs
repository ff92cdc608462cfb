//! Every boundary of the writer, each with the answer that the paper gives.

use second::frame::Header;
use second::write::Message;

use crate::draft::{field_values, fits_route, frame_of, route, routes};
use crate::tester::{hex, Expect, Tester, WriteCase};

pub fn run(tester: &mut Tester) {
    tester.begin_group("writer-bounds");
    whole_frames(tester);
    outputs_and_records(tester);
    types_and_flags(tester);
    route_bytes(tester);
    route_counts(tester);
    topics(tester);
    last_fields(tester);
    body_limit(tester);
    tester.end_group("");
}

pub fn head(kind: u8, flags: u8) -> Header {
    Header {
        kind,
        flags,
        userid: 0x0102_0304,
        rolemask: 0xA0B0_C0D0,
        first: 0x1112_1314,
        second: if kind == 4 { 0 } else { 0x8182_8384 },
    }
}

fn number(tester: &mut Tester, what: &'static str, at: usize, message: Message, refusal: u32) {
    let case = WriteCase {
        message,
        out_len: 33_000,
        record_len: 4,
    };
    let label = (what, at as u64, refusal as u64);
    tester.write_case(label, &case, Expect::Number(refusal));
}

fn of_parts<'a>(header: Header, parts: [&'a [u8]; 3]) -> Message<'a> {
    let [routes, topic, payload] = parts;
    Message {
        header,
        routes,
        topic,
        payload,
    }
}

/// Messages with every number of routes and the lengths at which the sizes change.
fn whole_frames(tester: &mut Tester) {
    let long = vec![0x6D; 40_000];
    let stack = routes(64);
    let shapes = [(1, 0x09), (2, 0x0B), (4, 0x01), (4, 0x03), (8, 0x00)];
    for (kind, parts) in shapes {
        for extra in [0x00, 0x04, 0x10, 0x20, 0x40, 0x74] {
            let flags = parts | extra;
            for (turn, payload) in [0, 1, 254, 255, 256, 1024].into_iter().enumerate() {
                for (step, topic) in [1, 2, 252, 253, 254, 255].into_iter().enumerate() {
                    let count = [0, 1, 2, 31, 63, 64][(turn + step) % 6];
                    let given = |flag: u8, len: usize| if flags & flag != 0 { len } else { 0 };
                    let routes = &stack[..37 * given(0x08, count)];
                    let topic = &long[..given(0x01, topic)];
                    let payload = &long[..given(0x02, payload)];
                    let message = of_parts(head(kind, flags), [routes, topic, payload]);
                    whole_frame(tester, message);
                }
            }
        }
    }
}

fn whole_frame(tester: &mut Tester, message: Message) {
    let frame = frame_of(&message);
    let case = WriteCase {
        message,
        out_len: frame.len() + 33,
        record_len: 9,
    };
    tester.case("whole frame", frame.len() as u64, 0, |tester| {
        let answer = tester.write(&case, Expect::Number(0));
        tester.require(answer.frame() == frame, || {
            format!("{} in place of {}", hex(answer.frame()), hex(&frame))
        });
    });
}

/// Outputs of each length around the frame's, and records of each length.
fn outputs_and_records(tester: &mut Tester) {
    let stack = routes(2);
    let messages = [
        of_parts(head(8, 0x00), [b"", b"", b""]),
        of_parts(head(1, 0x0B), [&stack, b"kvs.get", b""]),
        of_parts(head(2, 0x09), [&[], &[b't'; 254], b""]),
        of_parts(head(4, 0x03), [b"", b"hb", &[3; 255]]),
    ];
    for message in messages {
        let needed = frame_of(&message).len();
        for out_len in 0..needed + 70 {
            let case = WriteCase {
                message,
                out_len,
                record_len: 4,
            };
            let refusal = if out_len < needed { 11 } else { 0 };
            let label = ("output", out_len as u64, needed as u64);
            tester.write_case(label, &case, Expect::Number(refusal));
        }
        for record_len in 0..=64 {
            let mut wrong = message;
            wrong.header.kind = 3;
            for (message, refusal) in [(message, 0), (wrong, 22)] {
                let case = WriteCase {
                    message,
                    out_len: needed,
                    record_len,
                };
                let refusal = if record_len < 4 { 11 } else { refusal };
                let label = ("record", record_len as u64, needed as u64);
                tester.write_case(label, &case, Expect::Number(refusal));
            }
        }
    }
}

/// Each type with each flags byte, over all sets of parts given.
fn types_and_flags(tester: &mut Tester) {
    let stack = routes(1);
    let types = (0..=20).chain([31, 32, 33, 64, 72, 127, 128, 129, 136, 255]);
    for kind in types {
        for flags in 0..=255 {
            for given in 0..8 {
                let part = |bit: u8, data: &'static [u8]| if given & bit != 0 { data } else { b"" };
                let routes = if given & 4 != 0 { &stack[..] } else { &[] };
                let parts = [routes, part(1, b"kvs.get"), part(2, b"payload")];
                let case = WriteCase {
                    message: of_parts(head(kind, flags), parts),
                    out_len: 200,
                    record_len: 4,
                };
                let expect = Expect::Number(flags_expected(kind, flags, given));
                let label = ("type and flags", kind as u64, flags as u64);
                tester.write_case(label, &case, expect);
            }
        }
    }
}

fn flags_expected(kind: u8, flags: u8, given: u8) -> u32 {
    if ![1, 2, 4, 8].contains(&kind) {
        return 22;
    }
    if flags & 0x80 != 0 {
        return 23;
    }
    let allowed: &[u8] = match kind {
        1 | 2 => &[0x09, 0x0B],
        4 => &[0x01, 0x03],
        _ => &[0x00],
    };
    let unflagged = (given & 1 != 0 && flags & 0x01 == 0)
        || (given & 2 != 0 && flags & 0x02 == 0)
        || (given & 4 != 0 && flags & 0x08 == 0);
    if unflagged || !allowed.contains(&(flags & 0x0B)) {
        7
    } else if flags & 0x01 != 0 && given & 1 == 0 {
        9
    } else {
        0
    }
}

/// Every byte at every place of the first and of the last of three routes.
fn route_bytes(tester: &mut Tester) {
    for which in [0, 2] {
        for place in 0..37 {
            for byte in 0..=255 {
                let mut stack = routes(3);
                stack[37 * which + place] = byte;
                let case = WriteCase {
                    message: of_parts(head(1, 0x09), [&stack, b"kvs", b""]),
                    out_len: 200,
                    record_len: 4,
                };
                let refusal = if fits_route(place, byte) { 0 } else { 8 };
                let label = ("route byte", place as u64, byte as u64);
                tester.write_case(label, &case, Expect::Number(refusal));
            }
        }
    }
}

/// Routes of each length in bytes; 64 of them are the most.
fn route_counts(tester: &mut Tester) {
    let stack = routes(70);
    for len in 0..=stack.len() {
        let message = of_parts(head(1, 0x09), [&stack[..len], b"kvs", b""]);
        let refusal = if len % 37 == 0 && len / 37 <= 64 {
            0
        } else {
            8
        };
        number(tester, "route bytes", len, message, refusal);
    }
    for last in [64, 65, 66] {
        // A wrong route behind the 64th is 8 as well.
        let mut wrong = routes(last);
        wrong[37 * (last - 1)] = b'G';
        let message = of_parts(head(2, 0x09), [&wrong, b"kvs", b""]);
        number(tester, "last route wrong", last, message, 8);
    }
    // A route of 36 and one of 38 bytes are no two routes of 37.
    let mut shifted = route(1);
    shifted.truncate(36);
    shifted.extend_from_slice(&route(2));
    shifted.push(0);
    let message = of_parts(head(1, 0x09), [&shifted, b"kvs", b""]);
    number(tester, "36 and 38 bytes", 0, message, 8);
}

fn topics(tester: &mut Tester) {
    for kind in [1, 4] {
        let flags = if kind == 1 { 0x0B } else { 0x03 };
        for len in 0..=520 {
            let topic = vec![0xF0; len];
            let message = of_parts(head(kind, flags), [b"", &topic, b"p"]);
            let refusal = if (1..=255).contains(&len) { 0 } else { 9 };
            number(tester, "topic length", len, message, refusal);
        }
        for len in [1, 2, 9, 254, 255] {
            for zero in 0..len {
                let mut topic = vec![b'.'; len];
                topic[zero] = 0;
                let message = of_parts(head(kind, flags), [b"", &topic, b""]);
                number(tester, "zero in the topic", zero, message, 9);
            }
        }
        for byte in 0..=255 {
            let topic = [b'a', byte];
            let message = of_parts(head(kind, flags), [b"", &topic, b""]);
            let refusal = if byte == 0 { 9 } else { 0 };
            number(tester, "topic byte", byte as usize, message, refusal);
        }
    }
}

fn last_fields(tester: &mut Tester) {
    for value in field_values() {
        for (kind, parts) in [(1, 0x09), (2, 0x09), (4, 0x01), (8, 0x00)] {
            for extra in [0x00, 0x04, 0x10, 0x20, 0x40, 0x74] {
                for field in 0..4 {
                    let mut header = head(kind, parts | extra);
                    match field {
                        0 => header.userid = value,
                        1 => header.rolemask = value,
                        2 => header.first = value,
                        _ => header.second = value,
                    }
                    let topic = if kind == 8 { &b""[..] } else { b"hb" };
                    let message = of_parts(header, [b"", topic, b""]);
                    let refusal = match (kind, field) {
                        (1, 2) if value == 4_294_967_294 => 10,
                        (4, 3) if value != 0 => 10,
                        _ => 0,
                    };
                    number(tester, "field", field, message, refusal);
                }
            }
        }
    }
}

/// Bodies of 32,768 and 32,769 bytes with each number of routes, into outputs that are exact,
/// one byte short and empty: 3 comes before 11.
fn body_limit(tester: &mut Tester) {
    let payload = vec![0x2E; 33_000];
    let stack = routes(64);
    for count in 0..=64 {
        for topic_len in [1, 253, 254, 255] {
            let topic = vec![b'k'; topic_len];
            let topic_part = topic_len + 1 + if topic_len < 254 { 1 } else { 5 };
            let rest = 38 * count + 1 + topic_part + 5 + 21;
            for body in [32_767, 32_768, 32_769] {
                let parts = [&stack[..37 * count], &topic, &payload[..body - rest]];
                for out_len in [0, 8, 8 + body - 1, 8 + body] {
                    let case = WriteCase {
                        message: of_parts(head(1, 0x0B), parts),
                        out_len,
                        record_len: 4,
                    };
                    let refusal = match out_len {
                        _ if body > 32_768 => 3,
                        _ if out_len < 8 + body => 11,
                        _ => 0,
                    };
                    let label = ("body limit", body as u64, out_len as u64);
                    tester.write_case(label, &case, Expect::Number(refusal));
                }
            }
        }
    }
}
