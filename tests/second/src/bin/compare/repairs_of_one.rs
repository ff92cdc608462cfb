//! Good frames with one byte wrong, which is the byte told: put back, the frame is good again. And
//! faults that no value of the byte told puts right.

use crate::draft::{fits_route, frame_with, header, push_part, Draft};
use crate::reader_bounds::samples;
use crate::tester::{ReadCase, Tester};

pub fn run(tester: &mut Tester) {
    for (sample, draft) in samples().iter().enumerate() {
        let good = draft.bytes();
        for (number, at, values) in wrong_bytes(draft, &good) {
            for value in values {
                let label = ("one byte", 1000 * sample as u64 + number as u64, at as u64);
                tester.case(label.0, label.1, label.2, |tester| {
                    put_back(tester, &good, [number, at as u32], value);
                });
            }
        }
    }
    nodeid(tester);
    no_value_does_it(tester);
}

fn put_back(tester: &mut Tester, good: &[u8], right: [u32; 2], value: u8) {
    let mut bytes = good.to_vec();
    bytes[right[1] as usize] = value;
    let told = tester.fault(&ReadCase::fault(&bytes), Some(right));
    // A byte that is nowhere in the frame has failed already.
    let at = told[1] as usize;
    if let Some(&right) = good.get(at) {
        bytes[at] = right;
        tester.fault(&ReadCase::fault(&bytes), Some([0, 0]));
    }
}

/// The number, the byte and its wrong values, for all that one byte can do to a good frame.
fn wrong_bytes(draft: &Draft, good: &[u8]) -> Vec<(u32, usize, Vec<u8>)> {
    let places = draft.places();
    let header = places[places.len() - 1].data;
    let all = |wrong: &dyn Fn(u8) -> bool| (0..=255).filter(|&byte| wrong(byte)).collect();
    let mut bytes = vec![
        (20, header, all(&|byte| byte != 0x8E)),
        (21, header + 1, all(&|byte| byte != 0x01)),
        (22, header + 2, all(&|byte| ![1, 2, 4, 8].contains(&byte))),
        (23, header + 3, vec![good[header + 3] | 0x80]),
    ];
    for place in &places {
        let left = good.len() - place.size - 1;
        let past_end = all(&|size| size != 255 && size as usize > left);
        bytes.push((4, place.size, past_end));
    }
    for place in &places[..draft.routes.len()] {
        bytes.push((8, place.data, all(&|byte| !fits_route(0, byte))));
    }
    if draft.topic.is_some() {
        let topic = draft.routes.len() + draft.delimiter as usize;
        bytes.push((9, places[topic].data, vec![0]));
    }
    if draft.kind() == 4 {
        bytes.push((10, header + 16, all(&|byte| byte != 0)));
    }
    bytes
}

/// The forbidden nodeid is one byte away from others.
fn nodeid(tester: &mut Tester) {
    for routes in [0, 1, 64] {
        for payload in [None, Some(&[7; 300][..])] {
            let mut draft = Draft::request(routes, b"kvs.get", payload);
            draft.set_field(12, 0x00FF_FFFE);
            let good = draft.bytes();
            let at = good.len() as u32 - 8;
            tester.case("nodeid", routes as u64, at as u64, |tester| {
                put_back(tester, &good, [10, at], 0xFF);
            });
        }
    }
}

/// Each value at the byte told: a 69th part stays one, 7 becomes 20 unless the byte stays, a 65th
/// route stays the 65th, and other lengths stay as wrong as they are.
fn no_value_does_it(tester: &mut Tester) {
    let mut many = Draft::request(64, b"log", Some(b"x"));
    many.raw = vec![20];
    let mut disagree = Draft::request(1, b"log", None);
    disagree.header[3] |= 0x02;
    let mut short_route = Draft::request(2, b"log", None);
    short_route.routes[1].truncate(36);
    let mut short_header = Draft::event(b"hb", None);
    short_header.header.truncate(19);
    let frames = [
        many,
        disagree,
        Draft::request(65, b"log", None),
        short_route,
        short_header,
        Draft::event(&[b't'; 256], None),
    ];
    for draft in frames {
        let bytes = draft.bytes();
        for value in 0..=255 {
            tester.case("any value", bytes.len() as u64, value as u64, |tester| {
                still_refused(tester, &bytes, value);
            });
        }
    }
    no_part(tester);
}

fn still_refused(tester: &mut Tester, bytes: &[u8], value: u8) {
    let [number, at] = tester.fault(&ReadCase::fault(bytes), None);
    let mut changed = bytes.to_vec();
    if let Some(byte) = changed.get_mut(at as usize) {
        *byte = value;
    }
    let next = tester.fault(&ReadCase::fault(&changed), None);
    let same = next == [number, at];
    let right = match number {
        5 => same,
        7 if value == 0x8E => same,
        7 => next == [20, at],
        8 if at == 9 + 38 * 64 => same,
        _ => next[0] != 0,
    };
    tester.require(right, || {
        format!("[{number}, {at}] with {value} is {next:?}")
    });
}

/// The byte told lies behind a frame without a part, and what stands there does not matter.
fn no_part(tester: &mut Tester) {
    for value in 0..=255 {
        let mut behind = vec![];
        push_part(&mut behind, &header(8, 0, 1, 2), false);
        behind[0] = value;
        let bytes = [frame_with(&[]), behind].concat();
        tester.fault_case(
            ("no part", value as u64, 0),
            &ReadCase::fault(&bytes),
            [6, 8],
        );
    }
}
