//! The byte at fault: every fault alone and every two together, with the byte that change request 4
//! says, and what else may stand around it.

use crate::draft::{frame_with, is_right_route, Draft, Place};
use crate::reader_bounds::samples;
use crate::reader_order::{bases, each_attempt};
use crate::repairs::Repairs;
use crate::stream_parts::bad_frames;
use crate::tester::{ReadCase, Tester};
use crate::two_numbers::RECORD;
use crate::{fault_parts, fault_routes, repairs_of_one};

pub fn run(tester: &mut Tester) {
    tester.begin_group("fault");
    let mut repairs = Repairs::default();
    let pairs = order(tester, &mut repairs);
    fault_parts::run(tester, &mut repairs);
    fault_routes::run(tester, &mut repairs);
    records(tester);
    good_frames(tester);
    cut_frames(tester);
    bytes_behind(tester);
    changed_bytes(tester, &mut repairs);
    repairs_of_one::run(tester);
    tester.end_group(&format!("{pairs}; {repairs}"));
}

/// Where change request 4 puts the fault of a draft that is refused with this number.
fn place_of(draft: &Draft, number: u32) -> usize {
    let places = draft.places();
    let last = places.last();
    let header = last.map_or(0, |place| place.data);
    match number {
        4 => wrong_size(draft, &places),
        5 => places[68].size,
        6 => last.map_or(8, |place| place.size),
        7 => header,
        8 => places[wrong_route(draft)].data,
        9 => places[draft.routes.len() + draft.delimiter as usize].data,
        10 => header + if draft.kind() == 1 { 12 } else { 16 },
        20..=23 => header + number as usize - 20,
        _ => 0,
    }
}

/// The first size that is wrong; that of the bytes behind the header if it is no other.
fn wrong_size(draft: &Draft, places: &[Place]) -> usize {
    let wrong = match draft.past_end {
        _ if draft.long_first && draft.parts()[0].len() < 255 => 0,
        Some(number) => number,
        None => places.len() - 1,
    };
    places[wrong].size
}

/// The first of 64 routes that is malformed, else the 65th.
fn wrong_route(draft: &Draft) -> usize {
    let mut first = draft.routes.iter().take(64);
    first.position(|part| !is_right_route(part)).unwrap_or(64)
}

fn order(tester: &mut Tester, repairs: &mut Repairs) -> String {
    let bases = [bases(), long_bases()].concat();
    each_attempt(tester, bases, |tester, label, attempt, number| {
        let bytes = attempt.draft.bytes();
        let case = ReadCase {
            record_len: attempt.record_len(RECORD),
            ..ReadCase::fault(&bytes)
        };
        let told = [number, place_of(&attempt.draft, number) as u32];
        tester.case(label.0, label.1, label.2, |tester| {
            tester.fault(&case, Some(told));
            repairs.one_after_another(tester, &bytes);
        });
    })
}

/// Parts whose sizes are short and long, in front of the fault and with it.
fn long_bases() -> Vec<Draft> {
    vec![
        Draft::request(1, &[b't'; 253], Some(&[7; 254])),
        Draft::request(2, &[b't'; 254], Some(&[7; 255])),
        Draft::routed(2, 64, &[b't'; 255], Some(&[7; 256])),
        Draft::request(64, &[b't'; 254], None),
        Draft::event(&[b'e'; 253], Some(&[9; 1000])),
        Draft::event(&[b'e'; 255], None),
    ]
}

/// Below 8 bytes the record is refused and keeps all its bytes; above it keeps its tail.
fn records(tester: &mut Tester) {
    let good = samples().into_iter().map(|draft| (0, draft.bytes()));
    let bad = bad_frames().into_iter().map(|bad| (bad.refusal, bad.bytes));
    for (number, bytes) in good.chain(bad).chain([(1, vec![])]) {
        for record_len in (0..=17).chain([52, 1000]) {
            let case = ReadCase {
                record_len,
                ..ReadCase::new(&bytes)
            };
            tester.case("record", number as u64, record_len as u64, |tester| {
                let told = tester.fault(&case, None);
                let right = if record_len < RECORD { 0 } else { number };
                tester.require(told[0] == right, || format!("{told:?} for {right}"));
            });
        }
    }
}

fn good_frames(tester: &mut Tester) {
    for (sample, draft) in samples().iter().enumerate() {
        for longer in [0, 1, 8, 40_000] {
            let mut bytes = draft.bytes();
            bytes.resize(bytes.len() + longer, 0xEE);
            let label = ("good", sample as u64, longer as u64);
            tester.fault_case(label, &ReadCase::fault(&bytes), [0, 0]);
        }
    }
}

/// What is refused before the body is looked at has byte 0: frames cut at each byte, good and bad.
fn cut_frames(tester: &mut Tester) {
    let good = samples().into_iter().map(|draft| draft.bytes());
    let bad = bad_frames().into_iter().filter(|bad| bad.refusal > 3);
    for (number, frame) in good.chain(bad.map(|bad| bad.bytes)).enumerate() {
        for len in 0..frame.len() {
            let case = ReadCase {
                behind: &frame[len..],
                ..ReadCase::fault(&frame[..len])
            };
            tester.fault_case(("cut", number as u64, len as u64), &case, [1, 0]);
        }
    }
    for at in 0..4 {
        let mut bytes = frame_with(&[5, 1]);
        bytes[at] ^= 1;
        tester.fault_case(("magic", at as u64, 0), &ReadCase::fault(&bytes), [2, 0]);
    }
    for length in [32_769, 0x1_0000, 0x100_0015, u32::MAX] {
        let mut bytes = vec![0xFF; 40_000];
        bytes[..4].copy_from_slice(&[0xFF, 0xEE, 0x00, 0x12]);
        bytes[4..8].copy_from_slice(&length.to_be_bytes());
        let label = ("body length", length as u64, 0);
        tester.fault_case(label, &ReadCase::fault(&bytes), [3, 0]);
    }
}

/// What lies behind a frame changes neither number nor byte, be it what the frame lacks.
fn bytes_behind(tester: &mut Tester) {
    let good = Draft::request(1, b"kvs.get", None).bytes();
    for (number, bad) in bad_frames().iter().enumerate() {
        if bad.refusal == 1 {
            continue;
        }
        tester.case("behind", number as u64, bad.refusal as u64, |tester| {
            let told = tester.fault(&ReadCase::fault(&bad.bytes), None);
            for behind in [&good[..], &good[8..], &[0x14], &[0; 300], &[0xFF; 40_000]] {
                let bytes = [&bad.bytes, behind].concat();
                tester.fault(&ReadCase::fault(&bytes), Some(told));
            }
        });
    }
}

/// Each value of each byte of a few frames: whatever comes of it, the programs agree, and what can
/// be put right is.
fn changed_bytes(tester: &mut Tester, repairs: &mut Repairs) {
    let drafts = [
        Draft::control(),
        Draft::request(2, b"kvs.get", Some(b"some payload")),
        Draft::routed(2, 0, b"log", Some(b"")),
        Draft::event(b"hb", Some(b"beat")),
    ];
    for draft in drafts {
        let frame = draft.bytes();
        for at in 8..frame.len() {
            for value in 0..=255 {
                let mut bytes = frame.clone();
                bytes[at] = value;
                tester.case("changed byte", at as u64, value as u64, |tester| {
                    tester.fault(&ReadCase::fault(&bytes), None);
                    repairs.one_after_another(tester, &bytes);
                });
            }
        }
    }
}
