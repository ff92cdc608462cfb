//! Commands of 32,768 bytes, which are the longest, and of more.

use crate::command_bounds::check;
use crate::command_calls::Told;
use crate::command_parts::{filled, Sample};
use crate::tester::Tester;

const MOST: usize = 32_768;

pub fn run(tester: &mut Tester) {
    long_bodies(tester);
    empty_parts(tester);
    other_bytes(tester);
}

/// Bodies that fill a command to its limit and above it, with short and with long names.
fn long_bodies(tester: &mut Tester) {
    for body_parts in [1, 2, 15, 16] {
        for sample in Sample::each(body_parts).filter(|sample| sample.kind.has_body()) {
            for total in [MOST - 1, MOST, MOST + 1, MOST + 2, 40_000, 70_000] {
                let number = if total > MOST { 31 } else { 0 };
                let mut filled_up = filled(sample.clone(), total);
                check(tester, "limit", total, filled_up.clone(), number);
                // A separator that is wrong comes last, a name before it.
                filled_up.parts[3] = vec![1];
                filled_up.parts[2] = vec![0x7F; 37];
                let wrong = filled(filled_up, total);
                let number = match wrong.kind.has_name() {
                    _ if total > MOST => 31,
                    true => 35,
                    false => 36,
                };
                check(tester, "limit, and wrong", total, wrong, number);
            }
        }
    }
}

/// As many empty parts as there can be, alone and behind a front that is right.
fn empty_parts(tester: &mut Tester) {
    let mut fronts = vec![(32, vec![]), (33, b"\x06MDPC02".to_vec())];
    fronts.push((33, b"\x06MDPC02\x01\x04".to_vec()));
    fronts.push((33, b"\x06MDPW02\x01\x00".to_vec()));
    // All behind the command's number is one part too many at the least.
    let right = Sample::each(1).map(|sample| (34, sample.bytes()[..9].to_vec()));
    fronts.extend(right);
    for (number, front) in fronts {
        for (total, last) in [
            (MOST, 0),
            (MOST, 1),
            (MOST, 255),
            (MOST + 1, 0),
            (MOST + 1, 1),
        ] {
            let mut bytes = front.clone();
            bytes.resize(total, 0);
            bytes[total - 1] = last;
            let number = match last {
                _ if total > MOST => 31,
                0 => number,
                _ => 30,
            };
            let label = ("empty parts", front.len() as u64, total as u64);
            tester.command_case(label, &bytes, &Told::Refused(number));
        }
    }
}

/// What the bytes are matters only if they are not too many.
fn other_bytes(tester: &mut Tester) {
    for (byte, number) in [(0x01, 32), (0xFF, 30), (0xFE, 30), (0x06, 30)] {
        for total in [MOST, MOST + 1, MOST + 300, 70_000] {
            let number = if total > MOST { 31 } else { number };
            let label = ("other bytes", byte as u64, total as u64);
            tester.command_case(label, &vec![byte; total], &Told::Refused(number));
        }
    }
}
