//! JSON payloads and records of more than 4 GiB. What lies behind the front of them is looked at once
//! all calls are made.

use second::side::{LIBRARY, SECOND};

use crate::json_calls::{answer_of, Told};
use crate::long_lengths::{ABOVE, FRONT};
use crate::pages::Repeated;
use crate::tester::{hex, Tester};
use crate::two_numbers::Answer;

/// Lengths that are small, or none, if they are cut to 32 bits.
const LENGTHS: [usize; 3] = [1 << 32, (1 << 32) + 3, ABOVE];
/// The largest byte that a record can tell.
const LAST_TOLD: usize = u32::MAX as usize;

/// Memory with the pattern of the other calls, which has no zero and is no JSON.
pub fn run(tester: &mut Tester, memory: &mut Repeated) {
    for len in LENGTHS {
        for side in [LIBRARY, SECOND] {
            memory.restore(FRONT);
            tester.case("JSON record", len as u64, 0, |tester| {
                let kept = memory.bytes()[8..16].to_vec();
                let answer = side.check_json(b"{}\0", &mut memory.bytes()[..len]);
                let left = &memory.bytes()[..16];
                let right = [&[0, 0, 0, 1, 0, 0, 0, 0], &kept[..]].concat();
                tester.count(answer);
                tester.require(answer == 0 && left == right, || {
                    format!("{} answered {answer} and {}", side.name, hex(left))
                });
            });
            memory.bytes()[..3].copy_from_slice(b"{}\0");
            tester.case("long JSON", len as u64, 0, |tester| {
                let answer = answer_of(&side, &memory.bytes()[..len]);
                same(tester, side.name, answer, Told::No(3));
            });
        }
    }
}

/// A string that goes on for 4 GiB: a byte behind them is told as the last that a record can tell.
pub fn far_bytes(tester: &mut Tester, memory: &mut Repeated) {
    memory.bytes()[..2].copy_from_slice(b"{\"");
    let len = LAST_TOLD + 4;
    for side in [LIBRARY, SECOND] {
        tester.case("far byte", len as u64, 0, |tester| {
            let answer = answer_of(&side, &memory.bytes()[..len]);
            same(tester, side.name, answer, Told::No(LAST_TOLD));
        });
    }
}

fn same(tester: &mut Tester, name: &str, answer: Answer, told: Told) {
    tester.count(answer.refusal);
    let right = told.answer();
    tester.require(answer == right, || {
        format!("{name} answered {answer:?} for {right:?}")
    });
}
