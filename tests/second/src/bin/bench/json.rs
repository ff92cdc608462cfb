//! Whether a payload is JSON.

use std::hint::black_box;

use second::side::{Side, LIBRARY, SECOND};

use crate::json_inputs::{DEEP, FLAT, SHAPES};
use crate::turns::{print_own_row, print_row, take_turns};

/// About what the largest frame has room for.
const LARGE: usize = 32_700;
const SMALL: usize = 700;

pub fn measure() {
    for shape in &SHAPES {
        measure_payload(shape.name, &shape.payload(LARGE));
    }
    let record = &SHAPES[SHAPES.len() - 1];
    measure_payload("a small record", &record.payload(SMALL));
}

/// A payload against the second program, and where they are linked against other parsers.
fn measure_payload(name: &str, payload: &[u8]) {
    let times = take_turns(checker(LIBRARY, payload), checker(SECOND, payload));
    print_row("check_json", name, payload.len(), &times);
    #[cfg(feature = "others")]
    for (other, parse) in crate::others::OTHERS {
        let text = &payload[..payload.len() - 1];
        let parse = || assert!(black_box(parse)(black_box(text)));
        let times = take_turns(checker(LIBRARY, payload), parse);
        let name = format!("{name}, against {other}");
        print_row("check_json", &name, payload.len(), &times);
    }
}

/// Twice the bytes, of payloads so long that the processor does not know their branches by heart from
/// one call to the next; and deep levels over the same bytes side by side.
pub fn measure_own() {
    for shape in &SHAPES {
        let name = format!("twice the bytes, {}", shape.name);
        compare(&name, &shape.payload(8 * LARGE), &shape.payload(4 * LARGE));
    }
    let name = "32 levels over flat, the same bytes";
    compare(name, &DEEP.payload(LARGE), &FLAT.payload(LARGE));
}

/// One payload against another, both by the library.
fn compare(name: &str, one: &[u8], other: &[u8]) {
    let times = take_turns(checker(LIBRARY, one), checker(LIBRARY, other));
    print_own_row("check_json", name, &times);
}

fn checker(side: Side, payload: &[u8]) -> impl FnMut() + use<'_> {
    let mut record = [0; 8];
    move || {
        let answer = black_box(side).check_json(black_box(payload), black_box(&mut record));
        assert_eq!((answer, record[3]), (0, 1));
    }
}
