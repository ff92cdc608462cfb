//! One broker's step.

use std::hint::black_box;

use second::frame::number_at;
use second::sample::{OwnedMessage, OwnedTables};
use second::side::{Side, LIBRARY, SECOND};

use crate::buffers::{message, Buffers, BUFFERS};
use crate::floors::{binary, hostile, name_at, nearly_equal};
use crate::turns::{print_row, take_prepared_turns};

const ROOM: usize = 32_776;
/// The longest body that still grows by a route.
const LONGEST: usize = 32_730;

/// A step to measure: the rank, and the message, if its body has so many bytes.
struct Kind {
    name: &'static str,
    answer: u32,
    make: fn(&OwnedTables, Option<usize>) -> (u32, OwnedMessage),
}

const KINDS: [Kind; 5] = [
    Kind {
        name: "delivers",
        answer: 1,
        make: |floor, body| {
            let rank = last(floor);
            (rank, message(1, rank, &name_at(rank), body))
        },
    },
    Kind {
        name: "forwards",
        answer: 2,
        make: |floor, body| {
            let rank = last(floor);
            (rank, message(1, rank / 2 + 1, "kvs.get", body))
        },
    },
    Kind {
        name: "replies",
        answer: 3,
        make: |_, body| (0, message(1, u32::MAX, "kvs.get", body)),
    },
    Kind {
        name: "sends home",
        answer: 2,
        make: |floor, body| {
            let rank = last(floor);
            let parent = number_at(&floor.tree, 4 * rank as usize);
            // The broker's route takes the place of 38 bytes of payload.
            let mut response = message(2, 0, "kvs.get", body.map(|body| body - 38));
            let top = floor.identity(parent).iter().copied();
            response.routes.splice(..0, top);
            (rank, response)
        },
    },
    Kind {
        name: "is home",
        answer: 5,
        make: |floor, body| (last(floor), message(2, 0, "kvs.get", body)),
    },
];

fn last(floor: &OwnedTables) -> u32 {
    floor.ranks() as u32 - 1
}

/// `given` are tables of the caller's, made to be slow.
pub fn measure(given: Option<&OwnedTables>) {
    for (ranks, size) in [(7, "7 ranks"), (64, "64 ranks"), (1024, "1,024 ranks")] {
        let floor = binary(ranks);
        for kind in &KINDS {
            measure_step(kind, &format!("small, {size}"), &floor, None);
            measure_step(kind, &format!("32 KiB, {size}"), &floor, Some(LONGEST));
        }
    }
    let near = "small, 1,024 ranks that differ in their last bytes";
    measure_step(&KINDS[4], near, &nearly_equal(), None);
    measure_step(&KINDS[4], "small, 1,024 hostile ones", &hostile(), None);
    if let Some(tables) = given {
        measure_step(&KINDS[4], "small, 1,024 given ones", tables, None);
    }
}

fn measure_step(kind: &Kind, input: &str, floor: &OwnedTables, body: Option<usize>) {
    let (rank, message) = (kind.make)(floor, body);
    let buffers = Buffers::new(&message, ROOM);
    let step = |side: Side| {
        let buffers = &buffers;
        move |number: usize| {
            buffers.with(number, |buffer| {
                let mut record = [0; 16];
                let (tables, buffer) = (black_box(floor).lent(), black_box(buffer));
                let refusal = black_box(side).step(tables, rank, buffer, &mut record);
                assert_eq!((refusal, number_at(&record, 0)), (0, kind.answer));
            })
        }
    };
    let prepare = |count| buffers.restore(count);
    let times = take_prepared_turns(BUFFERS, prepare, step(LIBRARY), step(SECOND));
    let call = format!("step, {}", kind.name);
    print_row(&call, input, buffers.frame.len(), &times);
}
