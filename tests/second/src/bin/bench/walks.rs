//! Walks: a request's way, and its response's way home.

use std::hint::black_box;

use second::demand3::{request_rest, response_rest, Rest};
use second::frame::number_at;
use second::sample::{OwnedMessage, OwnedTables};
use second::side::{Side, LIBRARY, SECOND};

use crate::buffers::{message, Buffers, BUFFERS};
use crate::floors::{binary, forked, name_at};
use crate::turns::{print_own_row, print_row, take_prepared_turns};

const ROOM: usize = 32_776;
/// The longest body that leaves room for 32 routes.
const LONGEST: usize = 31_552;

/// From where to where, and the service there.
struct Way {
    links: u32,
    entry: u32,
    target: u32,
    topic: String,
}

pub fn measure() {
    let small = [(0, 6, 6), (4, 3, 6)].map(|(links, entry, target)| Way {
        links,
        entry,
        target,
        topic: name_at(target),
    });
    let large = [NONE, (4, 2, 18), (16, 8, 24), MOST].map(forked_way);
    measure_floor("7 ranks", &binary(7), &small);
    measure_floor("64 ranks", &forked(64), &large);
    measure_floor("1,024 ranks", &forked(1024), &large);
}

/// The longest walk of the full floor over one on which no link is crossed.
pub fn measure_own() {
    let floor = forked(1024);
    for (name, body) in [("small", None), ("32 KiB", Some(LONGEST))] {
        let [most, none] = [MOST, NONE].map(|way| {
            let way = forked_way(way);
            let request = message(1, way.target, &way.topic, body);
            let rest = request_rest(&floor.lent(), way.entry, &request);
            (Buffers::new(&request, ROOM), rest)
        });
        let prepare = |count| {
            most.0.restore(count);
            none.0.restore(count);
        };
        let times = take_prepared_turns(
            BUFFERS,
            prepare,
            walker(LIBRARY, &floor, &most.0, &most.1),
            walker(LIBRARY, &floor, &none.0, &none.1),
        );
        let name = format!("32 links over 0, 1,024 ranks, {name}");
        print_own_row("walk", &name, &times);
    }
}

/// On a forked floor: links, entry and target.
const NONE: (u32, u32, u32) = (0, 32, 32);
const MOST: (u32, u32, u32) = (32, 16, 32);

fn forked_way((links, entry, target): (u32, u32, u32)) -> Way {
    Way {
        links,
        entry,
        target,
        topic: "bench.run".to_string(),
    }
}

fn measure_floor(size: &str, floor: &OwnedTables, ways: &[Way]) {
    for (name, body) in [("small", None), ("32 KiB", Some(LONGEST))] {
        for way in ways {
            let request = message(1, way.target, &way.topic, body);
            let there = request_rest(&floor.lent(), way.entry, &request);
            assert_eq!([there.numbers[0], there.numbers[5]], [1, way.links]);
            let input = format!("{} links, {size}, {name}", way.links);
            measure_walk("walk", &input, floor, &request, &there);
            let mut response = there.message.clone();
            response.header.kind = 2;
            response.header.first = 0;
            let home = response_rest(&request, &there, &response);
            measure_walk("walk home", &input, floor, &response, &home);
        }
    }
}

fn measure_walk(call: &str, input: &str, floor: &OwnedTables, message: &OwnedMessage, rest: &Rest) {
    let buffers = Buffers::new(message, ROOM);
    let times = take_prepared_turns(
        BUFFERS,
        |count| buffers.restore(count),
        walker(LIBRARY, floor, &buffers, rest),
        walker(SECOND, floor, &buffers, rest),
    );
    print_row(call, input, buffers.frame.len(), &times);
}

fn walker<'a>(
    side: Side,
    floor: &'a OwnedTables,
    buffers: &'a Buffers,
    rest: &'a Rest,
) -> impl FnMut(usize) + use<'a> {
    let entry = rest.brokers[0];
    move |number| {
        buffers.with(number, |buffer| {
            let mut record = [0; 24];
            let (tables, buffer) = (black_box(floor).lent(), black_box(buffer));
            let refusal = black_box(side).walk(tables, entry, buffer, &mut record);
            let told = [number_at(&record, 0), number_at(&record, 20)];
            assert_eq!((refusal, told), (0, [rest.numbers[0], rest.numbers[5]]));
        })
    }
}
