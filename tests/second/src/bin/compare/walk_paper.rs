//! Walks that are written out by hand, there and home; the paper's own are W1 to W11.

use second::demand3::Rest;
use second::frame::Header;
use second::sample::{OwnedMessage, OwnedTables};

use crate::draft::{frame_of, route};
use crate::pages::Edge;
use crate::paper_floor::{self, request, ANY};
use crate::step_calls::error_reply;
use crate::tester::Tester;
use crate::walk_calls::{WalkCase, WalkTold};
use crate::walk_runs::{Ground, Start};

/// Entry, nodeid, flags and topic; the brokers on the path; answer, its number and error number.
pub type Row = (u32, u32, u8, &'static [u8], &'static [u32], [u32; 3]);

const ROWS: [Row; 11] = [
    (3, ANY, 0x00, b"bench.run", &[3, 1], [1, 0, 0]),
    (4, ANY, 0x00, b"bench.run", &[4], [1, 1, 0]),
    (5, ANY, 0x00, b"bench.run", &[5, 2, 0], [3, 0, 38]),
    (5, ANY, 0x00, b"log", &[5, 2, 0], [1, 2, 0]),
    (6, 4, 0x00, b"bench.run", &[6, 2, 0, 1, 4], [1, 1, 0]),
    (3, 5, 0x00, b"bench.run", &[3, 1, 0, 2, 5], [3, 0, 38]),
    (3, 7, 0x00, b"bench.run", &[3], [3, 0, 113]),
    (4, 4, 0x10, b"bench.run", &[4, 1], [1, 0, 0]),
    (0, 0, 0x10, b"log.put", &[0], [3, 0, 38]),
    (3, ANY, 0x00, b"benchmark.run", &[3, 1, 0], [3, 0, 38]),
    (5, ANY, 0x04, b"bench.run", &[5, 2, 0], [4, 0, 38]),
];

pub fn run(tester: &mut Tester) {
    tester.begin_group("walk-paper");
    let tables = paper_floor::tables();
    let mut ground = Ground::new();
    for (row, number) in ROWS.iter().zip(1..) {
        let names = ["W", "home from W"];
        there_and_home(tester, &mut ground, (names, number), &tables, row);
    }
    tester.end_group("");
}

/// A row's walk with no, one and 32 routes on entry, and its responses' walks.
pub fn there_and_home(
    tester: &mut Tester,
    ground: &mut Ground,
    (names, number): ([&'static str; 2], u64),
    tables: &OwnedTables,
    row: &Row,
) {
    for routes in [0, 1, 32] {
        for longer in [0, 1, 500] {
            let there = Walk::of(row, tables, routes);
            walk(tester, ground, (names[0], number, longer), tables, &there);
            for home in there.home() {
                let label = (names[1], number, longer);
                walk(tester, ground, label, tables, &home);
            }
        }
    }
}

/// A message, and how its walk ends.
struct Walk {
    message: OwnedMessage,
    rest: Rest,
}

impl Walk {
    fn of(row: &Row, tables: &OwnedTables, routes: usize) -> Walk {
        let &(_, nodeid, flags, topic, brokers, answer) = row;
        let message = request(nodeid, flags, routes, topic, b"");
        let mut last = message.clone();
        for &rank in &brokers[..brokers.len() - 1] {
            last.routes
                .splice(..0, tables.identity(rank).iter().copied());
        }
        if answer[0] == 3 {
            last = error_reply(&last, answer[2]);
        }
        Walk {
            message,
            rest: Rest::new(brokers.to_vec(), answer, last),
        }
    }

    /// A response, and the error reply that is left.
    fn home(&self) -> Vec<Walk> {
        let response = OwnedMessage {
            header: Header {
                kind: 2,
                flags: 0x0B,
                userid: 1,
                rolemask: 2,
                first: 0,
                second: self.message.header.second,
            },
            payload: route(5),
            ..self.rest.message.clone()
        };
        let mut responses = vec![response];
        if self.rest.numbers[0] == 3 {
            responses.push(self.rest.message.clone());
        }
        let brokers: Vec<u32> = self.rest.brokers.iter().rev().copied().collect();
        let home = |message: OwnedMessage| {
            let last = OwnedMessage {
                routes: self.message.routes.clone(),
                ..message.clone()
            };
            let rest = Rest::new(brokers.clone(), [5, 0, 0], last);
            Walk { message, rest }
        };
        responses.into_iter().map(home).collect()
    }
}

/// By steps and by the call, between guard bytes and against pages.
fn walk(
    tester: &mut Tester,
    ground: &mut Ground,
    label: (&'static str, u64, u64),
    tables: &OwnedTables,
    walk: &Walk,
) {
    let mut buffer = frame_of(&walk.message.lent());
    buffer.resize(32_776 + label.2 as usize, 0xA9);
    let rank = walk.rest.brokers[0];
    let case = WalkCase {
        tables: tables.lent(),
        rank,
        buffer: &buffer,
        record_len: 24 + label.2 as usize % 7,
    };
    tester.walk_case(label, &case, &WalkTold::Rests(walk.rest.clone()));
    tester.case(label.0, label.1, label.2, |tester| {
        for edge in [Edge::End, Edge::Start] {
            let start = Start {
                tables,
                rank,
                buffer: &buffer,
                edge,
            };
            ground.walk_as(tester, &start, &walk.rest);
        }
    });
}
