//! Demand 3 at the limits of its premises, there and home: depth 16 both ways, 1,024 ranks, 32
//! routes, bodies of 31,552 bytes; and upstream from depth 16.

use second::sample::{service, OwnedMessage, OwnedTables, Request, Rng};

use crate::draft::route;
use crate::paper_floor::{request, ANY};
use crate::seeded_walks::there_and_home;
use crate::tester::Tester;
use crate::walk_bounds::{across, forked};
use crate::walk_runs::Ground;

pub fn run(tester: &mut Tester) {
    tester.begin_group("walk-limits");
    let mut ground = Ground::new();
    for (up, down) in [(1, 1), (1, 16), (8, 8), (16, 1), (15, 16), (16, 16)] {
        for body in [0, 31_551, 31_552] {
            for count in [0, 31, 32] {
                limits(tester, &mut ground, [33, up, down], body, count);
            }
        }
    }
    limits(tester, &mut ground, [1024, 16, 16], 31_552, 32);
    for server in 0..=16 {
        for (body, count) in [(0, 0), (31_552, 32)] {
            upstream(tester, &mut ground, server, body, count);
        }
    }
    tester.end_group("");
}

/// A request across a forked tree, delivered, answered with an error, and silenced.
fn limits(
    tester: &mut Tester,
    ground: &mut Ground,
    [ranks, up, down]: [u32; 3],
    body: usize,
    count: usize,
) {
    let tables = forked(ranks as usize);
    for (topic, flags, answer) in [
        (&b"bench"[..], 0x00, 1),
        (b"bencl", 0x00, 3),
        (b"bencl", 0x04, 4),
    ] {
        let message = of_size(request(16 + down, flags, 0, topic, b""), body, count);
        let right = (across(up, down), answer);
        check(tester, ground, &tables, message, right);
    }
}

/// A request up a chain of 16, on which one broker has the service: it is named, another is, one
/// outside of the tree, and any rank.
fn upstream(tester: &mut Tester, ground: &mut Ground, server: u32, body: usize, count: usize) {
    let tables = OwnedTables {
        services: service(server, b"bench"),
        ..forked(33)
    };
    for (nodeid, last, answer) in [
        (server, 0, 3),
        ((server + 1) % 17, server, 1),
        (17, server, 1),
        (33, server, 1),
        (ANY, server, 1),
    ] {
        let message = of_size(request(nodeid, 0x10, 0, b"bench", b""), body, count);
        let right = ((last..=16).rev().collect(), answer);
        check(tester, ground, &tables, message, right);
    }
}

/// The same request with so many routes and, if a body is given, a payload with which it has so
/// many bytes.
fn of_size(mut message: OwnedMessage, body: usize, count: usize) -> OwnedMessage {
    let rest = 38 * count + 1 + 2 + message.topic.len() + 5 + 21;
    if body > 0 {
        message.header.flags |= 0x02;
        message.payload = vec![0x6F; body - rest];
    }
    message.routes = (0..count as u64).flat_map(|at| route(5000 + at)).collect();
    message
}

/// The brokers on the path and its answer are these, and the walk is that of the path.
fn check(
    tester: &mut Tester,
    ground: &mut Ground,
    tables: &OwnedTables,
    message: OwnedMessage,
    (brokers, answer): (Vec<u32>, u32),
) {
    let seed = message.payload.len() + message.routes.len();
    let request = Request {
        entry: brokers[0],
        message,
    };
    let last = brokers[brokers.len() - 1];
    tester.case("limits", request.entry as u64, last as u64, |tester| {
        let mut rng = Rng::new(seed as u64);
        let there = there_and_home(tester, &mut rng, ground, tables, &request);
        let right = there.brokers == brokers && there.numbers[0] == answer;
        tester.require(right, || {
            format!("the path itself is wrong: {:?}", there.brokers)
        });
    });
}
