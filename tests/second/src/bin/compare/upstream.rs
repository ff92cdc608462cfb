//! Upstream: the broker that the nodeid names is skipped, and no other. The cases that the change
//! request speaks of, and each entry with each nodeid: on the paper's floor with each topic, and on
//! its tree with each set of brokers that have the service.

use second::demand3::{request_rest, Rest};
use second::sample::{OwnedMessage, OwnedTables};

use crate::draft::frame_of;
use crate::pages::Edge;
use crate::paper_floor::{self, record, request, told_request, with_services};
use crate::paper_floor::{ANY, CHAINS, TOPICS};
use crate::step_calls::{error_reply, pushed};
use crate::step_rules::step;
use crate::tester::Tester;
use crate::walk_calls::{WalkCase, WalkTold};
use crate::walk_paper::{there_and_home, Row};
use crate::walk_runs::{Ground, Start};

/// Every rank, some outside of the tree, and any rank, for which the flag is ignored.
const NODEIDS: [u32; 13] = [0, 1, 2, 3, 4, 5, 6, 7, 8, 256, 1 << 31, ANY - 2, ANY];

type Named = (&'static str, Row);

/// On the paper's floor: bench at 1 and 4, log at 0.
#[rustfmt::skip]
const ON_THE_PAPERS: [Named; 8] = [
    ("entry 3, nodeid 5", (3, 5, 0x10, b"bench.run", &[3, 1], [1, 0, 0])),
    ("parent named", (3, 1, 0x10, b"bench.run", &[3, 1, 0], [3, 0, 38])),
    ("entry serves, parent named", (4, 1, 0x10, b"bench.run", &[4], [1, 1, 0])),
    ("entry serves, no such rank", (4, 7, 0x10, b"bench.run", &[4], [1, 1, 0])),
    ("entry serves, any rank", (4, ANY, 0x10, b"bench.run", &[4], [1, 1, 0])),
    ("rank 0 serves, another named", (0, 5, 0x10, b"log.put", &[0], [1, 2, 0])),
    ("rank 0 named from below", (5, 0, 0x10, b"log.put", &[5, 2, 0], [3, 0, 38])),
    ("rank 0 named, silenced", (0, 0, 0x14, b"log.put", &[0], [4, 0, 38])),
];

/// With bench at 3, 5 and 0.
#[rustfmt::skip]
const WITH_THEIR_OWN: [Named; 8] = [
    ("entry 3 serves, nodeid 5", (3, 5, 0x10, b"bench.run", &[3], [1, 0, 0])),
    ("entry 5, nodeid 5", (5, 5, 0x10, b"bench.run", &[5, 2, 0], [1, 2, 0])),
    ("entry 5 serves, nodeid 3", (5, 3, 0x10, b"bench.run", &[5], [1, 1, 0])),
    ("entry 3, nodeid 3", (3, 3, 0x10, b"bench.run", &[3, 1, 0], [1, 2, 0])),
    ("entry 3 serves, nodeid 0", (3, 0, 0x10, b"bench.run", &[3], [1, 0, 0])),
    ("entry 3 serves, no such rank", (3, 7, 0x10, b"bench.run", &[3], [1, 0, 0])),
    ("entry 6, nodeid 5", (6, 5, 0x10, b"bench.run", &[6, 2, 0], [1, 2, 0])),
    ("entry 6, nodeid 0", (6, 0, 0x10, b"bench.run", &[6, 2, 0], [3, 0, 38])),
];

pub fn run(tester: &mut Tester) {
    tester.begin_group("upstream");
    let mut ground = Ground::new();
    let own = with_services(&[(3, b"bench"), (5, b"bench"), (0, b"bench")]);
    for (tables, rows) in [
        (paper_floor::tables(), ON_THE_PAPERS),
        (own, WITH_THEIR_OWN),
    ] {
        for ((name, row), number) in rows.iter().zip(1..) {
            let names = [name, "home from there"];
            there_and_home(tester, &mut ground, (names, number), &tables, row);
        }
    }
    each_topic(tester, &mut ground);
    each_set(tester, &mut ground);
    tester.end_group("");
}

/// Each entry, nodeid and topic on the paper's floor, as a step and as a walk.
fn each_topic(tester: &mut Tester, ground: &mut Ground) {
    let tables = paper_floor::tables();
    for entry in 0..7 {
        for nodeid in NODEIDS {
            for (topic, service) in TOPICS {
                for flags in [0x10, 0x14, 0x52] {
                    let payload: &[u8] = if flags & 0x02 != 0 { b"payload" } else { b"" };
                    let request = request(nodeid, flags, 1, topic, payload);
                    let label = ("each topic", entry as u64, nodeid as u64);
                    let told = told_request(&tables, entry, &request, service);
                    step(tester, label, &tables, entry, &request, &told);
                    let rest = rest_of(&tables, entry, &request, |rank| record(rank, service));
                    walk(tester, ground, label, &tables, &request, &rest);
                }
            }
        }
    }
}

/// Each entry, nodeid and set of brokers that have the service.
fn each_set(tester: &mut Tester, ground: &mut Ground) {
    for set in 0..1u32 << 7 {
        let has_it = |rank: u32| set >> rank & 1 == 1;
        let members = (0..7).filter(|&rank| has_it(rank));
        let records: Vec<(u32, &[u8])> = members.map(|rank| (rank, &b"kvs"[..])).collect();
        let tables = with_services(&records);
        // Its record stands behind those of lower ranks.
        let number = |rank: u32| has_it(rank).then(|| (set & ((1 << rank) - 1)).count_ones());
        for entry in 0..7 {
            for nodeid in NODEIDS {
                let request = request(nodeid, 0x10, 1, b"kvs.get", b"");
                let rest = rest_of(&tables, entry, &request, number);
                let label = ("each set", set as u64, nodeid as u64);
                walk(tester, ground, label, &tables, &request, &rest);
            }
        }
    }
}

/// From the entry up to the nearest broker that has the service and is not named, else to rank 0.
/// 4294967295, as all outside of the tree, names no broker.
fn rest_of(
    tables: &OwnedTables,
    entry: u32,
    request: &OwnedMessage,
    record: impl Fn(u32) -> Option<u32>,
) -> Rest {
    let serves = |rank: u32| record(rank).filter(|_| rank != request.header.first);
    let mut brokers = Vec::new();
    let mut last = request.clone();
    for &rank in CHAINS[entry as usize] {
        brokers.push(rank);
        if let Some(number) = serves(rank) {
            return Rest::new(brokers, [1, number, 0], last);
        }
        if rank != 0 {
            last = pushed(tables, rank, &last);
        }
    }
    if request.header.flags & 0x04 != 0 {
        return Rest::new(brokers, [4, 0, 38], last);
    }
    Rest::new(brokers, [3, 0, 38], error_reply(&last, 38))
}

/// A walk by steps and by the call, and the path that is told apart from both.
fn walk(
    tester: &mut Tester,
    ground: &mut Ground,
    label: (&'static str, u64, u64),
    tables: &OwnedTables,
    request: &OwnedMessage,
    rest: &Rest,
) {
    let rank = rest.brokers[0];
    let mut buffer = frame_of(&request.lent());
    buffer.resize(32_776, 0xA9);
    let case = WalkCase {
        tables: tables.lent(),
        rank,
        buffer: &buffer,
        record_len: 24,
    };
    tester.walk_case(label, &case, &WalkTold::Rests(rest.clone()));
    tester.case(label.0, label.1, label.2, |tester| {
        let start = Start {
            tables,
            rank,
            buffer: &buffer,
            edge: Edge::End,
        };
        ground.walk_as(tester, &start, rest);
        let path = request_rest(&tables.lent(), rank, request);
        let same = path.brokers == rest.brokers && path.numbers == rest.numbers;
        tester.require(same && path.frame == rest.frame, || {
            format!("the path itself is wrong: {:?}", path.brokers)
        });
    });
}
