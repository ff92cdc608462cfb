//! The second program by itself: the paper's walks, and demand 3 on seeded floors.

use crate::calls::{step_call, walk_call};
use crate::demand3::{frame_of, request_rest, response_rest, Rest};
use crate::floor::Tables;
use crate::frame::Header;
use crate::path::{path_of, End};
use crate::sample::{floor, request, response, route, service, tree_of};
use crate::sample::{OwnedMessage, OwnedTables, Rng};
use crate::walk::MIN_BUFFER;

const ANY: u32 = u32::MAX;

/// Bench at 1 and 4, log at 0.
fn paper_floor() -> OwnedTables {
    with_services(&[(1, b"bench"), (4, b"bench"), (0, b"log")])
}

/// Parents none,0,0,1,1,2,2.
fn with_services(services: &[(u32, &[u8])]) -> OwnedTables {
    OwnedTables {
        tree: tree_of(&[ANY, 0, 0, 1, 1, 2, 2]),
        services: services
            .iter()
            .flat_map(|(rank, name)| service(*rank, name))
            .collect(),
        identities: (0..7).flat_map(|seed| route(&mut Rng::new(seed))).collect(),
    }
}

fn paper_request(nodeid: u32, flags: u8, topic: &str) -> OwnedMessage {
    OwnedMessage {
        header: Header {
            kind: 1,
            flags: 0x09 | flags,
            userid: 1,
            rolemask: 2,
            first: nodeid,
            second: 3,
        },
        routes: Vec::new(),
        topic: topic.as_bytes().to_vec(),
        payload: Vec::new(),
    }
}

/// The paper's table: entry, nodeid, flags, topic; answer, its number, error, rank, links.
type Row = (u32, u32, u8, &'static str, [u32; 5]);

const ROWS: [Row; 11] = [
    (3, ANY, 0x00, "bench.run", [1, 0, 0, 1, 1]),
    (4, ANY, 0x00, "bench.run", [1, 1, 0, 4, 0]),
    (5, ANY, 0x00, "bench.run", [3, 0, 38, 0, 2]),
    (5, ANY, 0x00, "log", [1, 2, 0, 0, 2]),
    (6, 4, 0x00, "bench.run", [1, 1, 0, 4, 4]),
    (3, 5, 0x00, "bench.run", [3, 0, 38, 5, 4]),
    (3, 7, 0x00, "bench.run", [3, 0, 113, 3, 0]),
    (4, 4, 0x10, "bench.run", [1, 0, 0, 1, 1]),
    (0, 0, 0x10, "log.put", [3, 0, 38, 0, 0]),
    (3, ANY, 0x00, "benchmark.run", [3, 0, 38, 0, 2]),
    (5, ANY, 0x04, "bench.run", [4, 0, 38, 0, 2]),
];

/// Upstream with bench at 3, 5 and 0: the named rank is skipped, and no other.
const UPSTREAM_ROWS: [Row; 8] = [
    (3, 5, 0x10, "bench.run", [1, 0, 0, 3, 0]),
    (5, 5, 0x10, "bench.run", [1, 2, 0, 0, 2]),
    (3, 3, 0x10, "bench.run", [1, 2, 0, 0, 2]),
    (6, 0, 0x10, "bench.run", [3, 0, 38, 0, 2]),
    (0, 0, 0x10, "bench.run", [3, 0, 38, 0, 0]),
    (0, 5, 0x10, "bench.run", [1, 2, 0, 0, 0]),
    (5, 7, 0x10, "bench.run", [1, 1, 0, 5, 0]),
    (5, ANY, 0x10, "bench.run", [1, 1, 0, 5, 0]),
];

#[test]
fn the_papers_walks() {
    for (number, row) in ROWS.into_iter().enumerate() {
        check_row(&paper_floor(), row, &format!("W{}", number + 1));
    }
}

#[test]
fn the_walks_upstream() {
    let tables = with_services(&[(3, b"bench"), (5, b"bench"), (0, b"bench")]);
    for row in UPSTREAM_ROWS {
        check_row(&tables, row, &format!("entry {}, nodeid {}", row.0, row.1));
    }
}

fn check_row(tables: &OwnedTables, (entry, nodeid, flags, topic, end): Row, name: &str) {
    let message = paper_request(nodeid, flags, topic);
    let rest = request_rest(&tables.lent(), entry, &message);
    let [answer, number, error, _, rank, links] = rest.numbers;
    assert_eq!([answer, number, error, rank, links], end, "{name}");
    there_and_home(&mut Rng::new(9), tables, entry, &message);
}

#[test]
fn paths_of_the_paper() {
    let tables = paper_floor();
    let path = path_of(&tables.lent(), 6, 4, false, b"bench.run");
    assert_eq!(path.brokers, [6, 2, 0, 1, 4]);
    assert_eq!(path.end, End::Delivers(1));
    let path = path_of(&tables.lent(), 3, 4, false, b"log");
    // Not by way of rank 0.
    assert_eq!(path.brokers, [3, 1, 4]);
    assert_eq!(path.end, End::Error(38));
}

#[test]
fn demand_3_on_seeded_floors() {
    for case in 0..30_000 {
        let mut rng = Rng::for_case(1, "demand 3", case);
        let ranks = match rng.below(100) {
            0 => 1024,
            1..=9 => rng.between(1, 200),
            _ => rng.between(1, 40),
        };
        let tables = floor(&mut rng, ranks);
        let request = request(&mut rng, &tables);
        there_and_home(&mut rng, &tables, request.entry, &request.message);
    }
}

/// Two chains of 16 below rank 0, from the end of one to the end of the other: 32 routes become 64,
/// and a body of 31,552 bytes becomes one of 32,768.
#[test]
fn demand_3_at_its_limits() {
    let mut rng = Rng::new(5);
    let mut parents: Vec<u32> = (0..33)
        .map(|rank: u32| if rank == 17 { 0 } else { rank.wrapping_sub(1) })
        .collect();
    parents.resize(1024, 0);
    let mut tables = floor(&mut rng, 1024);
    tables.tree = tree_of(&parents);
    tables.services = service(32, b"bench");
    for (topic, number) in [("bench", 1), ("log", 3)] {
        let mut message = paper_request(32, 0x02, topic);
        message.routes = (0..32).flat_map(|_| route(&mut rng)).collect();
        let rest = 32 * 38 + 1 + 2 + topic.len() + 5 + 21;
        message.payload = rng.bytes(31_552 - rest);
        let there = there_and_home(&mut rng, &tables, 16, &message);
        assert_eq!(there.brokers.len(), 33);
        assert_eq!(there.numbers[0], number);
        assert_eq!(there.message.routes.len(), 64 * 37);
    }
}

/// The request's walk and two ways home, each by the walk and by steps.
fn there_and_home(rng: &mut Rng, tables: &OwnedTables, entry: u32, request: &OwnedMessage) -> Rest {
    let tables = tables.lent();
    let there = request_rest(&tables, entry, request);
    let buffer = lent_buffer(rng, request);
    let left = walked(tables, entry, &buffer, &there);
    let last = there.numbers[4];
    let reply = response(rng, request, there.message.routes.clone());
    let buffer = lent_buffer(rng, &reply);
    let home = response_rest(request, &there, &reply);
    walked(tables, last, &buffer, &home);
    if there.numbers[0] == 3 {
        let home = response_rest(request, &there, &there.message);
        walked(tables, last, &left, &home);
    }
    there
}

/// A frame with rubbish behind it.
fn lent_buffer(rng: &mut Rng, message: &OwnedMessage) -> Vec<u8> {
    let mut buffer = vec![0xA7; MIN_BUFFER + rng.pick(&[0, 0, 1, 50])];
    let frame = frame_of(&message.lent());
    buffer[..frame.len()].copy_from_slice(&frame);
    buffer
}

/// Walks by steps and by the call, from one buffer, and tells what is left in it.
fn walked(tables: Tables, entry: u32, at_start: &[u8], rest: &Rest) -> Vec<u8> {
    let mut buffer = at_start.to_vec();
    let mut record = [0; 24];
    assert_eq!(walk_call(tables, entry, &mut buffer, &mut record), 0);
    assert_eq!(numbers(&record), rest.numbers);
    assert!(rest.is_in(at_start, &buffer));
    let mut by_steps = at_start.to_vec();
    let mut visited = Vec::new();
    let (mut rank, mut record) = (entry, [0; 16]);
    loop {
        visited.push(rank);
        assert_eq!(step_call(tables, rank, &mut by_steps, &mut record), 0);
        if numbers(&record)[0] != 2 {
            break;
        }
        rank = numbers(&record)[1];
    }
    assert_eq!(visited, rest.brokers);
    assert_eq!(numbers(&record), rest.numbers[..4]);
    assert!(by_steps == buffer);
    buffer
}

fn numbers(record: &[u8]) -> Vec<u32> {
    record
        .chunks(4)
        .map(|number| u32::from_be_bytes(number.try_into().unwrap()))
        .collect()
}
