//! The floor that the paper prints, and what it says of it, written out by hand.

use second::frame::Header;
use second::sample::{service, tree_of, OwnedMessage, OwnedTables};

use crate::draft::{route, routes};
use crate::step_calls::{popped, pushed, told_error, Told};

pub const ANY: u32 = 4_294_967_295;

pub const PARENTS: [u32; 7] = [ANY, 0, 0, 1, 1, 2, 2];

/// The next broker from a rank (row) to another (column).
pub const NEXT: [[u32; 7]; 7] = [
    [0, 1, 2, 1, 1, 2, 2],
    [0, 1, 0, 3, 4, 0, 0],
    [0, 0, 2, 0, 0, 5, 6],
    [1, 1, 1, 3, 1, 1, 1],
    [1, 1, 1, 1, 4, 1, 1],
    [2, 2, 2, 2, 2, 5, 2],
    [2, 2, 2, 2, 2, 2, 6],
];

pub const NEIGHBOURS: [&[u32]; 7] = [&[1, 2], &[0, 3, 4], &[0, 5, 6], &[1], &[1], &[2], &[2]];

/// From each rank up to rank 0.
pub const CHAINS: [&[u32]; 7] = [
    &[0],
    &[1, 0],
    &[2, 0],
    &[3, 1, 0],
    &[4, 1, 0],
    &[5, 2, 0],
    &[6, 2, 0],
];

/// Topics, and the service of each: those that are registered, one that is not, one that begins as
/// a registered one, one that a registered one begins with, and none at all.
pub const TOPICS: [(&[u8], &[u8]); 8] = [
    (b"bench.run", b"bench"),
    (b"bench", b"bench"),
    (b"log", b"log"),
    (b"log.put", b"log"),
    (b"kvs.get", b"kvs"),
    (b"benchmark.run", b"benchmark"),
    (b"benc.run", b"benc"),
    (b".bench", b""),
];

/// Bench at 1 and 4, log at 0.
pub fn tables() -> OwnedTables {
    with_services(&[(1, b"bench"), (4, b"bench"), (0, b"log")])
}

/// The paper's tree with other services.
pub fn with_services(services: &[(u32, &[u8])]) -> OwnedTables {
    OwnedTables {
        tree: tree_of(&PARENTS),
        services: services
            .iter()
            .flat_map(|(rank, name)| service(*rank, name))
            .collect(),
        identities: (0..7).flat_map(|rank| route(1000 + rank)).collect(),
    }
}

/// The number of a rank's record for a service.
pub fn record(rank: u32, service: &[u8]) -> Option<u32> {
    match (rank, service) {
        (1, b"bench") => Some(0),
        (4, b"bench") => Some(1),
        (0, b"log") => Some(2),
        _ => None,
    }
}

/// A request with so many routes of strangers.
pub fn request(nodeid: u32, flags: u8, count: usize, topic: &[u8], payload: &[u8]) -> OwnedMessage {
    OwnedMessage {
        header: Header {
            kind: 1,
            flags: 0x09 | flags,
            userid: 0x0102_0304,
            rolemask: 0xA0B0_C0D0,
            first: nodeid,
            second: 0x8182_8384,
        },
        routes: routes(count),
        topic: topic.to_vec(),
        payload: payload.to_vec(),
    }
}

/// What the paper says of a request at a rank. Its topic is a service, and behind it a period.
pub fn told_request(
    tables: &OwnedTables,
    rank: u32,
    request: &OwnedMessage,
    service: &[u8],
) -> Told {
    let nodeid = request.header.first;
    let upstream = request.header.flags & 0x10 != 0;
    let own = record(rank, service);
    let forward = |next: u32| Told::Made([2, next, 0], pushed(tables, rank, request));
    let deliver = |record: u32| Told::Kept([1, record, 0]);
    match nodeid {
        4_294_967_294 => Told::Refused(10),
        ANY => match own {
            Some(record) => deliver(record),
            None if rank == 0 => told_error(request, 38),
            None => forward(PARENTS[rank as usize]),
        },
        _ if upstream => match own {
            Some(record) if nodeid != rank => deliver(record),
            _ if rank == 0 => told_error(request, 38),
            _ => forward(PARENTS[rank as usize]),
        },
        7.. => told_error(request, 113),
        _ if nodeid == rank => match own {
            Some(record) => deliver(record),
            None => told_error(request, 38),
        },
        _ => forward(NEXT[rank as usize][nodeid as usize]),
    }
}

/// What the paper says of a response at a rank, if its top route is this broker's, or a stranger's.
pub fn told_response(rank: u32, top: Option<u32>, response: &OwnedMessage) -> Told {
    match top {
        None => Told::Kept([5, 0, 0]),
        Some(next) if NEIGHBOURS[rank as usize].contains(&next) => {
            Told::Made([2, next, 0], popped(response))
        }
        Some(_) => Told::Refused(19),
    }
}
