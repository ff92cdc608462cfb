//! Every rule of the step on the paper's floor: who delivers, who forwards and where to, who
//! replies with which error, who is home.

use second::frame::Header;
use second::sample::{service, tree_of, OwnedMessage, OwnedTables};

use crate::draft::{frame_of, route, routes};
use crate::paper_floor::{self, told_request, told_response, ANY, TOPICS};
use crate::step_calls::{popped, pushed, told_error, StepCase, Told};
use crate::tester::Tester;

pub fn run(tester: &mut Tester) {
    tester.begin_group("step-rules");
    requests(tester);
    ranks(tester);
    responses(tester);
    one_rank(tester);
    services(tester);
    single_bytes(tester);
    record_numbers(tester);
    larger_parents(tester);
    full_star(tester);
    full_star_upstream(tester);
    tester.end_group("");
}

/// A step with some rubbish behind the frame.
pub fn step(
    tester: &mut Tester,
    label: (&'static str, u64, u64),
    tables: &OwnedTables,
    rank: u32,
    message: &OwnedMessage,
    told: &Told,
) {
    let mut buffer = frame_of(&message.lent());
    buffer.resize(buffer.len() + 60, 0xC7);
    let case = StepCase {
        tables: tables.lent(),
        rank,
        buffer: &buffer,
        record_len: 16,
    };
    tester.step_case(label, &case, told);
}

/// Each rank, nodeid, flag and topic with each other.
fn requests(tester: &mut Tester) {
    let tables = paper_floor::tables();
    let far = [
        255,
        256,
        1 << 24,
        1 << 31,
        4_294_967_293,
        4_294_967_294,
        ANY,
    ];
    let nodeids: Vec<u32> = (0..=8).chain(far).collect();
    for rank in 0..7 {
        for &nodeid in &nodeids {
            for extra in [0x00, 0x10] {
                for quiet in [0x00, 0x04, 0x40, 0x44, 0x24] {
                    for (number, (topic, service)) in TOPICS.into_iter().enumerate() {
                        let count = (rank as usize + number) % 3;
                        let flags = extra | quiet | 0x02;
                        let request =
                            paper_floor::request(nodeid, flags, count, topic, b"some payload");
                        let told = told_request(&tables, rank, &request, service);
                        let label = ("request", rank as u64, nodeid as u64);
                        step(tester, label, &tables, rank, &request, &told);
                    }
                }
            }
        }
    }
}

/// A rank that is not in the tree is 17, whatever is asked of it.
fn ranks(tester: &mut Tester) {
    let tables = paper_floor::tables();
    for rank in [7, 8, 255, 256, 1 << 16, 1 << 24, 1 << 31, ANY - 1, ANY] {
        for nodeid in [0, 6, 7, ANY] {
            let request = paper_floor::request(nodeid, 0, 0, b"log", b"");
            let label = ("rank", rank as u64, nodeid as u64);
            step(tester, label, &tables, rank, &request, &Told::Refused(17));
        }
    }
}

fn response(routes: &[u8], flags: u8, payload: &[u8]) -> OwnedMessage {
    OwnedMessage {
        header: Header {
            kind: 2,
            flags: 0x09 | flags,
            userid: 5,
            rolemask: 6,
            first: 0xFFFF_FFFE,
            second: 8,
        },
        routes: routes.to_vec(),
        topic: b"bench.run".to_vec(),
        payload: payload.to_vec(),
    }
}

/// Top routes: each broker, a stranger, one that differs from each broker in a digit, and none.
fn responses(tester: &mut Tester) {
    let tables = paper_floor::tables();
    let mut tops: Vec<(Option<u32>, Vec<u8>)> = vec![(None, Vec::new()), (None, route(1))];
    for rank in 0..7 {
        let identity = tables.identity(rank).to_vec();
        tops.push((Some(rank), identity.clone()));
        for place in [0, 7, 9, 24, 35] {
            let mut near = identity.clone();
            near[place] = if near[place] == b'a' { b'b' } else { b'a' };
            tops.push((None, near));
        }
    }
    // What lies below the top does not matter.
    let below = [
        Vec::new(),
        route(2),
        tables.identity(0).to_vec(),
        tables.identities.clone(),
        routes(63),
    ];
    for rank in 0..7 {
        for (number, (top, top_route)) in tops.iter().enumerate() {
            for (depth, below) in below.iter().enumerate() {
                if top_route.is_empty() && depth > 0 {
                    continue;
                }
                for (flags, payload) in [(0x00, &b""[..]), (0x76, b"payload"), (0x02, b"")] {
                    let response = response(&[&top_route[..], below].concat(), flags, payload);
                    let told = told_response(rank, *top, &response);
                    let label = ("response", rank as u64, number as u64);
                    step(tester, label, &tables, rank, &response, &told);
                }
            }
        }
    }
}

/// In a tree of one rank there is no neighbour.
fn one_rank(tester: &mut Tester) {
    let tables = OwnedTables {
        tree: tree_of(&[ANY]),
        services: service(0, b"log"),
        identities: route(7),
    };
    for (number, routes, told) in [
        (0, Vec::new(), Told::Kept([5, 0, 0])),
        (1, route(8), Told::Kept([5, 0, 0])),
        (2, route(7), Told::Refused(19)),
    ] {
        let response = response(&routes, 0, b"");
        let label = ("response to one rank", number, 0);
        step(tester, label, &tables, 0, &response, &told);
    }
    for nodeid in [0, 1, ANY] {
        for topic in [&b"log.x"[..], b"kvs"] {
            let request = paper_floor::request(nodeid, 0, 1, topic, b"");
            let told = match topic {
                _ if nodeid == 1 => told_error(&request, 113),
                b"kvs" => told_error(&request, 38),
                _ => Told::Kept([1, 0, 0]),
            };
            let label = ("request to one rank", nodeid as u64, 0);
            step(tester, label, &tables, 0, &request, &told);
        }
    }
}

const LONGEST: &[u8] = b"abcdefghijklmnopqrstuvwxyz0";

/// Services by their name: whole, bytewise, never cut, never empty.
fn services(tester: &mut Tester) {
    let mut tables = paper_floor::tables();
    let names = [LONGEST, &LONGEST[..26], b"bench", b"B", b"\xFF\x01"];
    tables.services = names.iter().flat_map(|name| service(3, name)).collect();
    let mut topics: Vec<(Vec<u8>, Option<u32>)> = Vec::new();
    for (number, name) in names.iter().enumerate() {
        for method in [&b""[..], b".", b"..", b".x", b".\xFF"] {
            let mut topic = [name, method].concat();
            topics.push((topic.clone(), Some(number as u32)));
            if !method.is_empty() {
                topic.resize(255, b'm');
                topics.push((topic, Some(number as u32)));
            }
        }
    }
    let none: [&[u8]; 15] = [
        b".get",
        b".",
        b"..",
        b".bench",
        b"benc",
        b"benchm",
        b"benchmark.run",
        b"Bench",
        b"b",
        b"BB",
        b"ench",
        b"bench ",
        b" bench",
        b"\xFF",
        b"\x01",
    ];
    topics.extend(none.iter().map(|topic| (topic.to_vec(), None)));
    for longer in (1..=10).chain([100, 227, 228]) {
        // The longest name is how such a service begins.
        let topic = [LONGEST, &vec![b'y'; longer]].concat();
        topics.push((topic, None));
    }
    topics.push((vec![b'q'; 255], None));
    for (number, (topic, record)) in topics.iter().enumerate() {
        for nodeid in [3, ANY] {
            let request = paper_floor::request(nodeid, 0, 0, topic, b"p");
            let told = match record {
                Some(record) => Told::Kept([1, *record, 0]),
                None if nodeid == 3 => told_error(&request, 38),
                None => Told::Made([2, 1, 0], pushed(&tables, 3, &request)),
            };
            let label = ("service", number as u64, nodeid as u64);
            step(tester, label, &tables, 3, &request, &told);
        }
    }
}

/// Each byte as a name of its own.
fn single_bytes(tester: &mut Tester) {
    let mut tables = paper_floor::tables();
    let names: Vec<u8> = (1..=255).filter(|&byte| byte != b'.').collect();
    tables.services = names.iter().flat_map(|&byte| service(2, &[byte])).collect();
    for byte in 1..=255 {
        let record = names.iter().position(|&name| name == byte);
        for topic in [vec![byte], vec![byte, b'.'], vec![byte, b'.', byte]] {
            let request = paper_floor::request(2, 0, 0, &topic, b"");
            let told = match record {
                Some(record) => Told::Kept([1, record as u32, 0]),
                None => told_error(&request, 38),
            };
            let label = ("name of one byte", byte as u64, topic.len() as u64);
            step(tester, label, &tables, 2, &request, &told);
        }
    }
}

/// The record's number in a full table, and one name at all ranks.
fn record_numbers(tester: &mut Tester) {
    let mut tables = paper_floor::tables();
    let name = |number: u32| format!("s{number}");
    tables.services = (0..1024)
        .flat_map(|number| service(number % 7, name(number).as_bytes()))
        .collect();
    for number in [0, 1, 2, 254, 255, 256, 511, 512, 1022, 1023] {
        for rank in 0..7 {
            let request = paper_floor::request(rank, 0, 0, name(number).as_bytes(), b"");
            let told = match number % 7 == rank {
                true => Told::Kept([1, number, 0]),
                false => told_error(&request, 38),
            };
            let label = ("record", number as u64, rank as u64);
            step(tester, label, &tables, rank, &request, &told);
        }
    }
    tables.services = (0..7)
        .rev()
        .flat_map(|rank| service(rank, b"log"))
        .collect();
    for rank in 0..7 {
        let request = paper_floor::request(ANY, 0, 0, b"log", b"");
        let told = Told::Kept([1, 6 - rank, 0]);
        let label = ("one name at all ranks", rank as u64, 0);
        step(tester, label, &tables, rank, &request, &told);
    }
}

/// A chain of 16 below rank 0 in which each parent has a larger rank: 16 is the child of 0, and 1
/// the last. Every rank to every other, and a response from each to each.
fn larger_parents(tester: &mut Tester) {
    let parents: Vec<u32> = (0..17)
        .map(|rank| match rank {
            0 => ANY,
            16 => 0,
            _ => rank + 1,
        })
        .collect();
    let tables = OwnedTables {
        tree: tree_of(&parents),
        services: Vec::new(),
        identities: routes(17),
    };
    // Counted from rank 0 down.
    let place = |rank: u32| if rank == 0 { 0 } else { 17 - rank };
    for rank in 0..17 {
        for target in (0..17).filter(|&target| target != rank) {
            let down = place(target) > place(rank);
            let next = match (rank, down) {
                (0, _) => 16,
                (_, true) => rank - 1,
                (_, false) => parents[rank as usize],
            };
            let request = paper_floor::request(target, 0, 0, b"log", b"");
            let told = Told::Made([2, next, 0], pushed(&tables, rank, &request));
            let label = ("chain of larger parents", rank as u64, target as u64);
            step(tester, label, &tables, rank, &request, &told);
            let response = response(tables.identity(target), 0, b"");
            let told = match place(target).abs_diff(place(rank)) {
                1 => Told::Made([2, target, 0], popped(&response)),
                _ => Told::Refused(19),
            };
            step(tester, label, &tables, rank, &response, &told);
        }
    }
}

/// 1,024 ranks, all of which have the service.
fn star() -> OwnedTables {
    let mut parents = vec![0; 1024];
    parents[0] = ANY;
    OwnedTables {
        tree: tree_of(&parents),
        services: (0..1024).flat_map(|rank| service(rank, b"kvs")).collect(),
        identities: routes(1024),
    }
}

/// Ranks of the star, those at the tree's edge among them, and two outside of it.
const OF_STAR: [u32; 8] = [0, 1, 255, 256, 511, 512, 1022, 1023];
const OUTSIDE: [u32; 2] = [1024, 1025];

fn full_star(tester: &mut Tester) {
    let tables = star();
    for rank in OF_STAR {
        for target in OF_STAR.into_iter().chain(OUTSIDE) {
            let request = paper_floor::request(target, 0, 0, b"kvs.get", b"");
            let told = match target {
                1024.. => told_error(&request, 113),
                _ if target == rank => Told::Kept([1, rank, 0]),
                _ => {
                    let next = if rank == 0 { target } else { 0 };
                    Told::Made([2, next, 0], pushed(&tables, rank, &request))
                }
            };
            let label = ("full star", rank as u64, target as u64);
            step(tester, label, &tables, rank, &request, &told);
        }
        let request = paper_floor::request(ANY, 0, 0, b"kvs.get", b"");
        let label = ("full star", rank as u64, ANY as u64);
        let told = Told::Kept([1, rank, 0]);
        step(tester, label, &tables, rank, &request, &told);
    }
    let request = paper_floor::request(ANY, 0, 0, b"kvs.get", b"");
    let label = ("full star", 1024, ANY as u64);
    step(tester, label, &tables, 1024, &request, &Told::Refused(17));
}

/// The broker that is named does not deliver, and each other does.
fn full_star_upstream(tester: &mut Tester) {
    let tables = star();
    for rank in OF_STAR {
        for nodeid in OF_STAR.into_iter().chain(OUTSIDE) {
            let request = paper_floor::request(nodeid, 0x10, 0, b"kvs.get", b"");
            let told = match rank {
                _ if nodeid != rank => Told::Kept([1, rank, 0]),
                0 => told_error(&request, 38),
                _ => Told::Made([2, 0, 0], pushed(&tables, rank, &request)),
            };
            let label = ("full star, upstream", rank as u64, nodeid as u64);
            step(tester, label, &tables, rank, &request, &told);
        }
    }
}
