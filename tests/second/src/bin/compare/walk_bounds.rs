//! Walks at their limits, and walks that are refused: at once, or on the way.

use second::demand3::Rest;
use second::sample::{service, tree_of, OwnedMessage, OwnedTables};

use crate::draft::{frame_of, route, routes, Draft};
use crate::paper_floor::{self, request, ANY};
use crate::step_calls::{error_reply, pushed};
use crate::tester::Tester;
use crate::walk_calls::{WalkCase, WalkTold};

const ROOM: usize = 32_776;

pub fn run(tester: &mut Tester) {
    tester.begin_group("walk-bounds");
    rooms(tester);
    refused_at_once(tester);
    wrong_tables(tester);
    growth_on_the_way(tester);
    to_and_fro(tester);
    two_chains(tester);
    full_floor(tester);
    tester.end_group("");
}

/// A walk of a message with rubbish behind it.
fn check(
    tester: &mut Tester,
    label: (&'static str, u64, u64),
    (tables, rank): (&OwnedTables, u32),
    message: &OwnedMessage,
    told: &WalkTold,
) {
    let frame = frame_of(&message.lent());
    check_bytes(tester, label, (tables, rank), &frame, told);
}

fn check_bytes(
    tester: &mut Tester,
    label: (&'static str, u64, u64),
    (tables, rank): (&OwnedTables, u32),
    bytes: &[u8],
    told: &WalkTold,
) {
    let mut buffer = bytes.to_vec();
    buffer.resize(ROOM + 9, 0xA9);
    let case = WalkCase {
        tables: tables.lent(),
        rank,
        buffer: &buffer,
        record_len: 24,
    };
    tester.walk_case(label, &case, told);
}

/// The identities of these brokers on top, the last on the very top.
fn with_brokers(tables: &OwnedTables, message: &OwnedMessage, brokers: &[u32]) -> OwnedMessage {
    let mut message = message.clone();
    for &rank in brokers {
        message = pushed(tables, rank, &message);
    }
    message
}

/// How a request's walk along these brokers ends: delivered by a record, or with an error.
fn rest_of(
    tables: &OwnedTables,
    request: &OwnedMessage,
    brokers: Vec<u32>,
    record: Option<u32>,
) -> WalkTold {
    let last = with_brokers(tables, request, &brokers[..brokers.len() - 1]);
    let quiet = request.header.flags & 0x04 != 0;
    WalkTold::Rests(match record {
        Some(record) => Rest::new(brokers, [1, record, 0], last),
        None if quiet => Rest::new(brokers, [4, 0, 38], last),
        None => Rest::new(brokers, [3, 0, 38], error_reply(&last, 38)),
    })
}

/// Records and buffers of each length, beside right and wrong tables and ranks. A short record comes
/// first and writes nothing; a short buffer comes next and is reported.
fn rooms(tester: &mut Tester) {
    let right = paper_floor::tables();
    let mut wrong = right.clone();
    wrong.tree[3] = 0;
    let message = request(ANY, 0x02, 1, b"bench.run", b"payload");
    let frame = frame_of(&message.lent());
    let lens = [0, 1, 8, 100, 32_775, ROOM, 32_777, 40_000, 100_000];
    for (table, tables) in [&right, &wrong].into_iter().enumerate() {
        for rank in [3, 5, 7, ANY] {
            for len in lens {
                for record_len in [0, 4, 16, 20, 23, 24, 25, 40] {
                    let mut buffer = frame.clone();
                    buffer.resize(len, 0xA9);
                    let told = match rank {
                        _ if record_len < 24 => WalkTold::NoRecord,
                        _ if len < ROOM => WalkTold::Refused(11, [rank, 0], None),
                        _ if table == 1 => WalkTold::Refused(14, [rank, 0], None),
                        3 => rest_of(tables, &message, vec![3, 1], Some(0)),
                        5 => rest_of(tables, &message, vec![5, 2, 0], None),
                        _ => WalkTold::Refused(17, [rank, 0], None),
                    };
                    let case = WalkCase {
                        tables: tables.lent(),
                        rank,
                        buffer: &buffer,
                        record_len,
                    };
                    let label = ("rooms", len as u64, record_len as u64);
                    tester.walk_case(label, &case, &told);
                }
            }
        }
    }
}

/// Each number that the first step may give: the rank given, no links, the buffer as it was.
fn refused_at_once(tester: &mut Tester) {
    let tables = paper_floor::tables();
    let good = Draft::request(1, b"bench.run", None);
    type Change = fn(&mut Draft);
    let frames: [(u32, Change); 17] = [
        (2, |draft| draft.magic[0] = 0),
        (3, |draft| draft.body_length = Some(32_769)),
        (4, |draft| draft.long_first = true),
        (5, |draft| draft.extra.resize(70, vec![])),
        (6, |draft| draft.header.truncate(19)),
        (20, |draft| draft.header[0] = 0),
        (21, |draft| draft.header[1] = 0),
        (22, |draft| draft.header[2] = 3),
        (23, |draft| draft.header[3] |= 0x80),
        (7, |draft| draft.header[3] |= 0x02),
        (8, |draft| draft.routes[0][0] = b'A'),
        (9, |draft| draft.topic = Some(b"kvs".to_vec())),
        (10, |draft| draft.set_field(12, ANY - 1)),
        (18, |draft| *draft = Draft::event(b"hb", None)),
        (18, |draft| *draft = Draft::control()),
        (12, |draft| draft.routes = (0..64).map(route).collect()),
        (19, |draft| {
            draft.header[2] = 2;
            draft.routes[0] = paper_floor::tables().identity(5).to_vec();
        }),
    ];
    for (number, (refusal, change)) in frames.into_iter().enumerate() {
        let mut draft = good.clone();
        draft.set_field(12, ANY);
        change(&mut draft);
        let told = WalkTold::Refused(refusal, [5, 0], None);
        let label = ("refused at once", number as u64, refusal as u64);
        check_bytes(tester, label, (&tables, 5), &draft.bytes(), &told);
    }
}

/// Wrong tables come before a rank that is not in the tree.
fn wrong_tables(tester: &mut Tester) {
    let good = Draft::request(1, b"bench.run", None);
    let wrong: [(u32, fn(&mut OwnedTables)); 6] = [
        (14, |tables| tables.tree.truncate(27)),
        (14, |tables| tables.tree[4 * 6 + 3] = 6),
        (15, |tables| tables.services.push(0)),
        (15, |tables| tables.services.copy_within(0..32, 32)),
        (16, |tables| tables.identities.truncate(37)),
        (16, |tables| tables.identities.copy_within(0..37, 37)),
    ];
    for (number, (refusal, change)) in wrong.into_iter().enumerate() {
        for rank in [5, 7] {
            let mut tables = paper_floor::tables();
            change(&mut tables);
            let told = WalkTold::Refused(refusal, [rank, 0], None);
            let label = ("wrong table", number as u64, rank as u64);
            check_bytes(tester, label, (&tables, rank), &good.bytes(), &told);
        }
    }
}

/// A chain of 16 below rank 0, whose parents have larger ranks if asked for.
fn chain(larger: bool) -> (OwnedTables, Vec<u32>) {
    // From the deepest up to rank 0.
    let mut way: Vec<u32> = (1..=16).collect();
    if !larger {
        way.reverse();
    }
    way.push(0);
    let mut parents = vec![ANY; 17];
    for pair in way.windows(2) {
        parents[pair[0] as usize] = pair[1];
    }
    let tables = OwnedTables {
        tree: tree_of(&parents),
        services: Vec::new(),
        identities: (0..17).flat_map(|rank| route(2000 + rank)).collect(),
    };
    (tables, way)
}

/// A request that climbs 16 links with so many routes, or so long a body, that it cannot grow at
/// some broker: 12 there, with what the brokers before it made of the frame.
fn growth_on_the_way(tester: &mut Tester) {
    for larger in [false, true] {
        let (tables, way) = chain(larger);
        for links in 0..=18 {
            let grows = |request: &OwnedMessage| match way.get(links) {
                Some(&rank) if rank != 0 => {
                    let left = with_brokers(&tables, request, &way[..links]);
                    let left = (links > 0).then_some(left);
                    WalkTold::Refused(12, [rank, links as u32], left)
                }
                _ => rest_of(&tables, request, way.clone(), None),
            };
            let by_routes = request(ANY, 0x00, 64 - links, b"kvs", b"");
            let told = grows(&by_routes);
            let label = ("routes on the way", links as u64, larger as u64);
            check(tester, label, (&tables, way[0]), &by_routes, &told);
            for spare in [0, 1, 37] {
                let body = 32_768 - 38 * links - spare;
                let payload = vec![0x3C; body - (1 + 5 + 5 + 21)];
                let by_body = request(ANY, 0x06, 0, b"kvs", &payload);
                let told = grows(&by_body);
                let label = ("body on the way", links as u64, spare as u64);
                check(tester, label, (&tables, way[0]), &by_body, &told);
            }
        }
    }
}

/// Responses that go to and fro between brokers over each number of links, and then are home, or
/// meet a broker that is no neighbour.
fn to_and_fro(tester: &mut Tester) {
    let tables = paper_floor::tables();
    let mut response = request(9, 0x02, 0, b"kvs", b"some payload");
    response.header.kind = 2;
    for links in 0..=64usize {
        let brokers: Vec<u32> = (0..=links as u32).map(|link| link % 2).collect();
        let last = brokers[links];
        let back: Vec<u32> = brokers[1..].iter().rev().copied().collect();
        for below in 0..3 {
            if below > 0 && links == 64 {
                continue;
            }
            let mut home = response.clone();
            let told = match below {
                // A broker below a stranger does not matter.
                1 if links < 63 => {
                    home.routes = [&route(3)[..], tables.identity(6)].concat();
                    WalkTold::Rests(Rest::new(brokers.clone(), [5, 0, 0], home.clone()))
                }
                2 => {
                    home.routes = tables.identity(6 - last).to_vec();
                    let left = (links > 0).then_some(home.clone());
                    WalkTold::Refused(19, [last, links as u32], left)
                }
                _ => WalkTold::Rests(Rest::new(brokers.clone(), [5, 0, 0], home.clone())),
            };
            let away = with_brokers(&tables, &home, &back);
            let label = ("to and fro", links as u64, below);
            check(tester, label, (&tables, 0), &away, &told);
        }
    }
}

/// Chains of 16 below rank 0: 1 to 16, and 17 to 32.
pub fn forked(ranks: usize) -> OwnedTables {
    let mut parents: Vec<u32> = (0..33u32).map(|rank| rank.wrapping_sub(1)).collect();
    parents[17] = 0;
    parents.resize(ranks, 0);
    OwnedTables {
        tree: tree_of(&parents),
        services: (1..=32)
            .rev()
            .flat_map(|rank| service(rank, b"bench"))
            .collect(),
        identities: routes(ranks),
    }
}

pub fn across(up: u32, down: u32) -> Vec<u32> {
    (0..=up).rev().chain(17..17 + down).collect()
}

/// From every depth of one chain to every depth of the other.
fn two_chains(tester: &mut Tester) {
    let tables = forked(33);
    for up in 1..=16 {
        for down in 1..=16 {
            most_routes(tester, &tables, up, down);
            longest_body(tester, &tables, up, down);
        }
    }
}

/// 32 routes, as many as the way leaves room for, and one more: then 12 at the last broker but one.
fn most_routes(tester: &mut Tester, tables: &OwnedTables, up: u32, down: u32) {
    let brokers = across(up, down);
    let links = brokers.len() - 1;
    let target = 16 + down;
    let mut message = request(target, 0x00, 0, b"bench", b"");
    for count in [32, 64 - links, 65 - links] {
        message.routes = (0..count as u64).flat_map(|at| route(5000 + at)).collect();
        let told = if count + links <= 64 {
            rest_of(tables, &message, brokers.clone(), Some(32 - target))
        } else {
            let left = with_brokers(tables, &message, &brokers[..links - 1]);
            let left = (links > 1).then_some(left);
            WalkTold::Refused(12, [brokers[links - 1], links as u32 - 1], left)
        };
        let label = ("most routes", up as u64, down as u64);
        check(tester, label, (tables, up), &message, &told);
    }
}

fn longest_body(tester: &mut Tester, tables: &OwnedTables, up: u32, down: u32) {
    let brokers = across(up, down);
    let body = 32_768 - 38 * (brokers.len() - 1);
    let payload = vec![0x4D; body - (1 + 5 + 5 + 21)];
    let message = request(16 + down, 0x42, 0, b"kvs", &payload);
    let told = rest_of(tables, &message, brokers, None);
    let label = ("longest body", up as u64, down as u64);
    check(tester, label, (tables, up), &message, &told);
}

/// All limits at once: 1,024 ranks, depth 16 both ways, 32 routes, a body of 31,552.
fn full_floor(tester: &mut Tester) {
    let tables = forked(1024);
    let payload = vec![0x5E; 31_552 - (32 * 38 + 1 + 7 + 5 + 21)];
    for (entry, target) in [(16, 32), (16, 1023), (1023, 32), (1023, 1022), (16, 1)] {
        for flags in [0x02, 0x06] {
            let mut message = request(target, flags, 0, b"bench", &payload);
            message.routes = (0..32).flat_map(|at| route(5000 + at)).collect();
            let brokers = match (entry, target) {
                (16, 32) => across(16, 16),
                (16, 1023) => (0..=16).rev().chain([1023]).collect(),
                (1023, 32) => [1023, 0].into_iter().chain(17..=32).collect(),
                (16, _) => (1..=16).rev().collect(),
                _ => vec![1023, 0, 1022],
            };
            let record = (target <= 32).then(|| 32 - target);
            let told = rest_of(&tables, &message, brokers, record);
            let label = ("full floor", entry as u64, target as u64);
            check(tester, label, (&tables, entry), &message, &told);
        }
    }
}
