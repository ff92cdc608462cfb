//! The step's rooms at their boundaries: routes, body, buffer, record, and what lies behind the
//! frame.

use second::sample::{OwnedMessage, OwnedTables};

use crate::draft::{frame_of, header, route, Draft};
use crate::paper_floor::{self, told_request, ANY};
use crate::step_calls::{popped, pushed, StepCase, Told};
use crate::tester::Tester;

pub fn run(tester: &mut Tester) {
    tester.begin_group("step-bounds");
    growth(tester);
    no_growth(tester);
    rooms(tester);
    records(tester);
    behind(tester);
    tester.end_group("");
}

/// A request whose body has so many bytes.
fn of_body(nodeid: u32, flags: u8, count: usize, topic: &[u8], body: usize) -> OwnedMessage {
    let topic_part = topic.len() + 1 + if topic.len() < 254 { 1 } else { 5 };
    let payload = body - (38 * count + 1 + topic_part + 5 + 21);
    paper_floor::request(nodeid, flags | 0x02, count, topic, &vec![0x6B; payload])
}

/// Ways to be forwarded: rank, nodeid, flags, topic, next rank. The second broker is skipped.
const WAYS: [(u32, u32, u8, &[u8], u32); 6] = [
    (5, ANY, 0x00, b"kvs.get", 2),
    (4, 4, 0x10, b"bench.x", 1),
    (4, 5, 0x10, b"kvs.get", 1),
    (3, 4, 0x00, b"kvs.get", 1),
    (2, 6, 0x00, b"kvs.get", 6),
    (0, 3, 0x44, b"kvs.get", 1),
];

fn check(
    tester: &mut Tester,
    label: (&'static str, u64, u64),
    tables: &OwnedTables,
    rank: u32,
    buffer: &[u8],
    told: &Told,
) {
    let case = StepCase {
        tables: tables.lent(),
        rank,
        buffer,
        record_len: 16,
    };
    tester.step_case(label, &case, told);
}

/// Routes around 64 and bodies around the largest that still grows, in buffers that hold the new
/// frame, lack a byte of it, or hold only the old one: 12 comes before 11.
fn growth(tester: &mut Tester) {
    let tables = paper_floor::tables();
    let limit = 32_768 - 38;
    for (rank, nodeid, flags, topic, next) in WAYS {
        for count in [0, 1, 62, 63, 64] {
            for body in [4_000, limit - 1, limit, limit + 1, 32_767, 32_768] {
                let request = of_body(nodeid, flags, count, topic, body);
                let frame = frame_of(&request.lent());
                let grown = frame.len() + 38;
                for room in [frame.len(), grown - 1, grown, grown + 1, grown + 500] {
                    let mut buffer = frame.clone();
                    buffer.resize(room, 0xB9);
                    let told = match () {
                        _ if count == 64 || body > limit => Told::Refused(12),
                        _ if room < grown => Told::Refused(11),
                        _ => Told::Made([2, next, 0], pushed(&tables, rank, &request)),
                    };
                    let label = ("growth", count as u64, body as u64);
                    check(tester, label, &tables, rank, &buffer, &told);
                }
            }
        }
    }
}

/// Ways to come to an end: rank, nodeid, flags, topic and its service.
const ENDS: [(u32, u32, u8, &[u8], &[u8]); 9] = [
    (1, ANY, 0x00, b"bench.run", b"bench"),
    (4, 4, 0x00, b"bench.run", b"bench"),
    (4, 1, 0x10, b"bench.run", b"bench"),
    (0, 0, 0x10, b"log.put", b"log"),
    (0, 0, 0x14, b"log.put", b"log"),
    (0, ANY, 0x00, b"kvs", b"kvs"),
    (0, ANY, 0x04, b"kvs", b"kvs"),
    (6, 7, 0x40, b"kvs", b"kvs"),
    (6, 7, 0x44, b"kvs", b"kvs"),
];

/// Delivery, errors, silence and home need no room, whatever the frame's size.
fn no_growth(tester: &mut Tester) {
    let tables = paper_floor::tables();
    for (rank, nodeid, flags, topic, service) in ENDS {
        for count in [0, 1, 63, 64] {
            for body in [4_000, 32_730, 32_731, 32_768] {
                let request = of_body(nodeid, flags, count, topic, body);
                let told = told_request(&tables, rank, &request, service);
                let frame = frame_of(&request.lent());
                for longer in [0, 1, 37, 38, 39, 500] {
                    let mut buffer = frame.clone();
                    buffer.resize(frame.len() + longer, 0xB9);
                    let label = ("no growth", count as u64, body as u64);
                    check(tester, label, &tables, rank, &buffer, &told);
                }
            }
        }
    }
    for body in [4_000, 32_730, 32_731, 32_768] {
        let mut response = of_body(0, 0x00, 63, b"kvs", body - 38);
        response.header.kind = 2;
        let home = frame_of(&response.lent());
        let label = ("home", 0, body as u64);
        check(tester, label, &tables, 2, &home, &Told::Kept([5, 0, 0]));
        let away = pushed(&tables, 6, &response);
        let told = Told::Made([2, 6, 0], response);
        let label = ("on the way home", 0, body as u64);
        check(tester, label, &tables, 2, &frame_of(&away.lent()), &told);
    }
}

/// Every buffer length around a small frame that is to be forwarded.
fn rooms(tester: &mut Tester) {
    let tables = paper_floor::tables();
    let request = paper_floor::request(ANY, 0, 1, b"bench.run", b"payload");
    let frame = frame_of(&request.lent());
    for room in 0..frame.len() + 80 {
        let mut buffer = frame.clone();
        buffer.resize(room, 0xB9);
        let told = match room {
            _ if room < frame.len() => Told::Refused(1),
            _ if room < frame.len() + 38 => Told::Refused(11),
            _ => Told::Made([2, 2, 0], pushed(&tables, 5, &request)),
        };
        let label = ("room", room as u64, 0);
        check(tester, label, &tables, 5, &buffer, &told);
    }
}

/// One frame for each answer, and some that are refused, by numbers.
fn frames() -> Vec<(u32, Vec<u8>, Told)> {
    let tables = paper_floor::tables();
    let mut all = Vec::new();
    let requests: [(u32, u32, u8, &[u8], &[u8]); 6] = [
        (1, ANY, 0x00, b"bench.run", b"bench"),
        (5, 3, 0x02, b"bench.run", b"bench"),
        (0, ANY, 0x40, b"kvs", b"kvs"),
        (0, ANY, 0x04, b"kvs", b"kvs"),
        (3, 4_294_967_294, 0x00, b"kvs", b"kvs"),
        (7, ANY, 0x00, b"kvs", b"kvs"),
    ];
    for (rank, nodeid, flags, topic, service) in requests {
        let payload: &[u8] = if flags & 0x02 != 0 { b"payload" } else { b"" };
        let request = paper_floor::request(nodeid, flags, 2, topic, payload);
        let told = match rank {
            7 => Told::Refused(17),
            _ => told_request(&tables, rank, &request, service),
        };
        all.push((rank, frame_of(&request.lent()), told));
    }
    for (top, told) in [
        (route(1), Told::Kept([5, 0, 0])),
        (tables.identity(4).to_vec(), Told::Refused(19)),
    ] {
        let mut response = paper_floor::request(0, 0x00, 0, b"bench.run", b"");
        response.header.kind = 2;
        response.routes = top;
        all.push((2, frame_of(&response.lent()), told));
    }
    let mut long_home = paper_floor::request(0, 0x02, 0, b"kvs", &[7; 300]);
    long_home.header.kind = 2;
    long_home.routes = [tables.identity(1), &route(9)].concat();
    let told = Told::Made([2, 1, 0], popped(&long_home));
    all.push((3, frame_of(&long_home.lent()), told));
    all.push((
        3,
        Draft::event(b"bench.run", None).bytes(),
        Told::Refused(18),
    ));
    all.push((3, Draft::control().bytes(), Told::Refused(18)));
    let mut wrong = Draft::control();
    wrong.header = header(3, 0, 1, 2);
    all.push((3, wrong.bytes(), Told::Refused(22)));
    all
}

/// Records of each length: below 16 it is 11, above it the tail stays.
fn records(tester: &mut Tester) {
    let tables = paper_floor::tables();
    for (number, (rank, frame, told)) in frames().iter().enumerate() {
        let mut buffer = frame.clone();
        buffer.resize(frame.len() + 50, 0xD3);
        for record_len in 0..=40 {
            let case = StepCase {
                tables: tables.lent(),
                rank: *rank,
                buffer: &buffer,
                record_len,
            };
            let label = ("record", number as u64, record_len as u64);
            match record_len {
                0..=15 => tester.step_case(label, &case, &Told::Refused(11)),
                _ => tester.step_case(label, &case, told),
            }
        }
    }
}

/// Rubbish, zeros and another frame behind the frame: cleared to the buffer's end after a forward
/// and an error reply, and kept otherwise.
fn behind(tester: &mut Tester) {
    let tables = paper_floor::tables();
    for (number, (rank, frame, told)) in frames().iter().enumerate() {
        let lens = (38..=110).chain([1_000, 32_776 - frame.len(), 40_000, 100_000]);
        for len in lens {
            for rubbish in [
                vec![0xFF; len],
                vec![0; len],
                frame.repeat(len / frame.len() + 1),
            ] {
                let mut buffer = [&frame[..], &rubbish].concat();
                buffer.truncate(frame.len() + len);
                let label = ("behind", number as u64, len as u64);
                check(tester, label, &tables, *rank, &buffer, told);
            }
        }
    }
}
