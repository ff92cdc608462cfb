//! The writer's order of refusals: every fault alone, and every two together.

use second::frame::Header;
use second::write::Message;

use crate::draft::routes;
use crate::faults::{self, covered, fault, in_order};
use crate::tester::{Expect, Tester, WriteCase};
use crate::writer_bounds::head;

/// A message with faults and the outputs that it is written to.
#[derive(Clone)]
struct Attempt {
    header: Header,
    routes: Vec<u8>,
    topic: Vec<u8>,
    payload: Vec<u8>,
    out_len: usize,
    record_len: usize,
}

/// Where a fault stands in the writer's order.
#[derive(Clone, Copy, PartialEq, Eq, PartialOrd, Ord)]
enum Stage {
    Record,
    Type,
    Flag80,
    PartsDisagree,
    Route,
    Topic,
    Field,
    BodyTooLong,
    Output,
}

type Fault = faults::Fault<Stage, Attempt, Attempt>;

pub fn run(tester: &mut Tester) {
    tester.begin_group("writer-order");
    let faults = faults();
    let mut pairs = [[false; 24]; 24];
    for (base, attempt) in bases().into_iter().enumerate() {
        let fitting = |fault: &&Fault| (fault.fits)(&attempt);
        for first in faults.iter().filter(fitting) {
            let mut one = attempt.clone();
            (first.apply)(&mut one);
            check(tester, ("alone", base as u64, 0), &one, first.number);
            for second in faults.iter().filter(fitting) {
                if first.stage >= second.stage {
                    continue;
                }
                // The earlier is put in last, so that the other cannot undo it.
                let mut both = attempt.clone();
                (second.apply)(&mut both);
                (first.apply)(&mut both);
                let stages = 100 * first.stage as u64 + second.stage as u64;
                let label = ("together", base as u64, stages);
                check(tester, label, &both, first.number);
                let [low, high] = in_order(first.number, second.number);
                pairs[low][high] = true;
            }
        }
    }
    let remark = covered(tester, &pairs, &[3, 7, 8, 9, 10, 11, 22, 23], &[]);
    tester.end_group(&remark);
}

fn check(tester: &mut Tester, label: (&'static str, u64, u64), attempt: &Attempt, number: u32) {
    let case = WriteCase {
        message: Message {
            header: attempt.header,
            routes: &attempt.routes,
            topic: &attempt.topic,
            payload: &attempt.payload,
        },
        out_len: attempt.out_len,
        record_len: attempt.record_len,
    };
    tester.write_case(label, &case, Expect::Number(number));
}

fn base(header: Header, count: usize, topic: &[u8], payload: &[u8]) -> Attempt {
    Attempt {
        header,
        routes: routes(count),
        topic: topic.to_vec(),
        payload: payload.to_vec(),
        out_len: 40_000,
        record_len: 4,
    }
}

fn bases() -> Vec<Attempt> {
    vec![
        base(head(1, 0x0B), 2, b"kvs.get", b"some payload"),
        base(head(1, 0x09), 0, b"log", b""),
        base(head(1, 0x5D), 1, b"log", b""),
        base(head(2, 0x0B), 64, b"kvs.get", b""),
        base(head(4, 0x03), 0, b"hb", b"beat"),
        base(head(4, 0x21), 0, b"hb", b""),
        base(head(8, 0x00), 0, b"", b""),
    ]
}

fn any(_: &Attempt) -> bool {
    true
}

fn routed(attempt: &Attempt) -> bool {
    attempt.header.kind <= 2
}

fn has_topic(attempt: &Attempt) -> bool {
    attempt.header.kind <= 4
}

fn faults() -> Vec<Fault> {
    let mut all = early_faults();
    all.extend(content_faults());
    all.extend(late_faults());
    all
}

fn early_faults() -> Vec<Fault> {
    use Stage::*;
    vec![
        fault(Record, 11, any, |a| a.record_len = 3),
        fault(Record, 11, any, |a| a.record_len = 0),
        fault(Type, 22, any, |a| a.header.kind = 0),
        fault(Type, 22, any, |a| a.header.kind = 3),
        fault(Type, 22, any, |a| a.header.kind |= 0x10),
        fault(Flag80, 23, any, |a| a.header.flags |= 0x80),
        fault(PartsDisagree, 7, any, |a| a.header.flags ^= 0x01),
        fault(PartsDisagree, 7, any, |a| a.header.flags ^= 0x08),
        // A payload without its flag; one stays as it is.
        fault(PartsDisagree, 7, any, |a| {
            a.header.flags &= !0x02;
            a.payload.push(1);
        }),
        fault(
            PartsDisagree,
            7,
            |a| !has_topic(a),
            |a| a.header.flags |= 0x02,
        ),
        fault(PartsDisagree, 7, |a| !routed(a), |a| a.routes.push(b'x')),
        fault(
            PartsDisagree,
            7,
            |a| !has_topic(a),
            |a| a.topic = b"log".to_vec(),
        ),
        fault(PartsDisagree, 7, routed, |a| a.header.kind = 4),
        fault(PartsDisagree, 7, has_topic, |a| a.header.kind = 8),
        fault(PartsDisagree, 7, |a| !routed(a), |a| a.header.kind = 1),
    ]
}

fn content_faults() -> Vec<Fault> {
    use Stage::*;
    let has_routes = |a: &Attempt| !a.routes.is_empty();
    let is_request = |a: &Attempt| a.header.kind == 1;
    let is_event = |a: &Attempt| a.header.kind == 4;
    vec![
        fault(Route, 8, routed, |a| a.routes = routes(65)),
        fault(Route, 8, routed, |a| a.routes = vec![b'a'; 36]),
        fault(Route, 8, routed, |a| a.routes.push(0)),
        fault(Route, 8, has_routes, |a| a.routes[0] = b'F'),
        fault(Route, 8, has_routes, |a| a.routes[8] = b'a'),
        fault(Route, 8, has_routes, |a| a.routes[36] = b'0'),
        fault(Topic, 9, has_topic, |a| a.topic.clear()),
        fault(Topic, 9, has_topic, |a| a.topic = b"kvs\0get".to_vec()),
        fault(Topic, 9, has_topic, |a| a.topic.push(0)),
        fault(Topic, 9, has_topic, |a| a.topic = vec![b't'; 256]),
        fault(Field, 10, is_request, |a| a.header.first = 0xFFFF_FFFE),
        fault(Field, 10, is_event, |a| a.header.second = 0x8000_0000),
        fault(Field, 10, is_event, |a| a.header.second = 1),
    ]
}

fn late_faults() -> Vec<Fault> {
    use Stage::*;
    let has_payload = |a: &Attempt| a.header.flags & 0x02 != 0;
    vec![
        fault(BodyTooLong, 3, has_payload, |a| a.payload = vec![9; 32_768]),
        fault(BodyTooLong, 3, has_payload, |a| a.payload = vec![9; 39_000]),
        fault(Output, 11, any, |a| a.out_len = 0),
        fault(Output, 11, any, |a| a.out_len = 28),
    ]
}
