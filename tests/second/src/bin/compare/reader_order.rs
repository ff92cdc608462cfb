//! The reader's order of refusals: every fault alone, and every two together.

use crate::draft::{route, Draft};
use crate::faults::{self, covered, fault, in_order};
use crate::tester::{Expect, ReadCase, Tester};

/// A frame with faults and the record that it is read into.
#[derive(Clone)]
pub struct Attempt {
    pub draft: Draft,
    /// So many bytes are missing from the record.
    record_lacks: usize,
}

impl Attempt {
    fn new(draft: Draft) -> Attempt {
        Attempt {
            draft,
            record_lacks: 0,
        }
    }

    /// The length of a record that has this one if nothing is missing.
    pub fn record_len(&self, whole: usize) -> usize {
        whole.saturating_sub(self.record_lacks)
    }
}

/// Where a fault stands in the reader's order.
#[derive(Clone, Copy, PartialEq, Eq, PartialOrd, Ord)]
enum Stage {
    Record,
    EightBytes,
    Magic,
    BodyTooLong,
    BodyMissing,
    FirstPart,
    SecondPart,
    Part69,
    PartBehindHeader,
    NoPart,
    HeaderLength,
    HeaderMagic,
    Version,
    Type,
    Flag80,
    PartsDisagree,
    Route,
    Topic,
    Field,
}

type Fault = faults::Fault<Stage, Draft, Attempt>;
type Label = (&'static str, u64, u64);

pub fn run(tester: &mut Tester) {
    tester.begin_group("reader-order");
    let remark = each_attempt(tester, bases(), |tester, label, attempt, number| {
        let bytes = attempt.draft.bytes();
        let case = ReadCase {
            record_len: attempt.record_len(52),
            ..ReadCase::new(&bytes)
        };
        tester.read_case(label, &case, Expect::Number(number));
    });
    tester.end_group(&remark);
}

/// Puts every fault and every two into each base, and hands on what comes of it with the number
/// that the paper says. Tells how many pairs of numbers met.
pub fn each_attempt(
    tester: &mut Tester,
    bases: Vec<Draft>,
    mut check: impl FnMut(&mut Tester, Label, &Attempt, u32),
) -> String {
    let faults = faults();
    let mut pairs = [[false; 24]; 24];
    for (base, draft) in bases.into_iter().enumerate() {
        let fitting = |fault: &&Fault| (fault.fits)(&draft);
        for first in faults.iter().filter(fitting) {
            let mut one = Attempt::new(draft.clone());
            (first.apply)(&mut one);
            let label = ("alone", base as u64, first.stage as u64);
            check(tester, label, &one, number_of(&one, first));
            for second in faults.iter().filter(fitting) {
                let Some(both) = together(&draft, [first, second]) else {
                    continue;
                };
                let stages = 100 * first.stage as u64 + second.stage as u64;
                let label = ("together", base as u64, stages);
                check(tester, label, &both, number_of(&both, first));
                let [low, high] = in_order(first.number, second.number);
                pairs[low][high] = true;
            }
        }
    }
    let numbers: Vec<usize> = (1..=11).chain(20..=23).collect();
    covered(tester, &pairs, &numbers, &[])
}

pub fn bases() -> Vec<Draft> {
    vec![
        Draft::request(2, b"kvs.get", Some(b"some payload")),
        Draft::request(0, b"log", None),
        Draft::request(3, b"kvs.get", None),
        Draft::routed(2, 1, b"kvs.get", Some(b"")),
        Draft::event(b"hb", Some(b"beat")),
        Draft::event(b"hb", None),
        Draft::control(),
    ]
}

/// Two faults, the earlier first; nothing if they cannot be together. The earlier is put in last,
/// so that the other fault cannot undo it.
fn together(draft: &Draft, [first, second]: [&Fault; 2]) -> Option<Attempt> {
    if first.stage >= second.stage || !both_can_be(first, second) {
        return None;
    }
    let mut both = Attempt::new(draft.clone());
    (second.apply)(&mut both);
    (first.apply)(&mut both);
    let parts = both.draft.parts();
    let undone = match first.stage {
        // Here a 4-byte size is right.
        Stage::FirstPart => both.draft.long_first && parts[0].len() >= 255,
        Stage::SecondPart => parts.len() < 2,
        _ => false,
    };
    (!undone).then_some(both)
}

/// What an attempt with this fault as its first comes to. It may have brought a 69th part with it,
/// which then takes part.
fn number_of(attempt: &Attempt, first: &Fault) -> u32 {
    let draft = &attempt.draft;
    let parts = draft.parts().len() + !draft.raw.is_empty() as usize;
    match first.stage > Stage::Part69 && parts > 68 {
        true => 5,
        false => first.number,
    }
}

/// With no part at all there is no part to be wrong, and no body to be missing.
fn both_can_be(first: &Fault, second: &Fault) -> bool {
    second.stage != Stage::NoPart || first.stage < Stage::BodyMissing
}

fn no_part(attempt: &mut Attempt) {
    let draft = &mut attempt.draft;
    draft.routes.clear();
    draft.delimiter = false;
    draft.topic = None;
    draft.payload = None;
    draft.no_header = true;
}

fn any(_: &Draft) -> bool {
    true
}

fn routed(draft: &Draft) -> bool {
    draft.kind() <= 2
}

fn has_routes(draft: &Draft) -> bool {
    !draft.routes.is_empty()
}

fn has_topic(draft: &Draft) -> bool {
    draft.topic.is_some()
}

fn faults() -> Vec<Fault> {
    let mut all = outer_faults();
    all.extend(part_faults());
    all.extend(header_faults());
    all.extend(disagreements());
    all.extend(content_faults());
    all
}

fn outer_faults() -> Vec<Fault> {
    use Stage::*;
    vec![
        fault(Record, 11, any, |a| a.record_lacks = 1),
        fault(Record, 11, any, |a| a.record_lacks = usize::MAX),
        fault(EightBytes, 1, any, |a| a.draft.keep = Some(0)),
        fault(EightBytes, 1, any, |a| a.draft.keep = Some(3)),
        fault(EightBytes, 1, any, |a| a.draft.keep = Some(7)),
        fault(Magic, 2, any, |a| a.draft.magic[0] = 0xFE),
        fault(Magic, 2, any, |a| a.draft.magic[3] = 0x13),
        fault(BodyTooLong, 3, any, |a| a.draft.body_length = Some(32_769)),
        fault(BodyTooLong, 3, any, |a| {
            a.draft.body_length = Some(u32::MAX)
        }),
        fault(BodyTooLong, 3, any, |a| a.draft.extra.push(vec![1; 32_768])),
        fault(BodyMissing, 1, any, |a| a.draft.keep = Some(8)),
        fault(BodyMissing, 1, any, |a| a.draft.cut = 1),
    ]
}

fn part_faults() -> Vec<Fault> {
    use Stage::*;
    let short_first = |draft: &Draft| draft.parts()[0].len() < 255;
    vec![
        fault(FirstPart, 4, short_first, |a| a.draft.long_first = true),
        fault(FirstPart, 4, any, |a| a.draft.past_end = Some(0)),
        fault(SecondPart, 4, has_topic, |a| a.draft.past_end = Some(1)),
        fault(Part69, 5, any, |a| a.draft.extra.resize(70, vec![])),
        fault(Part69, 5, any, |a| a.draft.extra.resize(70, vec![0x14; 20])),
        fault(Part69, 5, routed, |a| {
            a.draft.routes = (0..68).map(route).collect()
        }),
        fault(PartBehindHeader, 4, any, |a| a.draft.raw = vec![5, 1, 2]),
        fault(PartBehindHeader, 4, any, |a| a.draft.raw = vec![255]),
        fault(PartBehindHeader, 4, any, |a| a.draft.raw = vec![255; 9]),
        fault(PartBehindHeader, 4, any, |a| {
            a.draft.raw = [&[255, 0, 0, 0, 254][..], &[0; 254]].concat()
        }),
    ]
}

fn header_faults() -> Vec<Fault> {
    use Stage::*;
    vec![
        fault(NoPart, 6, any, no_part),
        fault(HeaderLength, 6, has_topic, |a| a.draft.no_header = true),
        fault(HeaderLength, 6, any, |a| a.draft.header.truncate(19)),
        fault(HeaderLength, 6, any, |a| a.draft.header.push(0)),
        fault(HeaderLength, 6, any, |a| a.draft.header.resize(300, 0)),
        fault(HeaderLength, 6, any, |a| a.draft.raw.push(0)),
        fault(HeaderMagic, 20, any, |a| a.draft.header[0] = 0x8F),
        fault(Version, 21, any, |a| a.draft.header[1] = 0),
        fault(Version, 21, any, |a| a.draft.header[1] = 2),
        fault(Type, 22, any, |a| a.draft.header[2] = 0),
        fault(Type, 22, any, |a| a.draft.header[2] = 3),
        fault(Type, 22, any, |a| a.draft.header[2] |= 0x10),
        fault(Flag80, 23, any, |a| a.draft.header[3] |= 0x80),
    ]
}

fn disagreements() -> Vec<Fault> {
    use Stage::PartsDisagree;
    let has_payload = |draft: &Draft| draft.payload.is_some();
    vec![
        fault(PartsDisagree, 7, any, |a| a.draft.header[3] ^= 0x01),
        fault(PartsDisagree, 7, any, |a| a.draft.header[3] ^= 0x02),
        fault(PartsDisagree, 7, any, |a| a.draft.header[3] ^= 0x08),
        fault(PartsDisagree, 7, any, |a| a.draft.extra.push(vec![b'x'])),
        fault(PartsDisagree, 7, any, |a| a.draft.extra.push(vec![])),
        fault(PartsDisagree, 7, has_topic, |a| a.draft.topic = None),
        fault(PartsDisagree, 7, has_payload, |a| a.draft.payload = None),
        fault(PartsDisagree, 7, routed, |a| a.draft.header[2] = 4),
        fault(PartsDisagree, 7, has_topic, |a| a.draft.header[2] = 8),
        fault(
            PartsDisagree,
            7,
            |draft| !routed(draft),
            |a| a.draft.header[2] = 1,
        ),
    ]
}

fn content_faults() -> Vec<Fault> {
    use Stage::*;
    let no_payload = |draft: &Draft| routed(draft) && draft.payload.is_none();
    let is_request = |draft: &Draft| draft.kind() == 1;
    let is_event = |draft: &Draft| draft.kind() == 4;
    vec![
        fault(Route, 8, has_routes, |a| a.draft.routes[0].truncate(36)),
        fault(Route, 8, has_routes, |a| a.draft.routes[0].push(0)),
        fault(Route, 8, has_routes, |a| a.draft.routes[0][0] = b'A'),
        fault(Route, 8, has_routes, |a| a.draft.routes[0][13] = b'0'),
        fault(Route, 8, has_routes, |a| a.draft.routes[0][36] = b'0'),
        fault(Route, 8, has_routes, |a| last_route(a).resize(300, b'0')),
        fault(Route, 8, has_routes, |a| last_route(a)[35] = b'g'),
        fault(Route, 8, no_payload, |a| {
            a.draft.routes = (0..65).map(route).collect()
        }),
        fault(Topic, 9, has_topic, |a| set_topic(a, b"")),
        fault(Topic, 9, has_topic, |a| set_topic(a, b"\0")),
        fault(Topic, 9, has_topic, |a| set_topic(a, b"kvs.get")),
        fault(Topic, 9, has_topic, |a| set_topic(a, b"kvs\0get\0")),
        fault(Topic, 9, has_topic, |a| set_topic(a, &[b't'; 255])),
        fault(Topic, 9, has_topic, |a| {
            set_topic(a, &[&[b't'; 256][..], &[0]].concat())
        }),
        fault(Field, 10, is_request, |a| {
            a.draft.header[12..16].copy_from_slice(&[255, 255, 255, 254])
        }),
        fault(Field, 10, is_event, |a| a.draft.header[16] = 0x80),
        fault(Field, 10, is_event, |a| a.draft.header[18] = 1),
    ]
}

/// Which there is.
fn last_route(attempt: &mut Attempt) -> &mut Vec<u8> {
    attempt.draft.routes.last_mut().unwrap()
}

/// A topic that another fault has taken away stays away.
fn set_topic(attempt: &mut Attempt, part: &[u8]) {
    if let Some(topic) = &mut attempt.draft.topic {
        *topic = part.to_vec();
    }
}
