//! The step's order of refusals: every fault alone, and every two together.

use second::sample::OwnedTables;

use crate::draft::{route, Draft};
use crate::faults::{self, covered, fault};
use crate::paper_floor;
use crate::step_calls::{StepCase, Told};
use crate::tester::Tester;

/// A step with faults.
#[derive(Clone)]
struct Attempt {
    draft: Draft,
    /// So many bytes lie behind the frame.
    behind: usize,
    tables: OwnedTables,
    rank: u32,
    /// The broker would forward the request.
    forwards: bool,
    record_len: usize,
}

/// Where a fault stands in the step's order, the reader's inside of it.
#[derive(Clone, Copy, PartialEq, Eq, PartialOrd, Ord)]
enum Stage {
    Record,
    Tree,
    Services,
    Identities,
    Rank,
    EightBytes,
    Magic,
    BodyTooLong,
    BodyMissing,
    FirstPart,
    Part69,
    PartBehindHeader,
    HeaderLength,
    HeaderMagic,
    Version,
    Type,
    Flag80,
    PartsDisagree,
    Route,
    Topic,
    Field,
    Kind,
    Neighbour,
    Growth,
    Room,
}

type Fault = faults::Fault<Stage, Attempt, Attempt>;

/// A record's 11 is counted as 0, so that it is told from a buffer's.
const NUMBERS: [usize; 23] = [
    0, 1, 2, 3, 4, 5, 6, 7, 8, 9, 10, 11, 12, 14, 15, 16, 17, 18, 19, 20, 21, 22, 23,
];
/// Requests alone have 12, a buffer's 11 and a nodeid; responses alone have 19; what has 18 has no
/// routes.
const NEVER: [[usize; 2]; 7] = [
    [8, 18],
    [10, 19],
    [11, 18],
    [11, 19],
    [12, 18],
    [12, 19],
    [18, 19],
];

pub fn run(tester: &mut Tester) {
    tester.begin_group("step-order");
    let faults = faults();
    let mut pairs = [[false; 24]; 24];
    for (base, attempt) in bases().into_iter().enumerate() {
        for later in faults.iter().filter(|fault| (fault.fits)(&attempt)) {
            let mut one = attempt.clone();
            (later.apply)(&mut one);
            check(
                tester,
                ("alone", base as u64, later.stage as u64),
                &one,
                later,
            );
            // The earlier is put in last, so that the other cannot undo it.
            for earlier in faults.iter().filter(|fault| (fault.fits)(&one)) {
                if earlier.stage >= later.stage {
                    continue;
                }
                let mut both = one.clone();
                (earlier.apply)(&mut both);
                let stages = 100 * earlier.stage as u64 + later.stage as u64;
                check(tester, ("together", base as u64, stages), &both, earlier);
                let met = [counted(earlier), counted(later)];
                pairs[met[0].min(met[1])][met[0].max(met[1])] = true;
            }
        }
    }
    let remark = covered(tester, &pairs, &NUMBERS, &NEVER);
    tester.end_group(&remark);
}

fn counted(fault: &Fault) -> usize {
    match fault.stage {
        Stage::Record => 0,
        _ => fault.number as usize,
    }
}

fn check(tester: &mut Tester, label: (&'static str, u64, u64), attempt: &Attempt, fault: &Fault) {
    let draft = &attempt.draft;
    let mut buffer = draft.bytes();
    // Two faults together may make a body too long, or a 69th part, which then comes first.
    let too_long = draft.body_length.is_none() && buffer.len() > 8 + 32_768;
    let too_many = draft.parts().len() + !draft.raw.is_empty() as usize > 68;
    let number = match fault.stage {
        stage if stage > Stage::BodyTooLong && too_long => 3,
        stage if stage > Stage::Part69 && too_many => 5,
        _ => fault.number,
    };
    buffer.resize(buffer.len() + attempt.behind, 0xB5);
    let case = StepCase {
        tables: attempt.tables.lent(),
        rank: attempt.rank,
        buffer: &buffer,
        record_len: attempt.record_len,
    };
    tester.step_case(label, &case, &Told::Refused(number));
}

/// Requests that are forwarded, at a skipped broker too, delivered, and answered with an error, and
/// responses on their way and home.
fn bases() -> Vec<Attempt> {
    let tables = paper_floor::tables();
    let base = |rank: u32, forwards: bool, draft: Draft| Attempt {
        draft,
        behind: 90,
        tables: tables.clone(),
        rank,
        forwards,
        record_len: 16,
    };
    let mut on_its_way = Draft::routed(2, 2, b"bench.run", Some(b"payload"));
    on_its_way.routes[0] = tables.identity(1).to_vec();
    let mut upstream = to(Draft::request(1, b"bench.run", None), 4);
    upstream.header[3] |= 0x10;
    vec![
        base(
            3,
            true,
            to(Draft::request(2, b"kvs.get", Some(b"payload")), 5),
        ),
        base(5, true, to(Draft::request(0, b"bench.run", None), u32::MAX)),
        base(4, true, to(Draft::request(1, b"kvs.get", None), 0)),
        base(4, true, upstream),
        base(4, false, to(Draft::request(1, b"bench.run", None), 4)),
        base(2, false, to(Draft::request(1, b"kvs.get", Some(b"p")), 9)),
        base(3, false, on_its_way),
        base(2, false, Draft::routed(2, 3, b"kvs.get", None)),
        base(0, false, Draft::routed(2, 0, b"log", None)),
    ]
}

fn to(mut draft: Draft, nodeid: u32) -> Draft {
    draft.set_field(12, nodeid);
    draft
}

fn any(_: &Attempt) -> bool {
    true
}

fn has_routes(attempt: &Attempt) -> bool {
    !attempt.draft.routes.is_empty()
}

fn has_topic(attempt: &Attempt) -> bool {
    attempt.draft.topic.is_some()
}

fn forwards(attempt: &Attempt) -> bool {
    attempt.forwards
}

fn faults() -> Vec<Fault> {
    let mut all = table_faults();
    all.extend(outer_faults());
    all.extend(inner_faults());
    all.extend(step_faults());
    all
}

fn table_faults() -> Vec<Fault> {
    use Stage::*;
    vec![
        fault(Record, 11, any, |a| a.record_len = 15),
        fault(Record, 11, any, |a| a.record_len = 0),
        fault(Tree, 14, any, |a| a.tables.tree.clear()),
        fault(Tree, 14, any, |a| a.tables.tree.push(0)),
        fault(Tree, 14, any, |a| a.tables.tree[3] = 0),
        fault(Tree, 14, any, |a| a.tables.tree[4 * 6 + 3] = 6),
        fault(Tree, 14, any, |a| a.tables.tree[4 * 2 + 3] = 5),
        fault(Services, 15, any, |a| a.tables.services.push(0)),
        fault(Services, 15, any, |a| a.tables.services[3] = 7),
        fault(Services, 15, any, |a| a.tables.services[4] = 28),
        fault(Services, 15, any, |a| a.tables.services[31] = 1),
        fault(Services, 15, any, |a| {
            a.tables.services.copy_within(0..32, 32)
        }),
        fault(Identities, 16, any, |a| {
            a.tables.identities.truncate(6 * 37)
        }),
        fault(Identities, 16, any, |a| a.tables.identities.push(0)),
        fault(Identities, 16, any, |a| a.tables.identities[36] = b'0'),
        fault(Identities, 16, any, |a| {
            a.tables.identities.copy_within(0..37, 37)
        }),
        fault(Rank, 17, any, |a| a.rank = 7),
        fault(Rank, 17, any, |a| a.rank = u32::MAX),
    ]
}

/// The reader's numbers for the frame as a whole. A buffer that ends too soon has nothing behind.
fn outer_faults() -> Vec<Fault> {
    use Stage::*;
    vec![
        fault(EightBytes, 1, any, |a| {
            a.draft.keep = Some(7);
            a.behind = 0;
        }),
        fault(EightBytes, 1, any, |a| {
            a.draft.keep = Some(0);
            a.behind = 0;
        }),
        fault(Magic, 2, any, |a| a.draft.magic[3] = 0x13),
        fault(BodyTooLong, 3, any, |a| a.draft.body_length = Some(32_769)),
        fault(BodyMissing, 1, any, |a| {
            a.draft.cut = 1;
            a.behind = 0;
        }),
        fault(FirstPart, 4, any, |a| a.draft.long_first = true),
        fault(Part69, 5, any, |a| a.draft.extra.resize(70, vec![])),
        fault(PartBehindHeader, 4, any, |a| a.draft.raw = vec![5, 1, 2]),
    ]
}

/// The reader's numbers for the parts.
fn inner_faults() -> Vec<Fault> {
    use Stage::*;
    let is_request = |a: &Attempt| a.draft.kind() == 1;
    let is_event = |a: &Attempt| a.draft.kind() == 4;
    let bare = |a: &Attempt| a.draft.kind() <= 2 && a.draft.payload.is_none();
    vec![
        fault(HeaderLength, 6, any, |a| a.draft.header.push(0)),
        fault(HeaderMagic, 20, any, |a| a.draft.header[0] = 0x8F),
        fault(Version, 21, any, |a| a.draft.header[1] = 2),
        fault(Type, 22, any, |a| a.draft.header[2] |= 0x10),
        fault(Flag80, 23, any, |a| a.draft.header[3] |= 0x80),
        fault(PartsDisagree, 7, any, |a| a.draft.header[3] ^= 0x02),
        fault(PartsDisagree, 7, any, |a| a.draft.header[3] ^= 0x08),
        fault(PartsDisagree, 7, any, |a| a.draft.extra.push(vec![b'x'])),
        fault(Route, 8, has_routes, |a| a.draft.routes[0][0] = b'A'),
        fault(Route, 8, bare, |a| {
            a.draft.routes = (0..65).map(route).collect()
        }),
        fault(Topic, 9, has_topic, |a| {
            a.draft.topic = Some(b"kvs".to_vec())
        }),
        fault(Topic, 9, has_topic, |a| a.draft.topic = Some(Vec::new())),
        fault(Field, 10, is_request, |a| {
            a.draft.set_field(12, 4_294_967_294)
        }),
        fault(Field, 10, is_event, |a| a.draft.set_field(16, 1)),
    ]
}

fn step_faults() -> Vec<Fault> {
    use Stage::*;
    let is_response = |a: &Attempt| a.draft.kind() == 2;
    let few_routes = |a: &Attempt| a.forwards && a.draft.routes.len() < 64;
    vec![
        fault(Kind, 18, any, |a| {
            replace(a, Draft::event(b"hb", Some(b"beat")))
        }),
        fault(Kind, 18, any, |a| replace(a, Draft::event(b"hb", None))),
        fault(Kind, 18, any, |a| replace(a, Draft::control())),
        // Its own identity, and that of a broker two or more links away.
        fault(Neighbour, 19, is_response, |a| top(a, a.rank)),
        fault(Neighbour, 19, is_response, |a| {
            top(a, [5, 5, 4, 0, 0, 0, 0][a.rank as usize])
        }),
        fault(Growth, 12, few_routes, |a| {
            let more = 64 - a.draft.routes.len() as u64;
            a.draft
                .routes
                .extend((0..more).map(|number| route(500 + number)));
        }),
        fault(Growth, 12, forwards, |a| {
            let longer = 8 + 32_731 - a.draft.bytes().len();
            let len = a.draft.payload.as_ref().map_or(0, Vec::len);
            // A long payload has a longer size, and one that was not there has none.
            let sizes = if a.draft.payload.is_some() { 4 } else { 5 };
            a.draft.payload = Some(vec![0x66; len + longer - sizes]);
            a.draft.header[3] |= 0x02;
        }),
        fault(Room, 11, forwards, |a| a.behind = 0),
        fault(Room, 11, forwards, |a| a.behind = 37),
    ]
}

/// No request any more, so nothing is forwarded.
fn replace(attempt: &mut Attempt, draft: Draft) {
    attempt.draft = draft;
    attempt.forwards = false;
}

/// Puts a broker's identity on top.
fn top(attempt: &mut Attempt, rank: u32) {
    let identity = attempt.tables.identity(rank).to_vec();
    attempt.draft.routes.insert(0, identity);
}
