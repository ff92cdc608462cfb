//! Seeded steps on seeded floors, right ones and damaged ones. What a right step must answer and
//! leave is told from the path of the request, or from the tree, and by neither program.

use second::frame::number_at;
use second::path::{path_of, End};
use second::sample::{floor, request, route, topic, OwnedMessage, OwnedTables, Request, Rng};
use second::side::LIBRARY;

use crate::draft::frame_of;
use crate::messages::right;
use crate::seeded::{damage, Run};
use crate::seeded_walks::skips_a_broker;
use crate::step_calls::{popped, pushed, told_error, StepAnswer, StepCase, Told};
use crate::tester::{Expect, Tester};

/// On each floor.
const STEPS: usize = 4;
const ANY: u32 = u32::MAX;
const NEVER_ON_THE_WIRE: u32 = u32::MAX - 1;

/// How many steps there were, and how many of each answer.
#[derive(Default)]
struct Count {
    steps: u64,
    answers: [u64; 6],
    /// Those whose broker has the service, and is skipped.
    skipped: u64,
}

pub fn steps(tester: &mut Tester, run: &Run) {
    tester.begin_group("steps");
    tester.set_hint(format!("compare --seed {} --group steps", run.seed));
    let mut count = Count::default();
    for number in run.from..run.from + run.cases {
        let mut rng = Rng::for_case(run.seed, "steps", number);
        tester.case("case", number, run.seed, |tester| {
            let ranks = size(&mut rng);
            let tables = floor(&mut rng, ranks);
            for _ in 0..STEPS {
                one_step(tester, &mut rng, &tables, &mut count);
            }
        });
    }
    let [refused, delivered, forwarded, replied, silenced, home] = count.answers;
    tester.end_group(&format!(
        "seed {}; {} steps: {delivered} delivered, {forwarded} forwarded, {replied} error replies, \
         {silenced} silenced, {home} home, {refused} refused; {} at a skipped broker",
        run.seed, count.steps, count.skipped
    ));
}

/// Mostly few ranks: both programs check the whole tables at each step.
pub fn size(rng: &mut Rng) -> usize {
    match rng.below(256) {
        0 => rng.between(1022, 1024),
        1..=4 => rng.between(65, 1024),
        5..=50 => rng.between(10, 64),
        _ => rng.between(1, 9),
    }
}

fn one_step(tester: &mut Tester, rng: &mut Rng, tables: &OwnedTables, count: &mut Count) {
    let mut rank = rng.below(tables.ranks()) as u32;
    let message = match rng.below(16) {
        0 => right(rng),
        1..=5 => response(rng, tables, rank),
        _ => {
            let request = grown_request(rng, tables);
            rank = request.entry;
            request.message
        }
    };
    let nodeid = message.header.first;
    if (nodeid as usize) < tables.ranks() && rng.once_in(2) {
        rank = nodeid;
    }
    let frame = frame_of(&message.lent());
    let mut buffer = frame.clone();
    buffer.resize(frame.len() + behind(rng, frame.len()), rng.byte());
    let told = told(tables, rank, &message, buffer.len());
    let right = StepCase {
        tables: tables.lent(),
        rank,
        buffer: &buffer,
        record_len: rng.between(16, 24),
    };
    let answer = if rng.once_in(6) {
        damaged_step(tester, rng, tables, &right)
    } else {
        let answer = tester.step_told(&right, &told);
        read_again(tester, &answer);
        count.skipped += (nodeid == rank && skips_a_broker(tables, rank, &message)) as u64;
        answer
    };
    count.steps += 1;
    count.answers[(answer.numbers[0] as usize).min(5)] += 1;
}

/// What the library leaves, it reads.
fn read_again(tester: &mut Tester, answer: &StepAnswer) {
    if answer.refusal == 0 {
        let left = &tester.arena.after[0][answer.buffer.clone()];
        let mut record = [0; 52];
        let refusal = LIBRARY.read(left, &mut record);
        let same = refusal == 0 && number_at(&record, 0) == answer.numbers[3];
        tester.require(same, || format!("what was left is refused with {refusal}"));
    }
}

/// Bytes behind the frame, often as many as a route takes, or nearly.
fn behind(rng: &mut Rng, frame_len: usize) -> usize {
    match rng.below(16) {
        0 => rng.below(38),
        1..=2 => rng.between(37, 39),
        3 => 32_776 - frame_len.min(32_776) + rng.below(3),
        _ => rng.between(38, 200),
    }
}

/// A request of any size: up to 64 routes, a body of up to 32,768 bytes, any top route.
pub fn grown_request(rng: &mut Rng, tables: &OwnedTables) -> Request {
    let Request { entry, mut message } = request(rng, tables);
    if rng.once_in(64) {
        message.header.first = NEVER_ON_THE_WIRE;
    }
    if rng.once_in(8) {
        let count = rng.pick(&[1, 1, 2, 31, 62, 63, 64]);
        message.routes = (0..count).flat_map(|_| any_route(rng, tables)).collect();
        // Beside 64 routes so much payload always fits.
        message.payload.truncate(29_000);
    }
    if rng.once_in(32) {
        let rest = frame_of(&message.lent()).len() - 8 - message.payload.len();
        let body = 32_768 - rng.pick(&[0, 1, 37, 38, 39]);
        // A payload of so many bytes has a 4-byte size.
        let size = if message.header.flags & 0x02 == 0 {
            5
        } else if message.payload.len() < 255 {
            4
        } else {
            0
        };
        message.payload = rng.bytes(body - rest - size);
        message.header.flags |= 0x02;
    }
    Request { entry, message }
}

fn any_route(rng: &mut Rng, tables: &OwnedTables) -> Vec<u8> {
    match rng.below(2) {
        0 => route(rng),
        _ => {
            let rank = rng.below(tables.ranks()) as u32;
            tables.identity(rank).to_vec()
        }
    }
}

/// A response whose top route is mostly a neighbour's.
pub fn response(rng: &mut Rng, tables: &OwnedTables, rank: u32) -> OwnedMessage {
    let mut message = request(rng, tables).message;
    message.header.kind = 2;
    message.topic = topic(rng);
    let top = match rng.below(8) {
        0 => Vec::new(),
        1 => route(rng),
        2 => any_route(rng, tables),
        3 => tables.identity(rank).to_vec(),
        4..=5 if rank != 0 => tables.identity(parent(tables, rank)).to_vec(),
        _ => {
            let mut ranks = 0..tables.ranks() as u32;
            let child = ranks.find(|&other| other != 0 && parent(tables, other) == rank);
            tables.identity(child.unwrap_or(0)).to_vec()
        }
    };
    message.routes = [&top[..], &message.routes].concat();
    message
}

pub fn parent(tables: &OwnedTables, rank: u32) -> u32 {
    number_at(&tables.tree, 4 * rank as usize)
}

/// What the paper says of a right message at a rank of right tables.
fn told(tables: &OwnedTables, rank: u32, message: &OwnedMessage, room: usize) -> Told {
    match message.header.kind {
        1 if message.header.first == NEVER_ON_THE_WIRE => Told::Refused(10),
        1 => told_request(tables, rank, message, room),
        2 => told_response(tables, rank, message),
        _ => Told::Refused(18),
    }
}

/// The next broker is the second on the path from here.
fn told_request(tables: &OwnedTables, rank: u32, request: &OwnedMessage, room: usize) -> Told {
    let upstream = request.header.flags & 0x10 != 0;
    let nodeid = request.header.first;
    let path = path_of(&tables.lent(), rank, nodeid, upstream, &request.topic);
    let Some(&next) = path.brokers.get(1) else {
        return match path.end {
            End::Delivers(record) => Told::Kept([1, record, 0]),
            End::Error(error) => told_error(request, error),
        };
    };
    let body = frame_of(&request.lent()).len() - 8;
    if request.routes.len() == 64 * 37 || body + 38 > 32_768 {
        Told::Refused(12)
    } else if room < 8 + body + 38 {
        Told::Refused(11)
    } else {
        Told::Made([2, next, 0], pushed(tables, rank, request))
    }
}

fn told_response(tables: &OwnedTables, rank: u32, response: &OwnedMessage) -> Told {
    let top = response.routes.get(..37);
    let mut identities = tables.identities.chunks(37);
    let Some(named) = identities.position(|identity| Some(identity) == top) else {
        return Told::Kept([5, 0, 0]);
    };
    let named = named as u32;
    let is_child = |child: u32, of: u32| child != 0 && parent(tables, child) == of;
    if is_child(named, rank) || is_child(rank, named) {
        Told::Made([2, named, 0], popped(response))
    } else {
        Told::Refused(19)
    }
}

/// The same with one thing wrong, or changed: the programs have to agree.
fn damaged_step(
    tester: &mut Tester,
    rng: &mut Rng,
    tables: &OwnedTables,
    right: &StepCase,
) -> StepAnswer {
    let mut tables = tables.clone();
    let mut buffer = right.buffer.to_vec();
    let mut case = *right;
    match rng.below(8) {
        0 => damage_table(rng, &mut tables.tree, 4),
        1 => damage_table(rng, &mut tables.services, 32),
        2 => damage_table(rng, &mut tables.identities, 37),
        3 => case.rank = rng.pick(&[tables.ranks() as u32, 1024, 1 << 31, ANY]),
        4 => case.record_len = rng.below(17),
        _ => damage(rng, &mut buffer),
    }
    case.tables = tables.lent();
    case.buffer = &buffer;
    tester.step(&case, Expect::Agreed)
}

/// A byte changed, a record twice, or a wrong length.
pub fn damage_table(rng: &mut Rng, table: &mut Vec<u8>, width: usize) {
    let records = table.len() / width;
    match rng.below(4) {
        _ if records == 0 => table.push(0),
        0 => table.truncate(rng.below(table.len())),
        1 => {
            let (from, to) = (rng.below(records), rng.below(records));
            table.copy_within(width * from..width * (from + 1), width * to);
        }
        _ => {
            let at = rng.below(table.len());
            table[at] = rng.pick(&[0, 1, 2, 27, 28, b'-', b'.', b'A', b'f', 255]);
        }
    }
}
