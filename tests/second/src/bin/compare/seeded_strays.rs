//! Seeded walks outside of demand 3's premises: too many routes, too long a body, responses to and
//! fro, and anything damaged. The walk must be the library's own steps, one after another.

use second::floor::Tables;
use second::frame::number_at;
use second::sample::{floor, route, OwnedMessage, OwnedTables, Request, Rng};
use second::side::LIBRARY;

use crate::draft::frame_of;
use crate::messages::right;
use crate::seeded::{damage, Run};
use crate::seeded_steps::{damage_table, grown_request, parent, response, size};
use crate::seeded_walks::ROOM;
use crate::tester::{Expect, Tester};
use crate::walk_calls::WalkCase;

pub fn strays(tester: &mut Tester, run: &Run) {
    tester.begin_group("stray-walks");
    tester.set_hint(format!("compare --seed {} --group stray-walks", run.seed));
    // Refused on the way, home after many links.
    let (mut on_the_way, mut far) = (0, 0);
    for number in run.from..run.from + run.cases {
        let mut rng = Rng::for_case(run.seed, "stray-walks", number);
        tester.case("case", number, run.seed, |tester| {
            let (refusal, links) = stray(tester, &mut rng);
            on_the_way += (refusal != 0 && links > 0) as u64;
            far += (links > 32) as u64;
        });
    }
    tester.end_group(&format!(
        "seed {}; {on_the_way} refused on the way, {far} over more than 32 links",
        run.seed
    ));
}

fn stray(tester: &mut Tester, rng: &mut Rng) -> (u32, u32) {
    let ranks = size(rng);
    let mut tables = floor(rng, ranks);
    let (mut rank, message) = start(rng, &tables);
    let mut buffer = frame_of(&message.lent());
    let mut record_len = rng.between(24, 30);
    let mut room = ROOM + rng.pick(&[0, 0, 1, 100]);
    match rng.below(32) {
        0 => damage_table(rng, &mut tables.tree, 4),
        1 => damage_table(rng, &mut tables.services, 32),
        2 => damage_table(rng, &mut tables.identities, 37),
        3 => rank = rng.pick(&[ranks as u32, 1024, u32::MAX]),
        4 => record_len = rng.below(25),
        5 => room -= rng.pick(&[1, 2, 101, 20_000, ROOM]),
        6..=8 => damage(rng, &mut buffer),
        _ => {}
    }
    buffer.resize(room, rng.pick(&[0x00, 0xFF, 0x14]));
    let case = WalkCase {
        tables: tables.lent(),
        rank,
        buffer: &buffer,
        record_len,
    };
    let answer = tester.walk(&case, Expect::Agreed);
    if record_len < 24 {
        tester.require(answer.refusal == 11, || {
            "a short record is no 11".to_string()
        });
        return (11, 0);
    }
    let (refusal, numbers, left) = by_steps(case.tables, rank, buffer.clone());
    let same = tester.arena.after[0][answer.buffer] == left;
    tester.require(
        same && refusal == answer.refusal && numbers == answer.numbers,
        || format!("the steps come to {refusal} and {numbers:?}, same bytes: {same}"),
    );
    (refusal, numbers[5])
}

/// A rank of the tree, and a message there.
fn start(rng: &mut Rng, tables: &OwnedTables) -> (u32, OwnedMessage) {
    let rank = rng.below(tables.ranks()) as u32;
    let message = match rng.below(8) {
        0 => right(rng),
        1 => response(rng, tables, rank),
        2..=4 => tour(rng, tables, rank),
        _ => {
            let Request { entry, message } = grown_request(rng, tables);
            return (entry, message);
        }
    };
    (rank, message)
}

/// What the paper makes of the library's steps: a walk's refusal, its record and its buffer.
fn by_steps(tables: Tables, entry: u32, mut buffer: Vec<u8>) -> (u32, [u32; 6], Vec<u8>) {
    let mut numbers = [0, 0, 0, 0, entry, 0];
    if buffer.len() < ROOM {
        return (11, numbers, buffer);
    }
    // No walk has more steps than 65.
    while numbers[5] <= 65 {
        let (rank, links) = (numbers[4], numbers[5]);
        let mut record = [0; 16];
        let refusal = LIBRARY.step(tables, rank, &mut buffer, &mut record);
        if refusal != 0 {
            return (refusal, [0, 0, 0, 0, rank, links], buffer);
        }
        let told: [u32; 4] = std::array::from_fn(|place| number_at(&record, 4 * place));
        if told[0] != 2 {
            let [answer, number, error, frame_len] = told;
            return (0, [answer, number, error, frame_len, rank, links], buffer);
        }
        numbers = [0, 0, 0, 0, told[1], links + 1];
    }
    (u32::MAX, numbers, buffer)
}

/// A response whose routes lead from neighbour to neighbour, and at times to another broker.
fn tour(rng: &mut Rng, tables: &OwnedTables, rank: u32) -> OwnedMessage {
    let mut message = response(rng, tables, rank);
    let links = match rng.below(4) {
        0 => rng.between(33, 64),
        _ => rng.between(0, 20),
    };
    let mut routes = Vec::new();
    let mut at = rank;
    for _ in 0..links {
        at = match rng.below(100) {
            0 => rng.below(tables.ranks()) as u32,
            _ => neighbour(rng, tables, at),
        };
        routes.extend_from_slice(tables.identity(at));
    }
    if links < 64 && rng.once_in(2) {
        routes.extend_from_slice(&route(rng));
    }
    message.routes = routes;
    message.payload.truncate(29_000);
    message
}

/// A neighbour, or the rank itself where there is none.
fn neighbour(rng: &mut Rng, tables: &OwnedTables, rank: u32) -> u32 {
    let is_child = |&other: &u32| other != 0 && parent(tables, other) == rank;
    let mut choices: Vec<u32> = (0..tables.ranks() as u32).filter(is_child).collect();
    if rank != 0 {
        choices.push(parent(tables, rank));
    }
    match choices.len() {
        0 => rank,
        _ => rng.pick(&choices),
    }
}
