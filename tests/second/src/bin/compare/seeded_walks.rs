//! Demand 3 on seeded floors: a request's walk and its response's walk home, each by steps and by
//! the walk call, against the path that is worked out apart from both.

use second::demand3::{frame_of, request_rest, response_rest, Rest};
use second::path::path_of;
use second::sample::{floor, request, response, OwnedMessage, OwnedTables, Request, Rng};

use crate::pages::Edge;
use crate::seeded::Run;
use crate::tester::Tester;
use crate::walk_runs::{Ground, Start};

/// Room for every frame.
pub const ROOM: usize = 32_776;

/// What the walks came to.
struct Count {
    /// By answer.
    ends: [u64; 5],
    /// By links.
    links: [u64; 33],
    /// Those on which a broker with the service is skipped.
    skipped: u64,
}

pub fn walks(tester: &mut Tester, run: &Run) {
    tester.begin_group("walks");
    tester.set_hint(format!("compare --seed {} --group walks", run.seed));
    let mut ground = Ground::new();
    let mut count = Count {
        ends: [0; 5],
        links: [0; 33],
        skipped: 0,
    };
    for number in run.from..run.from + run.cases {
        let mut rng = Rng::for_case(run.seed, "walks", number);
        tester.case("case", number, run.seed, |tester| {
            let ranks = size(&mut rng);
            let tables = floor(&mut rng, ranks);
            let request = request(&mut rng, &tables);
            let there = there_and_home(tester, &mut rng, &mut ground, &tables, &request);
            count.ends[there.numbers[0] as usize] += 1;
            count.links[there.numbers[5] as usize] += 1;
            count.skipped += skips_a_broker(&tables, request.entry, &request.message) as u64;
        });
    }
    let [_, delivered, _, replied, silenced] = count.ends;
    let far = count.links[17..].iter().sum::<u64>();
    tester.end_group(&format!(
        "seed {}; {delivered} delivered, {replied} error replies, {silenced} silenced; {} on 0 \
         links, {far} on more than 16, {} on 32; {} past a skipped broker",
        run.seed, count.links[0], count.links[32], count.skipped
    ));
}

/// Mostly few ranks: both programs check the whole tables at each step.
fn size(rng: &mut Rng) -> usize {
    match rng.below(1000) {
        0 => 1024,
        1..=9 => rng.between(65, 1024),
        10..=129 => rng.between(33, 64),
        130..=299 => rng.between(10, 32),
        _ => rng.between(1, 9),
    }
}

/// Whether a request goes upstream past a broker that has the service and is named.
pub fn skips_a_broker(tables: &OwnedTables, entry: u32, request: &OwnedMessage) -> bool {
    let to = |nodeid: u32| path_of(&tables.lent(), entry, nodeid, true, &request.topic);
    let upstream = request.header.kind == 1 && request.header.flags & 0x10 != 0;
    upstream && to(request.header.first) != to(u32::MAX)
}

/// A request's walk, and home its error reply or a response, or both.
pub fn there_and_home(
    tester: &mut Tester,
    rng: &mut Rng,
    ground: &mut Ground,
    tables: &OwnedTables,
    request: &Request,
) -> Rest {
    let there = request_rest(&tables.lent(), request.entry, &request.message);
    let buffer = lent_buffer(rng, &request.message);
    let mut start = Start {
        tables,
        rank: request.entry,
        buffer: &buffer,
        edge: rng.pick(&[Edge::End, Edge::End, Edge::Start]),
    };
    ground.walk_as(tester, &start, &there);
    let [answer, .., last, _] = there.numbers;
    start.rank = last;
    if answer == 3 {
        // The error reply that lies there now.
        let mut left = there.frame.clone();
        left.resize(buffer.len(), 0);
        let home = response_rest(&request.message, &there, &there.message);
        let start = Start {
            buffer: &left,
            ..start
        };
        ground.walk_as(tester, &start, &home);
    }
    if answer != 3 || rng.once_in(2) {
        let reply = response(rng, &request.message, there.message.routes.clone());
        let home = response_rest(&request.message, &there, &reply);
        let buffer = lent_buffer(rng, &reply);
        start.buffer = &buffer;
        ground.walk_as(tester, &start, &home);
    }
    there
}

/// A frame with rubbish behind it, or zeros, in a buffer that holds every frame.
fn lent_buffer(rng: &mut Rng, message: &OwnedMessage) -> Vec<u8> {
    let mut buffer = frame_of(&message.lent());
    buffer.resize(
        ROOM + rng.pick(&[0, 0, 0, 1, 38, 1000]),
        rng.pick(&[0x00, 0x14, 0xFF]),
    );
    buffer
}
