//! Steps, and a walk, on buffers of more than 4 GiB: kept to their end, or cleared to it and not
//! beyond.

use second::floor::Tables;
use second::sample::OwnedMessage;
use second::side::LIBRARY;

use crate::draft::frame_of;
use crate::long_lengths::ABOVE;
use crate::pages::{first_not_zero, Repeated};
use crate::paper_floor::{request, tables, told_request, told_response, ANY};
use crate::step_calls::{pushed, Told};
use crate::tester::{hex, Tester};

pub fn run(tester: &mut Tester, memory: &mut Repeated) {
    let floor = tables();
    for (number, (rank, message, told)) in steps().iter().enumerate() {
        tester.case("step", number as u64, 0, |tester| {
            memory.refill();
            step(tester, memory, floor.lent(), *rank, message, told);
        });
    }
    tester.case("walk", 0, 0, |tester| {
        memory.refill();
        walk(tester, memory);
    });
}

/// One for each answer and two for a forward, and one that is refused.
fn steps() -> Vec<(u32, OwnedMessage, Told)> {
    let floor = tables();
    let mut steps: Vec<_> = [(1, ANY, 0x00), (5, ANY, 0x00), (5, 7, 0x00), (5, 7, 0x04)]
        .map(|(rank, nodeid, flags)| {
            let request = request(nodeid, flags, 1, b"bench.run", b"");
            let told = told_request(&floor, rank, &request, b"bench");
            (rank, request, told)
        })
        .into();
    let mut home = request(0, 0, 1, b"kvs", b"");
    home.header.kind = 2;
    let mut away = home.clone();
    away.routes.splice(..0, floor.identity(2).iter().copied());
    for (rank, top, response) in [
        (6, None, home),
        (6, Some(2), away.clone()),
        (4, Some(2), away),
    ] {
        let told = told_response(rank, top, &response);
        steps.push((rank, response, told));
    }
    steps
}

fn step(
    tester: &mut Tester,
    memory: &mut Repeated,
    tables: Tables,
    rank: u32,
    message: &OwnedMessage,
    told: &Told,
) {
    let frame = frame_of(&message.lent());
    memory.bytes()[..frame.len()].copy_from_slice(&frame);
    let mut record = [0xA7; 16];
    let answer = LIBRARY.step(tables, rank, &mut memory.bytes()[..ABOVE], &mut record);
    tester.count(answer);
    let (refusal, numbers, left) = match told {
        Told::Refused(number) => (*number, None, frame),
        Told::Kept(numbers) => (0, Some(numbers), frame),
        Told::Made(numbers, message) => (0, Some(numbers), frame_of(&message.lent())),
    };
    let mut right = [0xA7; 16];
    if let Some(&[answer, number, error]) = numbers {
        let numbers = [answer, number, error, left.len() as u32];
        right.copy_from_slice(&numbers.map(u32::to_be_bytes).concat());
    }
    tester.require(answer == refusal && record == right, || {
        format!("{answer} for {refusal}, and {} in the record", hex(&record))
    });
    let cleared = matches!(told, Told::Made(..));
    check_left(tester, memory, &left, cleared);
}

/// The frame is at the front, and behind it all is cleared, or all is as it was.
fn check_left(tester: &mut Tester, memory: &mut Repeated, frame: &[u8], cleared: bool) {
    let front = &memory.bytes()[..frame.len()];
    tester.require(front == frame, || format!("{} left", hex(front)));
    let mut kept_from = frame.len();
    if cleared {
        let first = first_not_zero(&memory.bytes()[frame.len()..ABOVE]);
        tester.require(first.is_none(), || {
            format!("byte {first:?} behind the frame is not cleared")
        });
        kept_from = ABOVE;
    }
    let changed = memory.changed_behind(kept_from);
    tester.require(changed.is_none(), || format!("byte {changed:?} is changed"));
}

/// W1.
fn walk(tester: &mut Tester, memory: &mut Repeated) {
    let floor = tables();
    let request = request(ANY, 0x00, 1, b"bench.run", b"");
    let frame = frame_of(&request.lent());
    memory.bytes()[..frame.len()].copy_from_slice(&frame);
    let mut record = [0; 24];
    let buffer = &mut memory.bytes()[..ABOVE];
    let answer = LIBRARY.walk(floor.lent(), 3, buffer, &mut record);
    tester.count(answer);
    let left = frame_of(&pushed(&floor, 3, &request).lent());
    let right = [1, 0, 0, left.len() as u32, 1, 1].map(u32::to_be_bytes);
    tester.require(answer == 0 && record[..] == right.concat(), || {
        format!("{answer}, and {} in the record", hex(&record))
    });
    check_left(tester, memory, &left, true);
}
