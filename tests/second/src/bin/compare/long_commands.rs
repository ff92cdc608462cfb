//! Commands, their fields and rooms of more than 4 GiB. What lies behind the front of them is
//! looked at once all calls are made.

use second::command::Command;
use second::side::{LIBRARY, SECOND};

use crate::command_parts::{Sample, COMMANDS};
use crate::long_lengths::{ABOVE, FRONT};
use crate::pages::Repeated;
use crate::tester::{hex, Tester};

/// Lengths that are small, or none, if they are cut to 32 bits; one is that of a command.
const LENGTHS: [usize; 4] = [1 << 32, (1 << 32) + 9, (1 << 32) + 37, ABOVE];

pub fn run(tester: &mut Tester, memory: &mut Repeated) {
    long_inputs(tester, memory);
    long_fields(tester, memory);
    long_bodies(tester, memory);
    long_records(tester, memory);
    long_output(tester, memory);
}

/// HEARTBEAT, which has 9 bytes.
fn beat() -> Sample {
    Sample::new(COMMANDS[7], &[])
}

/// A good command at their front makes no good command of so many bytes.
fn long_inputs(tester: &mut Tester, memory: &mut Repeated) {
    let bytes = memory.bytes();
    bytes[..9].copy_from_slice(&beat().bytes());
    for (len, right) in LENGTHS.map(|len| (len, 31)).into_iter().chain([(9, 0)]) {
        tester.case("read command", len as u64, right as u64, |tester| {
            let answers =
                [LIBRARY, SECOND].map(|side| side.read_command(&bytes[..len], &mut [0; 32]));
            same(tester, answers, right);
        });
    }
}

fn same(tester: &mut Tester, answers: [u32; 2], right: u32) {
    tester.count(answers[0]);
    tester.require(answers == [right; 2], || {
        format!("library and second answered {answers:?}, the paper says {right}")
    });
}

/// A name and an address of so many bytes, of which the first are right.
fn long_fields(tester: &mut Tester, memory: &mut Repeated) {
    let bytes = memory.bytes();
    for (command, right) in [(COMMANDS[0], 35), (COMMANDS[3], 35), (COMMANDS[4], 36)] {
        let sample = Sample::new(command, &[vec![1]]);
        let field = &sample.parts[2];
        let fields = sample.fields();
        bytes[..field.len()].copy_from_slice(field);
        for len in LENGTHS.into_iter().chain([(1 << 32) + field.len()]) {
            let mut command = fields.lent();
            match right {
                35 => command.name = &bytes[..len],
                _ => command.address = &bytes[..len],
            }
            write(tester, "long field", &command, right);
        }
    }
}

fn write(tester: &mut Tester, what: &'static str, command: &Command, right: u32) {
    tester.case(what, command.body.len() as u64, right as u64, |tester| {
        let answers =
            [LIBRARY, SECOND].map(|side| side.write_command(command, &mut [0; 100], &mut [0; 4]));
        same(tester, answers, right);
    });
}

/// The longest part that a size can tell, alone and with a byte more, which begins a wrong one.
fn long_bodies(tester: &mut Tester, memory: &mut Repeated) {
    let bytes = memory.bytes();
    bytes[..5].fill(255);
    for (command, right) in [(0, 31), (3, 34), (4, 31), (7, 34)] {
        let fields = Sample::new(COMMANDS[command], &[]).fields();
        let longest = u32::MAX as usize + 5;
        for (len, right) in [(longest, right), (longest + 1, 30), (longest - 1, 30)] {
            let command = Command {
                body: &bytes[..len],
                ..fields.lent()
            };
            write(tester, "long body", &command, right);
        }
    }
}

/// A long record keeps all behind its front.
fn long_records(tester: &mut Tester, memory: &mut Repeated) {
    let command = beat();
    let fields = command.fields();
    let numbers = command.record().map(u32::to_be_bytes).concat();
    for len in LENGTHS {
        for side in [LIBRARY, SECOND] {
            memory.restore(FRONT);
            let kept = memory.bytes()[..48].to_vec();
            tester.case("read command's record", len as u64, 0, |tester| {
                let record = &mut memory.bytes()[..len];
                let answer = side.read_command(&command.bytes(), record);
                let right = [&numbers, &kept[32..]].concat();
                left(tester, side.name, (answer, &record[..48]), &right);
            });
            memory.restore(FRONT);
            tester.case("write command's record", len as u64, 0, |tester| {
                let record = &mut memory.bytes()[..len];
                let answer = side.write_command(&fields.lent(), &mut [0; 9], record);
                let right = [&[0, 0, 0, 9], &kept[4..]].concat();
                left(tester, side.name, (answer, &record[..48]), &right);
            });
        }
    }
}

fn long_output(tester: &mut Tester, memory: &mut Repeated) {
    let command = beat();
    let fields = command.fields();
    for side in [LIBRARY, SECOND] {
        memory.restore(FRONT);
        let kept = memory.bytes()[..48].to_vec();
        tester.case("write command's output", ABOVE as u64, 0, |tester| {
            let out = &mut memory.bytes()[..ABOVE];
            let answer = side.write_command(&fields.lent(), out, &mut [0; 4]);
            let right = [&command.bytes(), &kept[9..]].concat();
            left(tester, side.name, (answer, &out[..48]), &right);
        });
    }
}

/// What a call answered and left.
fn left(tester: &mut Tester, name: &str, (answer, left): (u32, &[u8]), right: &[u8]) {
    tester.count(answer);
    tester.require(answer == 0 && left == right, || {
        format!(
            "{name} answered {answer} and left {} for {}",
            hex(left),
            hex(right)
        )
    });
}
