//! Seeded commands: written and read back, right and spoiled; commands with damage; and random
//! parts. Whatever the library accepts is turned round.

use second::sample::{route, Rng};

use crate::command_calls::{WriteCommandCase, RECORD};
use crate::command_parts::{joined, Fields, Sample, COMMANDS};
use crate::draft::push_part;
use crate::seeded::{damage, Run};
use crate::tester::{hex, Expect, ReadCase, Tester};

/// How often the library's answers were turned round.
#[derive(Default)]
struct Turned {
    read_back: u64,
    written_back: u64,
}

pub fn commands(tester: &mut Tester, run: &Run) {
    tester.begin_group("commands");
    tester.set_hint(format!("compare --seed {} --group commands", run.seed));
    let mut turned = Turned::default();
    for number in run.from..run.from + run.cases {
        let mut rng = Rng::for_case(run.seed, "commands", number);
        tester.case("case", number, run.seed, |tester| match rng.below(4) {
            0 => written(tester, &mut rng, &mut turned),
            1 => spoiled(tester, &mut rng, &mut turned),
            2 => damaged(tester, &mut rng, &mut turned),
            _ => random(tester, &mut rng, &mut turned),
        });
    }
    tester.end_group(&format!(
        "seed {}; {} commands written and read back, {} read and written back",
        run.seed, turned.read_back, turned.written_back
    ));
}

/// A right command is written as the paper says, or finds no room.
fn written(tester: &mut Tester, rng: &mut Rng, turned: &mut Turned) {
    let sample = right(rng);
    let fields = sample.fields();
    let bytes = sample.bytes();
    let out_len = match rng.below(8) {
        0 => rng.below(bytes.len()),
        1 => bytes.len() - 1,
        2 => bytes.len(),
        _ => bytes.len() + rng.below(64),
    };
    let number = match bytes.len() {
        32_769.. => 31,
        len if len > out_len => 11,
        _ => 0,
    };
    let case = WriteCommandCase {
        command: fields.lent(),
        out_len,
        record_len: rng.between(4, 9),
    };
    let answer = tester.write_command(&case, Expect::Number(number));
    if answer.refusal == 0 {
        tester.require(answer.frame() == bytes, || {
            format!("{} in place of {}", hex(answer.frame()), hex(&bytes))
        });
        read_back(tester, &bytes, sample.record(), turned);
    }
}

fn read_back(tester: &mut Tester, bytes: &[u8], right: [u32; 8], turned: &mut Turned) {
    let read = tester.read_command(&ReadCase::command(bytes), Expect::Number(0));
    tester.require(read.record == right, || {
        format!("read back as {:?}, not as {right:?}", read.record)
    });
    turned.read_back += 1;
}

/// Fields that break a rule, or another thing that is none.
fn spoiled(tester: &mut Tester, rng: &mut Rng, turned: &mut Turned) {
    let mut fields = right(rng).fields();
    for _ in 0..rng.between(1, 2) {
        spoil(rng, &mut fields);
    }
    let room = 60 + fields.name.len() + fields.body.len();
    let case = WriteCommandCase {
        command: fields.lent(),
        out_len: if rng.once_in(4) {
            rng.below(room)
        } else {
            room
        },
        record_len: if rng.once_in(32) { rng.below(4) } else { 4 },
    };
    let answer = tester.write_command(&case, Expect::Agreed);
    if answer.refusal == 0 && !tester.case_has_failed() {
        tester.command_read_back(answer.frame(), &fields);
        turned.read_back += 1;
    }
}

fn spoil(rng: &mut Rng, fields: &mut Fields) {
    let bytes = match rng.below(3) {
        0 => &mut fields.name,
        1 => &mut fields.address,
        _ => &mut fields.body,
    };
    match rng.below(8) {
        0 => fields.sender = rng.pick(&[0, 1, 2, 3, 255]),
        1 => fields.command = rng.below(9) as u8,
        2 => bytes.clear(),
        3 => bytes.push(rng.pick(&[0, 1, 0x1F, 0x20, 0x7E, 0x7F, 255])),
        4 => bytes.resize(rng.pick(&[1, 36, 37, 38, 255, 256, 40_000]), b'0'),
        5 if !bytes.is_empty() => damage(rng, bytes),
        6 => *bytes = route(rng),
        _ => fields.body.extend(vec![0; rng.below(20)]),
    }
}

/// A right command with bytes changed, put in, taken out or cut off.
fn damaged(tester: &mut Tester, rng: &mut Rng, turned: &mut Turned) {
    let mut bytes = right(rng).bytes();
    for _ in 0..rng.between(1, 2) {
        damage(rng, &mut bytes);
    }
    read_and_write_back(tester, rng, &bytes, turned);
}

/// Parts without a plan, of the contents that a command could have.
fn random(tester: &mut Tester, rng: &mut Rng, turned: &mut Turned) {
    let mut bytes = Vec::new();
    let count = match rng.below(8) {
        0 => rng.between(17, 22),
        _ => rng.below(7),
    };
    if !rng.once_in(8) {
        push_part(&mut bytes, rng.pick(&[b"MDPC02", b"MDPW02"]), false);
        push_part(&mut bytes, &[rng.between(1, 6) as u8], false);
    }
    for _ in 0..count {
        let always_long = rng.once_in(200);
        push_part(&mut bytes, &random_part(rng), always_long);
    }
    read_and_write_back(tester, rng, &bytes, turned);
}

fn random_part(rng: &mut Rng) -> Vec<u8> {
    match rng.below(8) {
        0 => rng.pick(&[&b"MDPC02"[..], b"MDPW02", b"mdpw02"]).to_vec(),
        1 => vec![rng.below(8) as u8],
        2 | 3 => name(rng),
        4 => route(rng),
        5 => {
            let len = rng.pick(&[1, 36, 38, 254, 255, 256]);
            rng.bytes(len)
        }
        _ => Vec::new(),
    }
}

fn read_and_write_back(tester: &mut Tester, rng: &mut Rng, bytes: &[u8], turned: &mut Turned) {
    let case = ReadCase {
        bytes,
        behind: &[],
        record_len: match rng.once_in(64) {
            true => rng.below(RECORD),
            false => rng.between(RECORD, 40),
        },
    };
    let read = tester.read_command(&case, Expect::Agreed);
    if read.refusal == 0 && !tester.case_has_failed() {
        tester.command_written_back(bytes, &read.record);
        turned.written_back += 1;
    }
}

/// A command that the writer takes, unless it is too long.
fn right(rng: &mut Rng) -> Sample {
    let count = match rng.below(4) {
        0 => rng.pick(&[1, 15, 16]),
        _ => rng.between(1, 5),
    };
    let body: Vec<Vec<u8>> = (0..count).map(|_| body_part(rng)).collect();
    let mut sample = Sample::new(rng.pick(&COMMANDS), &body);
    if sample.kind.has_name() {
        sample.parts[2] = name(rng);
    }
    if sample.kind.has_address() {
        sample.parts[2] = route(rng);
    }
    if sample.kind.has_body() && rng.once_in(50) {
        // Around the longest that there may be.
        sample.parts.pop();
        let rest = joined(&sample.parts).len() + 5;
        let longest = 32_768_usize.saturating_sub(rest) + 3;
        sample
            .parts
            .push(vec![rng.byte(); longest - rng.below(7).min(longest)]);
    }
    sample
}

fn name(rng: &mut Rng) -> Vec<u8> {
    let len = match rng.below(8) {
        0 => rng.between(250, 255),
        1 => 1,
        _ => rng.between(1, 24),
    };
    let bytes = rng.bytes(len);
    bytes.iter().map(|byte| 0x20 + byte % 95).collect()
}

fn body_part(rng: &mut Rng) -> Vec<u8> {
    let len = match rng.below(32) {
        0..=5 => 0,
        6..=9 => rng.between(250, 260),
        10 => rng.between(0, 2000),
        _ => rng.between(0, 40),
    };
    rng.bytes(len)
}
