//! Every boundary of the commands' writer, each with the answer that the paper gives.

use crate::command_calls::WriteCommandCase;
use crate::command_parts::{body_of, filled, joined, kind_of, Fields, Kind, Sample, COMMANDS};
use crate::draft::{fits_route, push_part, route};
use crate::tester::{hex, Expect, ReadCase, Tester};

pub fn run(tester: &mut Tester) {
    tester.begin_group("command-outputs");
    whole_commands(tester);
    senders_and_commands(tester);
    what_is_lacking(tester);
    outputs_and_records(tester);
    names(tester);
    addresses(tester);
    bodies(tester);
    wrong_bodies(tester);
    limits(tester);
    tester.end_group("");
}

/// With room enough for all that is given.
fn number(tester: &mut Tester, what: &'static str, at: usize, fields: &Fields, refusal: u32) {
    let out_len = 60 + fields.name.len() + fields.body.len();
    let label = (what, at as u64, refusal as u64);
    in_rooms(tester, label, fields, [out_len, 4], refusal);
}

/// With an output and a record of these lengths. What is written is read back.
fn in_rooms(
    tester: &mut Tester,
    label: (&'static str, u64, u64),
    fields: &Fields,
    [out_len, record_len]: [usize; 2],
    refusal: u32,
) {
    let case = WriteCommandCase {
        command: fields.lent(),
        out_len,
        record_len,
    };
    tester.case(label.0, label.1, label.2, |tester| {
        let answer = tester.write_command(&case, Expect::Number(refusal));
        if answer.refusal == 0 {
            tester.command_read_back(answer.frame(), fields);
        }
    });
}

/// The sample's bytes are written, and read as its fields.
fn written(tester: &mut Tester, what: &'static str, sample: &Sample, longer: usize) {
    let bytes = sample.bytes();
    let fields = sample.fields();
    let case = WriteCommandCase {
        command: fields.lent(),
        out_len: bytes.len() + longer,
        record_len: 4,
    };
    tester.case(what, bytes.len() as u64, longer as u64, |tester| {
        let answer = tester.write_command(&case, Expect::Number(0));
        tester.require(answer.frame() == bytes, || {
            format!("{} in place of {}", hex(answer.frame()), hex(&bytes))
        });
        let read = tester.read_command(&ReadCase::command(answer.frame()), Expect::Number(0));
        let right = sample.record();
        tester.require(read.record == right, || {
            format!("read back as {:?}, not as {right:?}", read.record)
        });
    });
}

/// Each command with each number of body parts, and the lengths at which sizes change, in rooms
/// that fit and in longer ones.
fn whole_commands(tester: &mut Tester) {
    for body_parts in 1..=16 {
        for sample in Sample::each(body_parts) {
            for longer in [0, 1, 40] {
                written(tester, "whole", &sample, longer);
            }
        }
    }
    for len in [0, 1, 253, 254, 255, 256, 1000] {
        for command in COMMANDS {
            let body = [vec![0; len], vec![1; 254], vec![2; 255]];
            for body_parts in 1..=3 {
                let mut sample = Sample::new(command, &body[..body_parts]);
                if sample.kind.has_name() {
                    sample.parts[2] = vec![b'~'; len.clamp(1, 255)];
                }
                written(tester, "sizes", &sample, 33);
            }
        }
    }
}

/// Fields of which some are given.
fn given(sender: u8, command: u8, [name, address, body]: [bool; 3]) -> Fields {
    let take = |given: bool, field: Vec<u8>| if given { field } else { Vec::new() };
    Fields {
        sender,
        command,
        name: take(name, b"echo".to_vec()),
        address: take(address, route(7)),
        body: take(body, joined(&body_of(2))),
    }
}

/// Each sender with each number, and each set of fields.
fn senders_and_commands(tester: &mut Tester) {
    for sender in 0..=255 {
        for command in 0..=255 {
            for set in 0..8 {
                let fields = [1, 2, 4].map(|bit| set & bit != 0);
                let [name, address, body] = fields;
                let refusal = match kind_of(sender, command) {
                    None => 33,
                    Some(kind) if kind.has_body() != body => 34,
                    Some(kind) if kind.has_name() != name => 35,
                    Some(kind) if kind.has_address() != address => 36,
                    Some(_) => 0,
                };
                let fields = given(sender, command, fields);
                let at = 256 * sender as usize + command as usize;
                number(tester, "sender and number", at, &fields, refusal);
            }
        }
    }
}

/// The number of a field that a command lacks or has, and how it is given.
type Give = (u32, fn(Kind) -> bool, fn(&mut Fields, &[u8]));
const GIVES: [Give; 3] = [
    (34, Kind::has_body, |fields, thing| {
        fields.body = joined(&[thing.to_vec()])
    }),
    (35, Kind::has_name, |fields, thing| {
        fields.name = thing.to_vec()
    }),
    (36, Kind::has_address, |fields, thing| {
        fields.address = thing.to_vec()
    }),
];

/// What a command lacks may not be given, whatever it holds; what it needs must be.
fn what_is_lacking(tester: &mut Tester) {
    let things: [&[u8]; 7] = [
        b"x",
        b"\0",
        b"echo",
        b"\x7F",
        &route(7),
        &[b'n'; 256],
        &[0; 40_000],
    ];
    for sample in Sample::each(2) {
        for (refusal, has, give) in GIVES {
            if has(sample.kind) {
                continue;
            }
            for thing in things {
                let mut fields = sample.fields();
                give(&mut fields, thing);
                number(tester, "lacking", thing.len(), &fields, refusal);
            }
        }
    }
    for mut fields in Sample::each(2).map(|sample| sample.fields()) {
        let kind = kind_of(fields.sender, fields.command);
        fields.name.clear();
        fields.address.clear();
        let refusal = match kind {
            Some(Kind::Bare) => 0,
            Some(Kind::Addressed) => 36,
            _ => 35,
        };
        number(tester, "not given", 0, &fields, refusal);
    }
}

/// Outputs of each length around the command's, and records of each length.
fn outputs_and_records(tester: &mut Tester) {
    for sample in Sample::each(2) {
        let fields = sample.fields();
        let needed = sample.bytes().len();
        let wrong = Fields {
            sender: 3,
            ..fields.clone()
        };
        let mut rooms: Vec<(usize, usize)> = (0..needed + 40).map(|len| (len, 4)).collect();
        rooms.extend((0..=40).map(|record_len| (needed, record_len)));
        for (out_len, record_len) in rooms {
            for (fields, refusal) in [(&fields, 0), (&wrong, 33)] {
                let refusal = match refusal {
                    _ if record_len < 4 => 11,
                    0 if out_len < needed => 11,
                    _ => refusal,
                };
                let label = ("room", out_len as u64, record_len as u64);
                in_rooms(tester, label, fields, [out_len, record_len], refusal);
            }
        }
    }
}

fn names(tester: &mut Tester) {
    for sample in Sample::each(1).filter(|sample| sample.kind.has_name()) {
        let mut fields = sample.fields();
        for len in 0..=600 {
            fields.name = vec![b'n'; len];
            let refusal = if (1..=255).contains(&len) { 0 } else { 35 };
            number(tester, "name length", len, &fields, refusal);
        }
        for byte in 0..=255 {
            let refusal = if (0x20..=0x7E).contains(&byte) { 0 } else { 35 };
            for (len, place) in [(1, 0), (3, 0), (3, 1), (3, 2), (255, 0), (255, 254)] {
                fields.name = vec![b'n'; len];
                fields.name[place] = byte;
                number(tester, "name byte", byte as usize, &fields, refusal);
            }
        }
    }
}

fn addresses(tester: &mut Tester) {
    for sample in Sample::each(1).filter(|sample| sample.kind.has_address()) {
        let fields = sample.fields();
        for place in 0..37 {
            for byte in 0..=255 {
                let mut fields = fields.clone();
                fields.address[place] = byte;
                let refusal = if fits_route(place, byte) { 0 } else { 36 };
                number(tester, "address byte", place, &fields, refusal);
            }
        }
        for len in 0..=300 {
            let mut fields = fields.clone();
            fields.address.resize(len, 0);
            let refusal = if len == 37 { 0 } else { 36 };
            number(tester, "address length", len, &fields, refusal);
        }
    }
}

/// Bodies of each number of parts, and bodies cut at each byte.
fn bodies(tester: &mut Tester) {
    for sample in Sample::each(3) {
        let mut fields = sample.fields();
        let right = |parts: usize| match sample.kind.has_body() {
            true => (1..=16).contains(&parts),
            false => parts == 0,
        };
        for count in 0..=70 {
            for len in [0, 1, 254, 255] {
                fields.body = joined(&vec![vec![0xB0; len]; count]);
                let refusal = if right(count) { 0 } else { 34 };
                number(tester, "body parts", count, &fields, refusal);
            }
        }
        let parts = [vec![], vec![1; 3], vec![2; 254], vec![3; 256], vec![]];
        let body = joined(&parts);
        for len in 0..=body.len() {
            let whole = (0..=parts.len()).find(|&count| joined(&parts[..count]).len() == len);
            let refusal = match whole {
                None => 30,
                Some(count) if right(count) => 0,
                Some(_) => 34,
            };
            fields.body = body[..len].to_vec();
            number(tester, "cut body", len, &fields, refusal);
        }
    }
}

/// A body that is not of the form is 30 for every command, also above 16 parts and 32,768 bytes,
/// and whatever else is wrong or too short.
fn wrong_bodies(tester: &mut Tester) {
    let mut long = Vec::new();
    push_part(&mut long, &[7; 254], true);
    let mut bodies = vec![long, vec![1], vec![5, 1, 2], vec![255], vec![255; 300]];
    bodies.push(vec![255, 0, 0, 1, 0]);
    bodies.push([&[0; 16][..], &[1]].concat());
    bodies.push([&[0; 60][..], &[255, 0, 0, 0, 9], &[0; 9]].concat());
    bodies.push([&[0; 40_000][..], &[1]].concat());
    bodies.push([joined(&[vec![7; 40_000]]), vec![2, 2]].concat());
    for (at, body) in bodies.iter().enumerate() {
        for sample in Sample::each(1) {
            let right = sample.fields();
            let wrong = Fields {
                name: b"\x7F".to_vec(),
                address: b"x".to_vec(),
                ..right.clone()
            };
            for mut fields in [right, wrong] {
                fields.body = body.clone();
                number(tester, "wrong body", at, &fields, 30);
                let label = ("wrong body, no room", at as u64, 0);
                in_rooms(tester, label, &fields, [0, 4], 30);
            }
        }
    }
}

/// 32,768 bytes are written, one more is 31 whatever the room; what comes earlier still does.
fn limits(tester: &mut Tester) {
    for body_parts in [1, 2, 16] {
        for sample in Sample::each(body_parts).filter(|sample| sample.kind.has_body()) {
            for total in [32_767, 32_768, 32_769, 32_770, 40_000] {
                let fields = filled(sample.clone(), total).fields();
                for out_len in [0, 9, total - 1, total, total + 7] {
                    let refusal = match out_len {
                        _ if total > 32_768 => 31,
                        _ if out_len < total => 11,
                        _ => 0,
                    };
                    let label = ("limit", total as u64, out_len as u64);
                    in_rooms(tester, label, &fields, [out_len, 4], refusal);
                }
                earlier_faults(tester, sample.kind, &fields, total);
            }
        }
    }
    for sample in Sample::each(1) {
        for parts in [17, 32_768, 32_769, 100_000] {
            let mut fields = sample.fields();
            fields.body = vec![0; parts];
            number(tester, "empty parts", parts, &fields, 34);
        }
    }
}

/// Faults that come before 31, in a command of that length.
fn earlier_faults(tester: &mut Tester, kind: Kind, right: &Fields, total: usize) {
    let mut many = right.clone();
    many.body.extend_from_slice(&[0; 16]);
    number(tester, "limit and parts", total, &many, 34);
    let mut name = right.clone();
    name.name.push(0x1F);
    number(tester, "limit and name", total, &name, 35);
    let mut address = right.clone();
    address.address.push(0);
    number(tester, "limit and address", total, &address, 36);
    let mut lacks = right.clone();
    match kind.has_name() {
        true => lacks.name.clear(),
        false => lacks.address.clear(),
    }
    let refusal = if kind.has_name() { 35 } else { 36 };
    number(tester, "limit and nothing given", total, &lacks, refusal);
}
