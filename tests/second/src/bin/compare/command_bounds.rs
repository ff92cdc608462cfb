//! Every boundary of the commands' reader, each with the answer that the paper gives.

use crate::command_calls::Told;
use crate::command_parts::{joined, kind_of, Sample, COMMANDS};
use crate::draft::{fits_route, push_part, route};
use crate::tester::{Expect, ReadCase, Tester};
use crate::{command_changes, command_limits};

pub fn run(tester: &mut Tester) {
    tester.begin_group("command-bounds");
    marks(tester);
    numbers(tester);
    command_changes::run(tester);
    names(tester);
    addresses(tester);
    separators(tester);
    body_sizes(tester);
    long_sizes(tester);
    wrong_sizes(tester);
    cut_commands(tester);
    bytes_behind(tester);
    records(tester);
    command_limits::run(tester);
    tester.end_group("");
}

/// A sample is read as itself, or refused with this number.
pub fn check(tester: &mut Tester, what: &'static str, at: usize, sample: Sample, number: u32) {
    let label = (what, at as u64, number as u64);
    let bytes = sample.bytes();
    let told = match number {
        0 => Told::Good(sample),
        _ => Told::Refused(number),
    };
    tester.command_case(label, &bytes, &told);
}

/// Each byte at each place of both marks. The one mark in place of the other makes another command
/// of the parts.
fn marks(tester: &mut Tester) {
    for (sample, other) in [(0, 34), (4, 35), (7, 33)] {
        let sample = Sample::new(COMMANDS[sample], &[vec![9]]);
        for place in 0..6 {
            for byte in 0..=255 {
                let mut changed = sample.clone();
                changed.parts[0][place] = byte;
                let number = match &changed.parts[0][..] {
                    mark if mark == sample.parts[0] => 0,
                    b"MDPC02" | b"MDPW02" => other,
                    _ => 32,
                };
                check(tester, "mark", place, changed, number);
            }
        }
    }
    let wrong: [&[u8]; 9] = [
        b"",
        b"M",
        b"MDPC0",
        b"MDPC020",
        b"MDPW02\0",
        b"mdpw02",
        b"MDPC01",
        b"MDPX02",
        &[b'M'; 255],
    ];
    for (number, mark) in wrong.into_iter().enumerate() {
        for mut sample in Sample::each(1) {
            sample.parts[0] = mark.to_vec();
            check(tester, "other mark", number, sample, 32);
        }
    }
}

/// Each number behind each mark, with the parts of each kind.
fn numbers(tester: &mut Tester) {
    let body = [vec![1; 3], vec![2; 2]];
    let rows = [
        (0, 2, [0, 34, 36, 34]),
        (3, 0, [34, 0, 34, 34]),
        (4, 1, [35, 34, 0, 34]),
        (7, 0, [34, 34, 34, 0]),
    ];
    for (row, body_parts, answers) in rows {
        for (sender, mark) in [(1, b"MDPC02"), (2, b"MDPW02")] {
            for command in 0..=255 {
                let mut sample = Sample::new(COMMANDS[row], &body[..body_parts]);
                sample.parts[0] = mark.to_vec();
                sample.parts[1] = vec![command];
                (sample.sender, sample.command) = (sender, command);
                let kind = kind_of(sender, command);
                let number = kind.map_or(33, |kind| answers[kind as usize]);
                check(tester, "number", command as usize, sample, number);
            }
        }
    }
}

fn named() -> impl Iterator<Item = Sample> {
    Sample::each(1).filter(|sample| sample.kind.has_name())
}

/// Names of each length and with each byte, at their ends and between.
fn names(tester: &mut Tester) {
    for sample in named() {
        let with = |name: Vec<u8>| {
            let mut sample = sample.clone();
            sample.parts[2] = name;
            sample
        };
        for len in 0..=300 {
            let number = if (1..=255).contains(&len) { 0 } else { 35 };
            check(tester, "name length", len, with(vec![b'n'; len]), number);
        }
        for byte in 0..=255 {
            let number = if (0x20..=0x7E).contains(&byte) { 0 } else { 35 };
            check(tester, "name", byte as usize, with(vec![byte]), number);
            for (len, place) in [(3, 0), (3, 1), (3, 2), (255, 0), (255, 100), (255, 254)] {
                let mut name = vec![b'n'; len];
                name[place] = byte;
                check(tester, "name byte", place, with(name), number);
            }
        }
    }
}

/// Each byte at each place of an address, and addresses of each length.
fn addresses(tester: &mut Tester) {
    for sample in Sample::each(2).filter(|sample| sample.kind.has_address()) {
        for place in 0..37 {
            for byte in 0..=255 {
                let mut changed = sample.clone();
                changed.parts[2][place] = byte;
                let number = if fits_route(place, byte) { 0 } else { 36 };
                check(tester, "address byte", place, changed, number);
            }
        }
        for len in 0..=300 {
            let mut changed = sample.clone();
            changed.parts[2].resize(len, 0);
            let number = if len == 37 { 0 } else { 36 };
            check(tester, "address length", len, changed, number);
        }
        // Two addresses are not one.
        let mut two = sample;
        two.parts[2] = [route(1), route(2)].concat();
        check(tester, "two addresses", 2, two, 36);
    }
}

/// Whatever it holds, only an empty separator is one; an address that is wrong comes first.
fn separators(tester: &mut Tester) {
    for sample in Sample::each(1).filter(|sample| sample.kind.has_address()) {
        for len in (0..=40).chain([254, 255, 256]) {
            for byte in [0x00, b'x', 0xFF] {
                let mut changed = sample.clone();
                changed.parts[3] = vec![byte; len];
                let number = if len == 0 { 0 } else { 37 };
                check(tester, "separator", len, changed.clone(), number);
                changed.parts[2][8] = b'0';
                check(tester, "separator and address", len, changed, 36);
            }
        }
    }
}

/// Bodies of one to three parts of the lengths at which sizes change, and of each number of parts.
fn body_sizes(tester: &mut Tester) {
    const LENGTHS: [usize; 6] = [0, 1, 253, 254, 255, 256];
    let parts = |lens: &[usize]| lens.iter().map(|&len| vec![0xB0; len]).collect::<Vec<_>>();
    for command in COMMANDS.into_iter().filter(|(.., kind)| kind.has_body()) {
        for first in LENGTHS {
            check(
                tester,
                "1 part",
                first,
                Sample::new(command, &parts(&[first])),
                0,
            );
            for second in LENGTHS {
                let two = Sample::new(command, &parts(&[first, second]));
                check(tester, "2 parts", first, two, 0);
                for third in LENGTHS {
                    let three = Sample::new(command, &parts(&[first, second, third]));
                    check(tester, "3 parts", second, three, 0);
                }
            }
        }
        for count in 0..=70 {
            for len in LENGTHS {
                let number = if (1..=16).contains(&count) { 0 } else { 34 };
                let sample = Sample::new(command, &parts(&vec![len; count]));
                check(tester, "body parts", count, sample, number);
            }
        }
    }
}

/// A body part of each length with a 4-byte size, which is right from 255 on.
fn long_sizes(tester: &mut Tester) {
    for sample in Sample::each(1).filter(|sample| sample.kind.has_body()) {
        for len in 0..=300 {
            let mut long = sample.clone();
            *long.parts.last_mut().unwrap() = vec![0x7B; len];
            let front = long.parts.len() - 1;
            let mut bytes = joined(&long.parts[..front]);
            push_part(&mut bytes, &long.parts[front], true);
            let told = match len {
                0..255 => Told::Refused(30),
                _ => Told::Good(long),
            };
            tester.command_case(("4-byte size", len as u64, 0), &bytes, &told);
        }
    }
}

/// A wrong size of each part, also behind a mark that is wrong.
fn wrong_sizes(tester: &mut Tester) {
    for sample in Sample::each(3) {
        for at in 0..sample.parts.len() {
            let front = joined(&sample.parts[..at]);
            let part = &sample.parts[at];
            let behind = joined(&sample.parts[at + 1..]);
            let left = part.len() + behind.len();
            // A 4-byte size below 255, then sizes that pass the end.
            let long = [part.len() as u32, left as u32 + 256, 1 << 24, u32::MAX];
            let long = long.map(|size| [&[255][..], &size.to_be_bytes()].concat());
            let short = (left < 254).then_some(vec![left as u8 + 1]);
            for size in long.into_iter().chain(short) {
                let label = ("wrong size", at as u64, sample.command as u64);
                for wrong in [&b""[..], b"\0", b"\x06MDPC03"] {
                    let bytes = [wrong, &front, &size, part, &behind].concat();
                    tester.command_case(label, &bytes, &Told::Refused(30));
                }
            }
        }
    }
}

/// Cut at each byte: inside of a part it is 30; between two it is another command, or none.
fn cut_commands(tester: &mut Tester) {
    for sample in Sample::each(3) {
        let bytes = sample.bytes();
        for len in 0..bytes.len() {
            let whole = (0..=sample.parts.len()).find(|&count| {
                let front = joined(&sample.parts[..count]);
                front.len() == len
            });
            let number = match whole {
                None => 30,
                Some(0) => 32,
                Some(1) => 33,
                Some(count) if sample.kind.has_body() && count > sample.kind.front() => 0,
                Some(_) => 34,
            };
            let mut cut = sample.clone();
            cut.parts.truncate(whole.unwrap_or(0));
            let told = match number {
                0 => Told::Good(cut),
                _ => Told::Refused(number),
            };
            tester.command_case(("cut", len as u64, number as u64), &bytes[..len], &told);
        }
    }
}

/// Nothing can stand behind a command: it is a part more, or none.
fn bytes_behind(tester: &mut Tester) {
    for body_parts in [1, 15, 16] {
        for sample in Sample::each(body_parts) {
            let label = ("behind", body_parts as u64, sample.command as u64);
            for rest in [&[1][..], &[254; 9], &[255], &[255, 0, 0, 0, 1, 7]] {
                let bytes = [&sample.bytes(), rest].concat();
                tester.command_case(label, &bytes, &Told::Refused(30));
            }
            let room = sample.kind.has_body() && body_parts < 16;
            for part in [vec![], vec![0x20], vec![0; 300]] {
                let mut longer = sample.clone();
                longer.parts.push(part);
                let number = if room { 0 } else { 34 };
                check(tester, "part behind", body_parts, longer, number);
            }
        }
    }
}

/// Below 32 bytes the record is refused first; above it keeps its tail.
fn records(tester: &mut Tester) {
    let mut inputs: Vec<(u32, Vec<u8>)> =
        Sample::each(2).map(|sample| (0, sample.bytes())).collect();
    inputs.extend([
        (31, vec![0; 32_769]),
        (30, vec![5]),
        (32, vec![]),
        (33, b"\x06MDPC02".to_vec()),
        (34, b"\x06MDPC02\x01\x01".to_vec()),
        (35, b"\x06MDPW02\x01\x01\x00".to_vec()),
        (36, b"\x06MDPW02\x01\x02\x00\x00\x00".to_vec()),
    ]);
    for (number, bytes) in inputs {
        for record_len in (0..=40).chain([52, 1000]) {
            let case = ReadCase {
                record_len,
                ..ReadCase::new(&bytes)
            };
            let refusal = if record_len < 32 { 11 } else { number };
            tester.case("record", record_len as u64, number as u64, |tester| {
                tester.read_command(&case, Expect::Number(refusal));
            });
        }
    }
}
