//! The orders of refusals of the commands' reader and writer: every fault alone, and every two
//! together.

use crate::command_calls::WriteCommandCase;
use crate::command_parts::{Fields, Kind, Sample};
use crate::faults::{self, covered, fault};
use crate::tester::{Expect, ReadCase, Tester};

/// A record's 11 is counted as 0, so that it is told from an output's.
const READ_NUMBERS: [usize; 9] = [0, 30, 31, 32, 33, 34, 35, 36, 37];
const WRITE_NUMBERS: [usize; 8] = [0, 11, 30, 31, 33, 34, 35, 36];
/// No command has a name and an address.
const NEVER_READ: [[usize; 2]; 2] = [[35, 36], [35, 37]];

pub fn run(tester: &mut Tester) {
    tester.begin_group("command-order");
    let bases = Sample::each(2).map(Read::new).collect();
    let read = pairs(tester, bases, &read_faults());
    let read = covered(tester, &read, &READ_NUMBERS, &NEVER_READ);
    let bases = Sample::each(2).map(Write::new).collect();
    let write = pairs(tester, bases, &write_faults());
    let write = covered(tester, &write, &WRITE_NUMBERS, &[]);
    tester.end_group(&format!("reader: {read}; writer: {write}"));
}

/// Something with faults that can be tried.
trait Attempt: Clone {
    fn check(&self, tester: &mut Tester, refusal: u32);
}

type Fault<T> = faults::Fault<u32, T, T>;

/// Each fault alone, and each two. The earlier is put in last, so that the other cannot undo it.
fn pairs<T: Attempt>(tester: &mut Tester, bases: Vec<T>, faults: &[Fault<T>]) -> [[bool; 38]; 38] {
    let mut met = [[false; 38]; 38];
    for (base, right) in bases.iter().enumerate() {
        for later in faults.iter().filter(|fault| (fault.fits)(right)) {
            let mut one = right.clone();
            (later.apply)(&mut one);
            tester.case("alone", base as u64, later.stage as u64, |tester| {
                one.check(tester, later.number);
            });
            for earlier in faults.iter().filter(|fault| (fault.fits)(right)) {
                if earlier.stage >= later.stage {
                    continue;
                }
                let mut both = one.clone();
                (earlier.apply)(&mut both);
                let stages = 100 * earlier.stage as u64 + later.stage as u64;
                tester.case("together", base as u64, stages, |tester| {
                    both.check(tester, earlier.number);
                });
                let [a, b] = [earlier, later].map(counted);
                met[a.min(b)][a.max(b)] = true;
            }
        }
    }
    met
}

fn counted<T>(fault: &Fault<T>) -> usize {
    match fault.stage {
        0 => 0,
        _ => fault.number as usize,
    }
}

/// Bytes to read with faults, and their record.
#[derive(Clone)]
struct Read {
    sample: Sample,
    /// Bytes behind the last part that are no part.
    raw: Vec<u8>,
    record_len: usize,
}

impl Read {
    fn new(sample: Sample) -> Read {
        Read {
            sample,
            raw: Vec::new(),
            record_len: 32,
        }
    }

    /// Changes the part of that number, unless another fault has taken it away.
    fn part(&mut self, number: usize, data: &[u8]) {
        if let Some(part) = self.sample.parts.get_mut(number) {
            *part = data.to_vec();
        }
    }
}

impl Attempt for Read {
    fn check(&self, tester: &mut Tester, refusal: u32) {
        let bytes = [&self.sample.bytes()[..], &self.raw].concat();
        let case = ReadCase {
            record_len: self.record_len,
            ..ReadCase::new(&bytes)
        };
        tester.read_command(&case, Expect::Number(refusal));
    }
}

fn any<T>(_: &T) -> bool {
    true
}

/// The stages are the places in the order.
fn read_faults() -> Vec<Fault<Read>> {
    let mut all = vec![
        fault(0, 11, any, |a: &mut Read| a.record_len = 31),
        fault(0, 11, any, |a| a.record_len = 0),
        fault(1, 31, any, |a| a.raw.extend_from_slice(&[0; 32_769])),
        fault(1, 31, any, |a| a.sample.parts.push(vec![9; 32_768])),
        fault(2, 30, any, |a| a.raw = vec![1]),
        fault(2, 30, any, |a| a.raw = vec![255]),
        fault(2, 30, any, |a| a.raw = vec![255, 0, 0, 0, 1, 7]),
        fault(2, 30, any, |a| a.raw = vec![255; 40]),
        fault(3, 32, any, |a| a.part(0, b"mdpc02")),
        fault(3, 32, any, |a| a.part(0, b"")),
        fault(3, 32, any, |a| a.part(0, b"MDPW021")),
        fault(3, 32, any, |a| a.sample.parts.clear()),
        fault(4, 33, any, |a| a.part(1, &[0])),
        fault(4, 33, any, |a| a.part(1, &[7])),
        fault(4, 33, any, |a| a.part(1, b"")),
        fault(4, 33, any, |a| a.part(1, &[1, 1])),
        fault(4, 33, any, |a| a.sample.parts.truncate(1)),
        fault(5, 34, any, |a| a.sample.parts.resize(21, vec![])),
        fault(5, 34, any, |a| a.sample.parts.resize(60, vec![1])),
    ];
    all.extend(inner_read_faults());
    all
}

fn inner_read_faults() -> Vec<Fault<Read>> {
    let named = |a: &Read| a.sample.kind.has_name();
    let addressed = |a: &Read| a.sample.kind.has_address();
    let more = |a: &Read| a.sample.kind != Kind::Bare;
    vec![
        fault(5, 34, more, |a| a.sample.parts.truncate(2)),
        fault(5, 34, addressed, |a| a.sample.parts.truncate(4)),
        fault(6, 35, named, |a| a.part(2, b"")),
        fault(6, 35, named, |a| a.part(2, b"a\x7F")),
        fault(6, 35, named, |a| a.part(2, b"\x1F")),
        fault(6, 35, named, |a| a.part(2, &[b'n'; 256])),
        fault(7, 36, addressed, |a| a.part(2, b"")),
        fault(7, 36, addressed, |a| a.part(2, b"echo")),
        fault(7, 36, addressed, |a| a.sample.parts[2][0] = b'A'),
        fault(7, 36, addressed, |a| a.sample.parts[2].push(0)),
        fault(8, 37, addressed, |a| a.part(3, b"x")),
        fault(8, 37, addressed, |a| a.part(3, &[0; 300])),
    ]
}

/// Fields to write with faults, and their rooms.
#[derive(Clone)]
struct Write {
    kind: Kind,
    fields: Fields,
    out_len: usize,
    record_len: usize,
}

impl Write {
    fn new(sample: Sample) -> Write {
        Write {
            kind: sample.kind,
            fields: sample.fields(),
            out_len: 40_000,
            record_len: 4,
        }
    }
}

impl Attempt for Write {
    fn check(&self, tester: &mut Tester, refusal: u32) {
        let case = WriteCommandCase {
            command: self.fields.lent(),
            out_len: self.out_len,
            record_len: self.record_len,
        };
        tester.write_command(&case, Expect::Number(refusal));
    }
}

fn write_faults() -> Vec<Fault<Write>> {
    let has_body = |a: &Write| a.kind.has_body();
    let mut all = vec![
        fault(0, 11, any, |a: &mut Write| a.record_len = 3),
        fault(0, 11, any, |a| a.record_len = 0),
        fault(1, 33, any, |a| a.fields.sender = 0),
        fault(1, 33, any, |a| a.fields.sender = 3),
        fault(1, 33, any, |a| a.fields.command = 0),
        fault(1, 33, any, |a| a.fields.command = 7),
        fault(2, 30, any, |a| a.fields.body.push(1)),
        fault(2, 30, any, |a| a.fields.body.extend([255, 0, 0, 0, 1, 7])),
        fault(2, 30, any, |a| a.fields.body.insert(0, 255)),
        fault(3, 34, any, |a| a.fields.body.extend([0; 17])),
        fault(3, 34, has_body, |a| a.fields.body.clear()),
        fault(6, 31, has_body, |a| long_part(&mut a.fields.body, 32_768)),
        fault(6, 31, has_body, |a| long_part(&mut a.fields.body, 70_000)),
        fault(7, 11, any, |a| a.out_len = 0),
        fault(7, 11, any, |a| a.out_len = 8),
    ];
    all.extend(name_and_address_faults());
    all
}

fn name_and_address_faults() -> Vec<Fault<Write>> {
    let named = |a: &Write| a.kind.has_name();
    let addressed = |a: &Write| a.kind.has_address();
    vec![
        fault(4, 35, any, |a| a.fields.name.push(0x7F)),
        fault(4, 35, any, |a| a.fields.name = vec![b'n'; 256]),
        fault(4, 35, named, |a| a.fields.name.clear()),
        fault(4, 35, |a| !a.kind.has_name(), |a| a.fields.name.push(b'n')),
        fault(5, 36, any, |a| a.fields.address.push(0)),
        fault(5, 36, addressed, |a| a.fields.address.clear()),
        fault(5, 36, addressed, |a| a.fields.address[8] = b'0'),
    ]
}

/// A body part of that length behind the others.
fn long_part(body: &mut Vec<u8>, len: usize) {
    crate::draft::push_part(body, &vec![6; len], false);
}
