//! Lengths above 4 GiB: a length is a `size_t`, and nothing may cut it to 32 bits. After the calls
//! all the bytes are looked at, wherever a program may have written.

use std::io::Error;

use second::frame::Header;
use second::sample::Rng;
use second::side::{LIBRARY, SECOND};
use second::write::Message;

use crate::draft::{frame_of, Draft};
use crate::pages::Repeated;
use crate::tester::{hex, Tester};

pub const ABOVE: usize = (1 << 32) + 64;
/// The pattern behind every input and in every output repeats after so many bytes.
const PATTERN_LEN: usize = 1 << 24;
/// The cases put their bytes in front of this.
pub const FRONT: usize = 200;

pub fn run(tester: &mut Tester) {
    tester.begin_group("long-lengths");
    if let Some(mut memory) = given(tester, Repeated::new(ABOVE, pattern())) {
        run_in(tester, &mut memory);
    }
    if let Some(mut memory) = given(tester, Repeated::to_be_written(ABOVE, pattern())) {
        crate::long_steps::run(tester, &mut memory);
    }
    if let Some(mut memory) = given(tester, Repeated::new(ABOVE, vec![b'a'; PATTERN_LEN])) {
        crate::long_json::far_bytes(tester, &mut memory);
    }
    tester.end_group("");
}

/// No zero, as in the other groups.
fn pattern() -> Vec<u8> {
    let mut pattern = Rng::new(1).bytes(PATTERN_LEN);
    pattern
        .iter_mut()
        .for_each(|byte| *byte |= (*byte == 0) as u8);
    pattern
}

/// Without the memory the group has failed.
fn given(tester: &mut Tester, memory: Result<Repeated, Error>) -> Option<Repeated> {
    tester.case("4 GiB of address space", 0, 0, |tester| {
        if let Err(fault) = &memory {
            tester.require(false, || format!("the system does not give them: {fault}"));
        }
    });
    memory.ok()
}

fn run_in(tester: &mut Tester, memory: &mut Repeated) {
    read_above(tester, memory.bytes());
    fault_above(tester, memory.bytes());
    unchanged(tester, memory, "read");
    write_above(tester, memory.bytes());
    unchanged(tester, memory, "write");
    long_output(tester, memory);
    crate::long_streams::run(tester, memory);
    crate::long_json::run(tester, memory);
    crate::long_commands::run(tester, memory);
    tables_above(tester, memory.bytes());
    unchanged(tester, memory, "all");
}

/// No byte behind the front is other than it was.
fn unchanged(tester: &mut Tester, memory: &mut Repeated, what: &'static str) {
    tester.case(what, ABOVE as u64, 1, |tester| {
        let changed = memory.changed_behind(FRONT);
        tester.require(changed.is_none(), || format!("byte {changed:?} is changed"));
    });
}

/// A good frame at the front of more than 4 GiB is read as that frame.
fn read_above(tester: &mut Tester, bytes: &mut [u8]) {
    let frame = Draft::request(1, b"log", Some(b"payload")).bytes();
    bytes[..frame.len()].copy_from_slice(&frame);
    for len in [1 << 32, (1 << 32) + 5, ABOVE, frame.len()] {
        tester.case("read", len as u64, 0, |tester| {
            let mut records = [[0xA7; 52]; 2];
            let answers = [
                LIBRARY.read(&bytes[..len], &mut records[0]),
                SECOND.read(&bytes[..len], &mut records[1]),
            ];
            tester.count(answers[0]);
            tester.require(answers == [0, 0] && records[0] == records[1], || {
                format!("library and second answered {answers:?} to {len} bytes")
            });
        });
    }
}

/// A frame that is refused at the front of as many bytes: the same number and byte.
fn fault_above(tester: &mut Tester, bytes: &mut [u8]) {
    let mut draft = Draft::request(1, b"log", Some(b"payload"));
    draft.header[2] = 3;
    let frame = draft.bytes();
    let told = [22, frame.len() as u32 - 18].map(u32::to_be_bytes).concat();
    bytes[..frame.len()].copy_from_slice(&frame);
    for len in [1 << 32, (1 << 32) + 5, ABOVE, frame.len()] {
        for side in [LIBRARY, SECOND] {
            tester.case("fault", len as u64, 22, |tester| {
                let mut record = [0xA7; 8];
                let answer = side.read_fault(&bytes[..len], &mut record);
                tester.count(answer);
                tester.require(answer == 22 && record[..] == told, || {
                    format!("{} answered {answer} and {}", side.name, hex(&record))
                });
            });
        }
    }
}

/// A payload of 4 GiB and a few bytes is too long, and so are routes and a topic.
fn write_above(tester: &mut Tester, bytes: &mut [u8]) {
    bytes[..FRONT].fill(0);
    let mut small = vec![0; 100];
    for (place, refusal) in [(0, 8), (1, 9), (2, 3)] {
        let part = |which: usize, short: &'static [u8]| match which == place {
            true => &bytes[..ABOVE],
            false => short,
        };
        let message = Message {
            header: header(),
            routes: part(0, b""),
            topic: part(1, b"log"),
            payload: part(2, b"p"),
        };
        tester.case("write", place as u64, refusal as u64, |tester| {
            let answers =
                [LIBRARY, SECOND].map(|side| side.write(&message, &mut small, &mut [0; 4]));
            tester.count(answers[0]);
            tester.require(answers == [refusal; 2], || {
                format!("library and second answered {answers:?}, the paper says {refusal}")
            });
        });
    }
}

/// An output of that length is only long: behind the frame every byte stays.
fn long_output(tester: &mut Tester, memory: &mut Repeated) {
    let message = Message {
        header: header(),
        routes: b"",
        topic: b"log",
        payload: b"p",
    };
    let frame = frame_of(&message);
    for side in [LIBRARY, SECOND] {
        memory.restore(FRONT);
        tester.case("long output", ABOVE as u64, 0, |tester| {
            let mut record = [0; 4];
            let answer = side.write(&message, &mut memory.bytes()[..ABOVE], &mut record);
            tester.count(answer);
            let told = u32::from_be_bytes(record) as usize;
            tester.require(answer == 0 && told == frame.len(), || {
                format!("{} answered {answer} and a frame of {told}", side.name)
            });
            let left = &memory.bytes()[..frame.len()];
            tester.require(left == frame, || {
                format!("{} wrote {}", side.name, hex(left))
            });
            let changed = memory.changed_behind(frame.len());
            tester.require(changed.is_none(), || {
                format!("{} changed byte {changed:?}", side.name)
            });
        });
    }
}

/// Tables whose lengths, cut to 32 bits, would be those of the right table at their front.
fn tables_above(tester: &mut Tester, bytes: &mut [u8]) {
    use crate::draft::route;
    use crate::table_calls::star;
    use second::sample::service;
    type Check = fn(&second::side::Side, &[u8]) -> u32;
    let checks: [(Vec<u8>, u32, Check); 3] = [
        (star(1), 14, |side, long| {
            side.check_tree(long, &mut [0; 8], &mut [0; 4])
        }),
        (service(0, b"log"), 15, |side, long| {
            side.check_services(&star(1), long)
        }),
        (route(1), 16, |side, long| {
            side.check_identities(&star(1), long)
        }),
    ];
    for (front, refusal, check) in checks {
        bytes[..64].fill(0);
        bytes[..front.len()].copy_from_slice(&front);
        for (len, number) in [(front.len(), 0), ((1 << 32) + front.len(), refusal)] {
            tester.case("table", len as u64, number as u64, |tester| {
                let answers = [LIBRARY, SECOND].map(|side| check(&side, &bytes[..len]));
                tester.count(answers[0]);
                tester.require(answers == [number; 2], || {
                    format!("library and second answered {answers:?}, the paper says {number}")
                });
            });
        }
    }
}

fn header() -> Header {
    Header {
        kind: 1,
        flags: 0x0B,
        userid: 1,
        rolemask: 2,
        first: 3,
        second: 4,
    }
}
