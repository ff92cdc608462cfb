//! Seeded cases: messages written and read back, frames with damage, and random bytes. Whatever
//! the library accepts is turned round: what was read is written, what was written is read.

use second::frame::Header;
use second::sample::{route, OwnedMessage, Rng};

use crate::draft::{frame_of, frame_with, header, push_part, MAGIC};
use crate::messages::{frame_len_at_most, right, spoil};
use crate::repairs::Repairs;
use crate::tester::{hex, Expect, ReadAnswer, ReadCase, Tester, WriteAnswer, WriteCase};

/// Which seeded cases are run.
pub struct Run {
    pub seed: u64,
    pub from: u64,
    pub cases: u64,
}

type Case = fn(&mut Tester, &mut Rng, &mut Turned);

/// How often the library's answers were turned round.
#[derive(Default)]
pub struct Turned {
    read_back: u64,
    written_back: u64,
    repairs: Repairs,
}

pub fn structured(tester: &mut Tester, run: &Run) {
    group(tester, "structured", run, structured_case);
}

pub fn damaged(tester: &mut Tester, run: &Run) {
    group(tester, "damaged", run, damaged_case);
}

pub fn random(tester: &mut Tester, run: &Run) {
    group(tester, "random", run, random_case);
}

fn group(tester: &mut Tester, name: &'static str, run: &Run, case: Case) {
    tester.begin_group(name);
    tester.set_hint(format!("compare --seed {} --group {name}", run.seed));
    let mut turned = Turned::default();
    for number in run.from..run.from + run.cases {
        let mut rng = Rng::for_case(run.seed, name, number);
        tester.case("case", number, run.seed, |tester| {
            case(tester, &mut rng, &mut turned)
        });
    }
    let Turned {
        read_back,
        written_back,
        repairs,
    } = turned;
    tester.end_group(&format!(
        "seed {}; {read_back} messages written and read back, \
         {written_back} frames read and written back; {repairs}",
        run.seed
    ));
}

/// A message is written, and its frame read back.
fn structured_case(tester: &mut Tester, rng: &mut Rng, turned: &mut Turned) {
    let mut message = right(rng);
    let spoiled = rng.once_in(8);
    if spoiled {
        spoil(rng, &mut message);
    }
    let room = frame_len_at_most(&message);
    let out_len = match rng.below(16) {
        0 => rng.below(room),
        1 => room.saturating_sub(rng.below(16)),
        _ => room + rng.below(64),
    };
    let record_len = if rng.once_in(64) {
        rng.below(4)
    } else {
        rng.between(4, 9)
    };
    let case = WriteCase {
        message: message.lent(),
        out_len,
        record_len,
    };
    let roomy = out_len >= room && record_len >= 4;
    let expect = if roomy && !spoiled {
        Expect::Number(0)
    } else {
        Expect::Agreed
    };
    let answer = tester.write(&case, expect);
    if answer.refusal == 0 && !tester.case_has_failed() {
        read_back(tester, rng, &message, &answer, turned);
    }
}

fn read_back(
    tester: &mut Tester,
    rng: &mut Rng,
    message: &OwnedMessage,
    answer: &WriteAnswer,
    turned: &mut Turned,
) {
    turned.read_back += 1;
    let read = tester.read(&ReadCase::new(&answer.out), Expect::Number(0));
    same_message(tester, message, &answer.out, &read);
    tester.require(read.record[0] as usize == answer.frame_len, || {
        "the frame that was read is not as long as the one written".to_string()
    });
    write_back(tester, rng, &answer.out, &read, turned);
}

/// What was read is what was written.
fn same_message(tester: &mut Tester, message: &OwnedMessage, bytes: &[u8], read: &ReadAnswer) {
    let same = message_in(bytes, read).is_some_and(|seen| {
        seen.header == message.header
            && seen.routes == message.routes
            && seen.topic == message.topic
            && seen.payload == message.payload
    });
    tester.require(same, || {
        format!(
            "read back as another message: {:?} from {}",
            read.record,
            hex(bytes)
        )
    });
}

/// The message that a read's record points at.
fn message_in(bytes: &[u8], read: &ReadAnswer) -> Option<OwnedMessage> {
    let record = read.record;
    let place = |start: u32, len: u32| bytes.get(start as usize..(start + len) as usize);
    let mut routes = Vec::new();
    for number in 0..record[7] {
        routes.extend_from_slice(place(record[8] + 38 * number, 37)?);
    }
    Some(OwnedMessage {
        header: Header {
            kind: record[1] as u8,
            flags: record[2] as u8,
            userid: record[3],
            rolemask: record[4],
            first: record[5],
            second: record[6],
        },
        routes,
        topic: place(record[9], record[10])?.to_vec(),
        payload: place(record[11], record[12])?.to_vec(),
    })
}

/// The writer makes the same bytes of what was read.
fn write_back(
    tester: &mut Tester,
    rng: &mut Rng,
    bytes: &[u8],
    read: &ReadAnswer,
    turned: &mut Turned,
) {
    turned.written_back += 1;
    let frame = bytes.get(..read.record[0] as usize);
    let (Some(frame), Some(message)) = (frame, message_in(bytes, read)) else {
        tester.require(false, || format!("the record holds {:?}", read.record));
        return;
    };
    let case = WriteCase {
        message: message.lent(),
        out_len: frame.len() + rng.pick(&[0, 0, 1, 40]),
        record_len: 4,
    };
    let again = tester.write(&case, Expect::Number(0));
    tester.require(again.frame() == frame, || {
        format!("{} written back as {}", hex(frame), hex(again.frame()))
    });
}

fn read_and_write_back(tester: &mut Tester, rng: &mut Rng, bytes: &[u8], turned: &mut Turned) {
    let record_len = if rng.once_in(64) {
        rng.below(52)
    } else {
        rng.between(52, 64)
    };
    let case = ReadCase {
        bytes,
        behind: &[],
        record_len,
    };
    let read = tester.read(&case, Expect::Agreed);
    match read.refusal {
        _ if tester.case_has_failed() => {}
        0 => write_back(tester, rng, bytes, &read, turned),
        _ => turned.repairs.one_after_another(tester, bytes),
    }
}

/// A right frame, with a byte or two changed, put in or taken out.
fn damaged_case(tester: &mut Tester, rng: &mut Rng, turned: &mut Turned) {
    let message = right(rng);
    let mut bytes = frame_of(&message.lent());
    let behind = if rng.once_in(4) { rng.below(40) } else { 0 };
    let repair = rng.once_in(2);
    for _ in 0..rng.between(1, 2) {
        damage(rng, &mut bytes);
    }
    if repair {
        repair_front(&mut bytes);
    }
    bytes.extend_from_slice(&rng.bytes(behind));
    read_and_write_back(tester, rng, &bytes, turned);
}

/// The front of a frame that has just these bytes, if they have room for one.
pub fn repair_front(bytes: &mut [u8]) {
    if bytes.len() >= 8 {
        let body = (bytes.len() - 8) as u32;
        bytes[..4].copy_from_slice(&MAGIC);
        bytes[4..8].copy_from_slice(&body.to_be_bytes());
    }
}

pub fn damage(rng: &mut Rng, bytes: &mut Vec<u8>) {
    let value = rng.pick(&[0, 1, 2, 4, 8, 9, 11, 20, 36, 37, 38, 45, 128, 142, 254, 255]);
    // The header, the front and everything between are hit alike.
    let at = match rng.below(3) {
        0 => rng.below(bytes.len()),
        1 => rng.below(bytes.len().min(16)),
        _ => bytes.len() - 1 - rng.below(bytes.len().min(24)),
    };
    match rng.below(8) {
        0 | 1 => bytes[at] ^= 1 << rng.below(8),
        2 | 3 => bytes[at] = value,
        4 => bytes.insert(at, value),
        5 if bytes.len() > 1 => drop(bytes.remove(at)),
        6 => bytes.truncate(at.max(1)),
        _ => bytes[at] = bytes[at].wrapping_add(1),
    }
}

/// Random parts, or bytes, in a frame whose front is mostly right.
fn random_case(tester: &mut Tester, rng: &mut Rng, turned: &mut Turned) {
    let body = if rng.once_in(8) {
        let len = rng.below(200);
        rng.bytes(len)
    } else {
        random_parts(rng)
    };
    let mut bytes = frame_with(&body);
    if rng.once_in(12) {
        let at = rng.below(8);
        bytes[at] = rng.byte();
    }
    if rng.once_in(8) {
        let behind = rng.below(30);
        bytes.extend_from_slice(&rng.bytes(behind));
    }
    if rng.once_in(12) {
        bytes.truncate(rng.below(bytes.len() + 1));
    }
    read_and_write_back(tester, rng, &bytes, turned);
}

/// Parts without a plan, of the lengths and contents that a frame could have.
fn random_parts(rng: &mut Rng) -> Vec<u8> {
    let mut body = Vec::new();
    let count = match rng.below(24) {
        0 => rng.between(60, 72),
        _ => rng.below(6),
    };
    for _ in 0..count {
        let always_long = rng.once_in(64);
        push_part(&mut body, &random_part(rng), always_long);
    }
    let kind = rng.pick(&[1, 1, 2, 4, 4, 8, 3]);
    let flags = rng.pick(&[
        0x00, 0x01, 0x01, 0x03, 0x03, 0x09, 0x09, 0x0B, 0x0B, 0x49, 0x81,
    ]);
    let first = rng.pick(&[0, 1, 0xFFFF_FFFF, 0xFFFF_FFFE]);
    let second = rng.pick(&[0, 0, 0, 1]);
    push_part(&mut body, &header(kind, flags, first, second), false);
    body
}

fn random_part(rng: &mut Rng) -> Vec<u8> {
    match rng.below(12) {
        0..=2 => Vec::new(),
        3..=5 => route(rng),
        6..=8 => [rng.pick(&[&b"log"[..], b"kvs.get", b"a", b".get"]), &[0]].concat(),
        9 => {
            let len = rng.between(250, 260);
            [&vec![b'x'; len][..], &[0]].concat()
        }
        10 => {
            let len = rng.pick(&[1, 19, 20, 21, 36, 37, 38, 253, 254, 255]);
            rng.bytes(len)
        }
        _ => {
            let len = rng.below(40);
            rng.bytes(len)
        }
    }
}
