//! The bytes that the paper prints, written out here as they stand there.

use second::frame::Header;
use second::write::Message;

use crate::draft::{frame_with, header, push_part};
use crate::tester::{hex, Expect, ReadCase, Tester, WriteCase};

const CONTROL: [u8; 29] = [
    0xFF, 0xEE, 0x00, 0x12, 0x00, 0x00, 0x00, 0x15, 0x14, 0x8E, 0x01, 0x08, 0x00, 0xFF, 0xFF, 0xFF,
    0xFF, 0x00, 0x00, 0x00, 0x00, 0x00, 0x00, 0x00, 0x02, 0x00, 0x00, 0x00, 0x03,
];

const LOG_REQUEST: [u8; 35] = [
    0xFF, 0xEE, 0x00, 0x12, 0x00, 0x00, 0x00, 0x1B, 0x00, 0x04, 0x6C, 0x6F, 0x67, 0x00, 0x14, 0x8E,
    0x01, 0x01, 0x09, 0xFF, 0xFF, 0xFF, 0xFF, 0x00, 0x00, 0x00, 0x00, 0xFF, 0xFF, 0xFF, 0xFF, 0x00,
    0x00, 0x00, 0x01,
];

const ANY: u32 = 0xFFFF_FFFF;

pub fn run(tester: &mut Tester) {
    tester.begin_group("paper");
    printed_frames(tester);
    payload_limit(tester);
    part_sizes(tester);
    tester.end_group("");
}

fn head(kind: u8, flags: u8, first: u32, second: u32) -> Header {
    Header {
        kind,
        flags,
        userid: ANY,
        rolemask: 0,
        first,
        second,
    }
}

fn message<'a>(header: Header, topic: &'a [u8], payload: &'a [u8]) -> Message<'a> {
    Message {
        header,
        routes: &[],
        topic,
        payload,
    }
}

fn printed_frames(tester: &mut Tester) {
    let control = message(head(8, 0, 2, 3), b"", b"");
    written_as(tester, "control", control, &CONTROL);
    let record = [29, 8, 0, ANY, 0, 2, 3, 0, 0, 0, 0, 0, 0];
    read_as(tester, "control", &CONTROL, record);

    let log = message(head(1, 9, ANY, 1), b"log", b"");
    written_as(tester, "log", log, &LOG_REQUEST);
    let record = [35, 1, 9, ANY, 0, ANY, 1, 0, 0, 10, 3, 0, 0];
    read_as(tester, "log", &LOG_REQUEST, record);
}

fn written_as(tester: &mut Tester, what: &'static str, message: Message, frame: &[u8]) {
    for longer in 0..40 {
        let case = WriteCase {
            message,
            out_len: frame.len() + longer,
            record_len: 4,
        };
        tester.case(what, longer as u64, 0, |tester| {
            let answer = tester.write(&case, Expect::Number(0));
            tester.require(answer.frame_len == frame.len(), || {
                format!("a frame of {} bytes was reported", answer.frame_len)
            });
            tester.require(answer.frame() == frame, || {
                format!("{} was written", hex(answer.frame()))
            });
        });
    }
}

fn read_as(tester: &mut Tester, what: &'static str, frame: &[u8], record: [u32; 13]) {
    for longer in 0..40 {
        let bytes = [frame, &vec![0xA5; longer]].concat();
        tester.case(what, longer as u64, 1, |tester| {
            let answer = tester.read(&ReadCase::new(&bytes), Expect::Number(0));
            tester.require(answer.record == record, || {
                format!("the record holds {:?}", answer.record)
            });
        });
    }
}

/// 32,736 bytes of payload are written, 32,737 are 3.
fn payload_limit(tester: &mut Tester) {
    let payload = [0x5A; 32_737];
    for (len, refusal) in [(32_736, 0), (32_737, 3)] {
        let case = WriteCase {
            message: message(head(1, 0x0B, ANY, 1), b"log", &payload[..len]),
            out_len: 40_000,
            record_len: 4,
        };
        tester.case("payload", len as u64, 0, |tester| {
            let answer = tester.write(&case, Expect::Number(refusal));
            if answer.refusal == 0 {
                let front = [0xFF, 0xEE, 0x00, 0x12, 0x00, 0x00, 0x80, 0x00];
                tester.require(answer.frame().starts_with(&front), || {
                    "the body does not have 32,768 bytes".to_string()
                });
                tester.read(&ReadCase::new(&answer.out), Expect::Number(0));
            }
        });
    }
}

/// 254 bytes of data have size FE; 255 have FF 00 00 00 FF; FF 00 00 00 FE is 4.
fn part_sizes(tester: &mut Tester) {
    let data = [0x41; 255];
    let sizes: [(usize, &[u8]); 2] = [(254, &[0xFE]), (255, &[0xFF, 0x00, 0x00, 0x00, 0xFF])];
    for (len, size) in sizes {
        let case = WriteCase {
            message: message(head(4, 3, 5, 0), b"a", &data[..len]),
            out_len: 400,
            record_len: 4,
        };
        // The topic's part takes 3 bytes, so the payload's size stands at 11.
        let payload_start = 11 + size.len();
        tester.case("part size", len as u64, 0, |tester| {
            let answer = tester.write(&case, Expect::Number(0));
            tester.require(answer.frame()[11..].starts_with(size), || {
                format!("{} was written", hex(answer.frame()))
            });
            let read = tester.read(&ReadCase::new(&answer.out), Expect::Number(0));
            tester.require(
                read.record[11..] == [payload_start as u32, len as u32],
                || format!("the record holds {:?}", read.record),
            );
        });
    }
    let mut body = vec![0x02, 0x61, 0x00, 0xFF, 0x00, 0x00, 0x00, 0xFE];
    body.extend_from_slice(&data[..254]);
    push_part(&mut body, &header(4, 3, 5, 0), false);
    let frame = frame_with(&body);
    let label = ("a 4-byte size of 254", 254, 0);
    tester.read_case(label, &ReadCase::new(&frame), Expect::Number(4));
}
