//! The byte at fault that the second program tells, by itself: each byte that change request 4
//! names, in frames written out here.

use crate::calls::read_fault_call;
use crate::frame::{number_at, Header, Refusal};
use crate::read::{read, read_fault};
use crate::sample::{route, Rng};
use crate::write::{write, Message};

/// A frame of these parts, each with its size.
fn frame(parts: &[&[u8]]) -> Vec<u8> {
    let mut body = Vec::new();
    for part in parts {
        if part.len() < 255 {
            body.push(part.len() as u8);
        } else {
            body.push(255);
            body.extend_from_slice(&(part.len() as u32).to_be_bytes());
        }
        body.extend_from_slice(part);
    }
    framed(&body)
}

fn framed(body: &[u8]) -> Vec<u8> {
    let length = (body.len() as u32).to_be_bytes();
    [&[0xFF, 0xEE, 0x00, 0x12], &length[..], body].concat()
}

fn header(kind: u8, flags: u8) -> [u8; 20] {
    let mut header = [0; 20];
    header[..4].copy_from_slice(&[0x8E, 0x01, kind, flags]);
    header
}

/// Number and byte; 0 and 0 for a good frame.
fn told(bytes: &[u8]) -> (u32, usize) {
    let fault = read_fault(bytes).err();
    assert_eq!(read(bytes).err(), fault.map(|fault| fault.refusal));
    fault.map_or((0, 0), |fault| (fault.refusal as u32, fault.byte))
}

#[test]
fn a_good_frame_and_what_is_refused_before_the_body_have_no_byte() {
    let good = frame(&[&header(8, 0)]);
    assert_eq!(told(&good), (0, 0));
    for len in 0..good.len() {
        assert_eq!(told(&good[..len]), (1, 0));
    }
    let mut wrong = good.clone();
    wrong[2] = 1;
    assert_eq!(told(&wrong), (2, 0));
    wrong = good;
    wrong[6] = 0x81;
    assert_eq!(told(&wrong), (3, 0));
}

#[test]
fn a_wrong_part_has_the_first_byte_of_its_size() {
    assert_eq!(told(&framed(&[1])), (4, 8));
    assert_eq!(told(&framed(&[255, 0, 0, 0, 20])), (4, 8));
    // Behind a part of 3 bytes, and behind one of 300 with its five of size.
    assert_eq!(told(&framed(&[3, 7, 7, 7, 255, 0])), (4, 12));
    let long = frame(&[&[7; 300]]);
    assert_eq!(told(&framed(&[&long[8..], &[9]].concat())), (4, 8 + 305));
}

#[test]
fn the_69th_part_has_its_size_byte() {
    assert_eq!(told(&framed(&[0; 69])), (5, 8 + 68));
    assert_eq!(told(&framed(&[&[0; 68][..], &[255]].concat())), (5, 8 + 68));
    let long = frame(&[&[1; 255][..]; 68]);
    let longer = framed(&[&long[8..], &[4]].concat());
    assert_eq!(told(&longer), (5, 8 + 68 * 260));
}

#[test]
fn a_wrong_length_of_the_header_has_the_last_parts_size_byte() {
    assert_eq!(told(&framed(&[])), (6, 8));
    assert_eq!(told(&frame(&[&header(8, 0)[..19]])), (6, 8));
    assert_eq!(told(&frame(&[&header(8, 0), &[]])), (6, 8 + 21));
    // The 255 of a long one.
    assert_eq!(told(&frame(&[&[1, 2], &[0x8E; 400]])), (6, 8 + 3));
}

#[test]
fn each_header_byte_has_itself() {
    for (at, number) in [(0, 20), (1, 21), (2, 22), (3, 23)] {
        let mut last = header(1, 0x09);
        // What comes later in the order is wrong too, and there is no delimiter.
        last[at..4].fill(0xFF);
        assert_eq!(told(&frame(&[&last])), (number, 9 + at));
        assert_eq!(told(&frame(&[&[5; 255], &last])), (number, 269 + at));
    }
}

#[test]
fn parts_that_disagree_have_the_start_of_the_headers_data() {
    assert_eq!(told(&frame(&[&header(8, 0x02)])), (7, 9));
    assert_eq!(told(&frame(&[b"log\0", &header(1, 0x09)])), (7, 14));
    assert_eq!(told(&frame(&[&[5; 300], &header(8, 0)])), (7, 8 + 305 + 1));
}

#[test]
fn a_wrong_route_goes_by_position() {
    let good: Vec<Vec<u8>> = (0..65).map(|seed| route(&mut Rng::new(seed))).collect();
    let of = |routes: &[Vec<u8>]| {
        let mut parts: Vec<&[u8]> = routes.iter().map(Vec::as_slice).collect();
        let last = header(1, 0x09);
        parts.extend([&b""[..], b"log\0", &last]);
        told(&frame(&parts))
    };
    assert_eq!(of(&good[..64]), (0, 0));
    assert_eq!(of(&good), (8, 9 + 38 * 64));
    for at in [0, 1, 63, 64] {
        let mut wrong = good.clone();
        wrong[at][0] = b'A';
        wrong[64][36] = 1;
        assert_eq!(of(&wrong), (8, 9 + 38 * at));
        // With a long size, and another wrong one behind it.
        wrong[at].resize(300, 0);
        assert_eq!(of(&wrong), (8, 13 + 38 * at));
    }
}

#[test]
fn a_wrong_topic_has_the_start_of_its_data() {
    let event = |topic: &[u8]| told(&frame(&[topic, &header(4, 0x01)]));
    assert_eq!(event(b"hb\0"), (0, 0));
    // Where the data of an empty one would start.
    assert_eq!(event(b""), (9, 9));
    assert_eq!(event(b"hb"), (9, 9));
    assert_eq!(event(&[1; 257]), (9, 13));
    let request = told(&frame(&[b"", b"\0", &[6; 20], &header(1, 0x0B)]));
    assert_eq!(request, (9, 10));
}

#[test]
fn a_wrong_field_has_its_start() {
    let mut request = header(1, 0x09);
    request[12..16].copy_from_slice(&[255, 255, 255, 254]);
    // The header's data start at 8 + 1 + 5 + 1.
    assert_eq!(told(&frame(&[b"", b"log\0", &request])), (10, 15 + 12));
    let mut event = header(4, 0x01);
    event[19] = 1;
    assert_eq!(told(&frame(&[b"hb\0", &event])), (10, 13 + 16));
}

#[test]
fn the_writer_tries_the_type_then_the_flag() {
    let mut out = [0; 100];
    let mut written = |kind: u8, flags: u8| {
        let header = Header {
            kind,
            flags,
            userid: 0,
            rolemask: 0,
            first: 0,
            second: 0,
        };
        let message = Message {
            header,
            routes: b"x",
            topic: b"",
            payload: b"",
        };
        write(&message, &mut out).unwrap_err()
    };
    assert_eq!(written(3, 0x80), Refusal::WrongType);
    assert_eq!(written(8, 0x80), Refusal::RefusedFlag);
    assert_eq!(written(8, 0x00), Refusal::PartsDisagree);
}

#[test]
fn the_record_has_number_and_byte() {
    let wrong = frame(&[&header(3, 0)]);
    for record_len in 0..8 {
        let mut record = vec![0xA7; record_len];
        assert_eq!(read_fault_call(&wrong, &mut record), 11);
        assert!(record.iter().all(|&byte| byte == 0xA7));
    }
    for (bytes, numbers) in [(wrong, [22, 11]), (frame(&[&header(8, 0)]), [0, 0])] {
        let mut record = [0xA7; 9];
        assert_eq!(read_fault_call(&bytes, &mut record), numbers[0]);
        assert_eq!([0, 4].map(|at| number_at(&record, at)), numbers);
        assert_eq!(record[8], 0xA7);
    }
}
