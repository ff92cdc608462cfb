//! The second program's commands by themselves, in bytes written out here.

use crate::calls::{read_command_call, write_command_call};
use crate::command::*;
use crate::frame::{number_at, Refusal};
use crate::sample::{route, Rng};

const NAME: &[u8] = b"echo";

fn address() -> Vec<u8> {
    route(&mut Rng::new(5))
}

/// Parts with their sizes.
fn parts(parts: &[&[u8]]) -> Vec<u8> {
    let mut bytes = Vec::new();
    for part in parts {
        if part.len() < 255 {
            bytes.push(part.len() as u8);
        } else {
            bytes.push(255);
            bytes.extend_from_slice(&(part.len() as u32).to_be_bytes());
        }
        bytes.extend_from_slice(part);
    }
    bytes
}

/// The refusal's number, or 0.
fn read(command: &[&[u8]]) -> u32 {
    read_command(&parts(command)).map_or_else(|refusal| refusal as u32, |_| 0)
}

fn written(sender: u8, command: u8, fields: [&[u8]; 3]) -> Result<Vec<u8>, Refusal> {
    let [name, address, body] = fields;
    let command = Command {
        sender,
        command,
        name,
        address,
        body,
    };
    let mut out = vec![0xA7; MAX_COMMAND + 1];
    let len = write_command(&command, &mut out)?;
    assert!(out[len..].iter().all(|&byte| byte == 0xA7));
    out.truncate(len);
    Ok(out)
}

#[test]
fn each_command_is_the_bytes_of_its_parts() {
    let address = address();
    let body: [&[u8]; 3] = [b"one", b"", &[9; 300]];
    let body_bytes = parts(&body);
    for command in 1..=3 {
        let bytes = written(1, command, [NAME, b"", &body_bytes]).unwrap();
        let front: [&[u8]; 3] = [b"MDPC02", &[command], NAME];
        assert_eq!(bytes, parts(&[&front[..], &body].concat()));
    }
    for command in 2..=4 {
        let bytes = written(2, command, [b"", &address, &body_bytes]).unwrap();
        let front: [&[u8]; 4] = [b"MDPW02", &[command], &address, b""];
        assert_eq!(bytes, parts(&[&front[..], &body].concat()));
    }
    let ready = written(2, 1, [NAME, b"", b""]).unwrap();
    assert_eq!(ready, b"\x06MDPW02\x01\x01\x04echo");
    for command in [5, 6] {
        let bytes = written(2, command, [b"", b"", b""]).unwrap();
        assert_eq!(bytes, [&b"\x06MDPW02\x01"[..], &[command]].concat());
    }
}

#[test]
fn the_record_shows_where_the_parts_are() {
    let address = address();
    let request = parts(&[b"MDPC02", &[1], NAME, b"one", b""]);
    let reply = parts(&[b"MDPW02", &[4], &address, b"", &[9; 300]]);
    let long = parts(&[b"MDPC02", &[3], &[b'n'; 255], b""]);
    let ready = parts(&[b"MDPW02", &[1], NAME]);
    let beat = parts(&[b"MDPW02", &[5]]);
    let records: [(Vec<u8>, [u32; 8]); 5] = [
        (request, [1, 1, 10, 4, 0, 14, 5, 2]),
        (reply, [2, 4, 0, 0, 10, 48, 305, 1]),
        (long, [1, 3, 14, 255, 0, 269, 1, 1]),
        (ready, [2, 1, 10, 4, 0, 0, 0, 0]),
        (beat, [2, 5, 0, 0, 0, 0, 0, 0]),
    ];
    for (bytes, numbers) in records {
        let mut record = [0xA7; 33];
        assert_eq!(read_command_call(&bytes, &mut record), 0);
        let told: Vec<u32> = (0..8).map(|place| number_at(&record, 4 * place)).collect();
        assert_eq!(told, numbers);
        assert_eq!(record[32], 0xA7);
    }
}

#[test]
fn the_reader_refuses_in_the_tickets_order() {
    let address = address();
    let empty = vec![0; 32_769];
    let refusal = |bytes: &[u8]| read_command(bytes).unwrap_err() as u32;
    assert_eq!(refusal(&empty), 31);
    // So many empty parts: none of them is a mark.
    assert_eq!(refusal(&empty[1..]), 32);
    assert_eq!(refusal(&[]), 32);
    // The size of a 60th part comes before the first part.
    assert_eq!(refusal(&[&empty[..59], &[1]].concat()), 30);
    assert_eq!(refusal(&[6]), 30);
    assert_eq!(refusal(b"\xFF\0\0\0\x06MDPC02"), 30);
    assert_eq!(read(&[b"mdpc02", &[1], NAME, b""]), 32);
    assert_eq!(read(&[b"MDPC01", &[1], NAME, b""]), 32);
    assert_eq!(read(&[b"MDPC02"]), 33);
    assert_eq!(read(&[b"MDPC02", &[4]]), 33);
    assert_eq!(read(&[b"MDPW02", &[7]]), 33);
    assert_eq!(read(&[b"MDPW02", &[5, 5]]), 33);
    assert_eq!(read(&[b"MDPC02", &[1], b"\x7F"]), 34);
    assert_eq!(read(&[b"MDPW02", &[5], b""]), 34);
    assert_eq!(read(&[b"MDPC02", &[1], b"\x7F", b""]), 35);
    assert_eq!(read(&[b"MDPW02", &[2], NAME, b"x", b""]), 36);
    assert_eq!(read(&[b"MDPW02", &[2], &address, b"x", b""]), 37);
    assert_eq!(read(&[b"MDPW02", &[2], &address, b"", b""]), 0);
}

#[test]
fn sixteen_body_parts_and_no_more() {
    let address = address();
    for (count, right) in [(0, 34), (1, 0), (16, 0), (17, 34)] {
        let body = vec![&b""[..]; count];
        let client: [&[u8]; 3] = [b"MDPC02", &[2], NAME];
        assert_eq!(read(&[&client[..], &body].concat()), right);
        let worker: [&[u8]; 4] = [b"MDPW02", &[3], &address, b""];
        assert_eq!(read(&[&worker[..], &body].concat()), right);
    }
}

#[test]
fn names_are_printable() {
    for byte in 0..=255 {
        assert_eq!(is_name(&[b'a', byte]), (0x20..=0x7E).contains(&byte));
    }
    for len in 0..300 {
        assert_eq!(is_name(&vec![b' '; len]), (1..=255).contains(&len));
    }
}

#[test]
fn the_writer_refuses_in_the_tickets_order() {
    let address = address();
    let refusal = |sender, command, fields| written(sender, command, fields).unwrap_err() as u32;
    assert_eq!(refusal(0, 1, [b"", b"", b"x"]), 33);
    assert_eq!(refusal(1, 4, [NAME, b"", b"\0"]), 33);
    // A body that is not of the form, though the command has none.
    assert_eq!(refusal(2, 5, [NAME, &address, b"\x05"]), 30);
    assert_eq!(refusal(2, 5, [NAME, &address, b"\0"]), 34);
    assert_eq!(refusal(2, 5, [NAME, &address, b""]), 35);
    assert_eq!(refusal(2, 5, [b"", &address, b""]), 36);
    assert_eq!(refusal(1, 1, [b"", &address, b""]), 34);
    assert_eq!(refusal(1, 1, [b"", &address, b"\0"]), 35);
    assert_eq!(refusal(1, 1, [NAME, &address, b"\0"]), 36);
    assert_eq!(refusal(2, 2, [NAME, b"", b"\0"]), 35);
    assert_eq!(refusal(2, 2, [b"", b"", b"\0"]), 36);
    // 7 + 2 + 5 + 5 + 32,749 are 32,768.
    let long = parts(&[&vec![1; 32_750]]);
    assert_eq!(refusal(1, 1, [NAME, b"", &long]), 31);
    let most = parts(&[&vec![1; 32_749]]);
    let bytes = written(1, 1, [NAME, b"", &most]).unwrap();
    assert_eq!(bytes.len(), MAX_COMMAND);
    assert!(read_command(&bytes).is_ok());
}

#[test]
fn a_short_room_is_left_alone() {
    let beat = Command {
        sender: 2,
        command: 6,
        name: b"",
        address: b"",
        body: b"",
    };
    for (out_len, record_len) in [(8, 4), (9, 3), (0, 0)] {
        let (mut out, mut record) = (vec![0xA7; out_len], vec![0xA7; record_len]);
        assert_eq!(write_command_call(&beat, &mut out, &mut record), 11);
        assert!(out.iter().chain(&record).all(|&byte| byte == 0xA7));
    }
    let (mut out, mut record) = ([0xA7; 10], [0xA7; 5]);
    assert_eq!(write_command_call(&beat, &mut out, &mut record), 0);
    assert_eq!(out, *b"\x06MDPW02\x01\x06\xA7");
    assert_eq!(record, [0, 0, 0, 9, 0xA7]);
    let mut record = [0xA7; 31];
    assert_eq!(read_command_call(&out[..9], &mut record), 11);
    assert_eq!(record, [0xA7; 31]);
}
