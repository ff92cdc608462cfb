//! The second program in the shape of the C interface: numbers and byte slices in, records of
//! big-endian numbers out, the refusal's number or 0 as the answer.

use std::slice::{from_raw_parts, from_raw_parts_mut};

use crate::command::{read_command, write_command, Command, CommandReading};
use crate::floor::{Floor, Tables};
use crate::frame::{Header, Refusal};
use crate::json::{check_json, Verdict};
use crate::read::Reading;
use crate::step::{step, Answer, Stepped};
use crate::stream::read_stream;
use crate::walk::{walk, Stopped, Walked};
use crate::write::Message;
use crate::{read, tables, write};

pub const READ_RECORD_LEN: usize = 52;
pub const FAULT_RECORD_LEN: usize = 8;
pub const STREAM_RECORD_LEN: usize = 12;
pub const WRITE_RECORD_LEN: usize = 4;
pub const TREE_RECORD_LEN: usize = 4;
pub const STEP_RECORD_LEN: usize = 16;
pub const WALK_RECORD_LEN: usize = 24;
pub const JSON_RECORD_LEN: usize = 8;
pub const READ_COMMAND_RECORD_LEN: usize = 32;
pub const WRITE_COMMAND_RECORD_LEN: usize = 4;

#[inline]
pub fn read_call(bytes: &[u8], record: &mut [u8]) -> u32 {
    let Some(record) = record.get_mut(..READ_RECORD_LEN) else {
        return Refusal::OutputTooShort as u32;
    };
    match read::read(bytes) {
        Ok(reading) => {
            put_numbers(record, &numbers_of(&reading));
            0
        }
        Err(refusal) => refusal as u32,
    }
}

/// What the reader answers, told in the record too, with the byte at fault.
pub fn read_fault_call(bytes: &[u8], record: &mut [u8]) -> u32 {
    let Some(record) = record.get_mut(..FAULT_RECORD_LEN) else {
        return Refusal::OutputTooShort as u32;
    };
    let (refusal, byte) = match read::read_fault(bytes) {
        Ok(_) => (0, 0),
        Err(fault) => (fault.refusal as u32, fault.byte as u32),
    };
    put_numbers(record, &[refusal, byte]);
    refusal
}

/// The refusal that stopped the stream is told in the record alone.
pub fn read_stream_call(bytes: &[u8], list: &mut [u8], record: &mut [u8]) -> u32 {
    let Some(record) = record.get_mut(..STREAM_RECORD_LEN) else {
        return Refusal::OutputTooShort as u32;
    };
    let stop = read_stream(bytes, list);
    let numbers = [stop.entries as u32, stop.refusal as u32, stop.start as u32];
    put_numbers(record, &numbers);
    0
}

#[inline]
pub fn write_call(message: &Message, out: &mut [u8], record: &mut [u8]) -> u32 {
    let Some(record) = record.get_mut(..WRITE_RECORD_LEN) else {
        return Refusal::OutputTooShort as u32;
    };
    match write::write(message, out) {
        Ok(frame_len) => {
            put_numbers(record, &[frame_len as u32]);
            0
        }
        Err(refusal) => refusal as u32,
    }
}

pub fn check_tree_call(tree: &[u8], depths: &mut [u8], record: &mut [u8]) -> u32 {
    let Some(record) = record.get_mut(..TREE_RECORD_LEN) else {
        return Refusal::OutputTooShort as u32;
    };
    match tables::check_tree(tree, depths) {
        Ok(ranks) => {
            put_numbers(record, &[ranks as u32]);
            0
        }
        Err(refusal) => refusal as u32,
    }
}

pub fn check_services_call(tree: &[u8], services: &[u8]) -> u32 {
    number_of(tables::check_services(tree, services))
}

pub fn check_identities_call(tree: &[u8], identities: &[u8]) -> u32 {
    number_of(tables::check_identities(tree, identities))
}

pub fn step_call(tables: Tables, rank: u32, buffer: &mut [u8], record: &mut [u8]) -> u32 {
    let Some(record) = record.get_mut(..STEP_RECORD_LEN) else {
        return Refusal::OutputTooShort as u32;
    };
    match Floor::new(tables).and_then(|floor| step(&floor, rank, buffer)) {
        Ok(stepped) => {
            put_numbers(record, &step_numbers(&stepped));
            0
        }
        Err(refusal) => refusal as u32,
    }
}

/// Its refusals are told in its record too, with the broker that had them.
pub fn walk_call(tables: Tables, entry: u32, buffer: &mut [u8], record: &mut [u8]) -> u32 {
    let Some(record) = record.get_mut(..WALK_RECORD_LEN) else {
        return Refusal::OutputTooShort as u32;
    };
    match walk(tables, entry, buffer) {
        Ok(Walked {
            stepped,
            rank,
            links,
        }) => {
            let [answer, number, error, frame_len] = step_numbers(&stepped);
            put_numbers(record, &[answer, number, error, frame_len, rank, links]);
            0
        }
        Err(Stopped {
            refusal,
            rank,
            links,
        }) => {
            put_numbers(record, &[0, 0, 0, 0, rank, links]);
            refusal as u32
        }
    }
}

/// A refusal only where nobody can say: that it is no JSON is an answer.
pub fn check_json_call(payload: &[u8], record: &mut [u8]) -> u32 {
    let Some(record) = record.get_mut(..JSON_RECORD_LEN) else {
        return Refusal::OutputTooShort as u32;
    };
    let (refusal, answer, byte) = match check_json(payload) {
        Verdict::Json => (0, 1, 0),
        Verdict::NotJson(byte) => (0, 2, byte),
        Verdict::TooDeep(byte) => (Refusal::TooDeep as u32, 0, byte),
    };
    let byte = u32::try_from(byte).unwrap_or(u32::MAX);
    put_numbers(record, &[answer, byte]);
    refusal
}

#[inline]
pub fn read_command_call(bytes: &[u8], record: &mut [u8]) -> u32 {
    let Some(record) = record.get_mut(..READ_COMMAND_RECORD_LEN) else {
        return Refusal::OutputTooShort as u32;
    };
    let result = read_command(bytes).map(|reading| {
        put_numbers(record, &command_numbers(&reading));
    });
    number_of(result)
}

#[inline]
pub fn write_command_call(command: &Command, out: &mut [u8], record: &mut [u8]) -> u32 {
    let Some(record) = record.get_mut(..WRITE_COMMAND_RECORD_LEN) else {
        return Refusal::OutputTooShort as u32;
    };
    let result = write_command(command, out).map(|len| put_numbers(record, &[len as u32]));
    number_of(result)
}

/// The record of a command that was read. What it lacks has start 0 and length 0.
fn command_numbers(reading: &CommandReading) -> [u32; 8] {
    let name = reading.name.unwrap_or_default();
    let address = reading.address.unwrap_or_default();
    let body = reading.body.unwrap_or_default();
    [
        reading.sender as u32,
        reading.command as u32,
        name.start as u32,
        name.len as u32,
        address.start as u32,
        body.start as u32,
        body.len as u32,
        reading.body_parts as u32,
    ]
}

/// The step's record.
pub fn step_numbers(stepped: &Stepped) -> [u32; 4] {
    let (answer, number, error) = match stepped.answer {
        Answer::Delivered(record) => (1, record as u32, 0),
        Answer::Forward(rank) => (2, rank as u32, 0),
        Answer::ErrorReply(error) => (3, 0, error),
        Answer::Silenced(error) => (4, 0, error),
        Answer::Home => (5, 0, 0),
    };
    [answer, number, error, stepped.frame_len as u32]
}

fn number_of(result: Result<(), Refusal>) -> u32 {
    match result {
        Ok(()) => 0,
        Err(refusal) => refusal as u32,
    }
}

/// The read's record. An absent part has start 0 and length 0.
fn numbers_of(reading: &Reading) -> [u32; 13] {
    let header = &reading.header;
    let topic = reading.topic.unwrap_or_default();
    let payload = reading.payload.unwrap_or_default();
    [
        reading.frame_len as u32,
        header.kind as u32,
        header.flags as u32,
        header.userid,
        header.rolemask,
        header.first,
        header.second,
        reading.routes as u32,
        reading.first_route().unwrap_or(0) as u32,
        topic.start as u32,
        topic.len as u32,
        payload.start as u32,
        payload.len as u32,
    ]
}

fn put_numbers(record: &mut [u8], numbers: &[u32]) {
    for (place, number) in record.chunks_exact_mut(4).zip(numbers) {
        place.copy_from_slice(&number.to_be_bytes());
    }
}

// The same calls with pointers and lengths, never inlined, so that a caller pays for them what it
// pays for the library's.

/// # Safety
/// Each pointer with its length is a slice that lives through the call and overlaps no other.
#[inline(never)]
pub unsafe extern "C" fn second_read(
    bytes: *const u8,
    bytes_len: usize,
    record: *mut u8,
    record_len: usize,
) -> u32 {
    read_call(
        from_raw_parts(bytes, bytes_len),
        from_raw_parts_mut(record, record_len),
    )
}

/// # Safety
/// Each pointer with its length is a slice that lives through the call and overlaps no other.
#[inline(never)]
pub unsafe extern "C" fn second_read_fault(
    bytes: *const u8,
    bytes_len: usize,
    record: *mut u8,
    record_len: usize,
) -> u32 {
    read_fault_call(
        from_raw_parts(bytes, bytes_len),
        from_raw_parts_mut(record, record_len),
    )
}

/// # Safety
/// Each pointer with its length is a slice that lives through the call and overlaps no other.
#[inline(never)]
pub unsafe extern "C" fn second_read_stream(
    bytes: *const u8,
    bytes_len: usize,
    list: *mut u8,
    list_len: usize,
    record: *mut u8,
    record_len: usize,
) -> u32 {
    read_stream_call(
        from_raw_parts(bytes, bytes_len),
        from_raw_parts_mut(list, list_len),
        from_raw_parts_mut(record, record_len),
    )
}

/// # Safety
/// Each pointer with its length is a slice that lives through the call and overlaps no other.
#[inline(never)]
pub unsafe extern "C" fn second_write(
    kind: u8,
    flags: u8,
    userid: u32,
    rolemask: u32,
    first: u32,
    second: u32,
    routes: *const u8,
    routes_len: usize,
    topic: *const u8,
    topic_len: usize,
    payload: *const u8,
    payload_len: usize,
    out: *mut u8,
    out_len: usize,
    record: *mut u8,
    record_len: usize,
) -> u32 {
    let header = Header {
        kind,
        flags,
        userid,
        rolemask,
        first,
        second,
    };
    let message = Message {
        header,
        routes: from_raw_parts(routes, routes_len),
        topic: from_raw_parts(topic, topic_len),
        payload: from_raw_parts(payload, payload_len),
    };
    let out = from_raw_parts_mut(out, out_len);
    write_call(&message, out, from_raw_parts_mut(record, record_len))
}

/// # Safety
/// Each pointer with its length is a slice that lives through the call and overlaps no other.
#[inline(never)]
pub unsafe extern "C" fn second_check_tree(
    tree: *const u8,
    tree_len: usize,
    depths: *mut u8,
    depths_len: usize,
    record: *mut u8,
    record_len: usize,
) -> u32 {
    check_tree_call(
        from_raw_parts(tree, tree_len),
        from_raw_parts_mut(depths, depths_len),
        from_raw_parts_mut(record, record_len),
    )
}

/// # Safety
/// Each pointer with its length is a slice that lives through the call and overlaps no other.
#[inline(never)]
pub unsafe extern "C" fn second_check_services(
    tree: *const u8,
    tree_len: usize,
    services: *const u8,
    services_len: usize,
) -> u32 {
    check_services_call(
        from_raw_parts(tree, tree_len),
        from_raw_parts(services, services_len),
    )
}

/// # Safety
/// Each pointer with its length is a slice that lives through the call and overlaps no other.
#[inline(never)]
pub unsafe extern "C" fn second_check_identities(
    tree: *const u8,
    tree_len: usize,
    identities: *const u8,
    identities_len: usize,
) -> u32 {
    check_identities_call(
        from_raw_parts(tree, tree_len),
        from_raw_parts(identities, identities_len),
    )
}

/// # Safety
/// Each pointer with its length is a slice that lives through the call and overlaps no other.
#[inline(never)]
pub unsafe extern "C" fn second_step(
    tree: *const u8,
    tree_len: usize,
    services: *const u8,
    services_len: usize,
    identities: *const u8,
    identities_len: usize,
    rank: u32,
    buffer: *mut u8,
    buffer_len: usize,
    record: *mut u8,
    record_len: usize,
) -> u32 {
    let tables = Tables {
        tree: from_raw_parts(tree, tree_len),
        services: from_raw_parts(services, services_len),
        identities: from_raw_parts(identities, identities_len),
    };
    let buffer = from_raw_parts_mut(buffer, buffer_len);
    step_call(tables, rank, buffer, from_raw_parts_mut(record, record_len))
}

/// # Safety
/// Each pointer with its length is a slice that lives through the call and overlaps no other.
#[inline(never)]
pub unsafe extern "C" fn second_walk(
    tree: *const u8,
    tree_len: usize,
    services: *const u8,
    services_len: usize,
    identities: *const u8,
    identities_len: usize,
    rank: u32,
    buffer: *mut u8,
    buffer_len: usize,
    record: *mut u8,
    record_len: usize,
) -> u32 {
    let tables = Tables {
        tree: from_raw_parts(tree, tree_len),
        services: from_raw_parts(services, services_len),
        identities: from_raw_parts(identities, identities_len),
    };
    let buffer = from_raw_parts_mut(buffer, buffer_len);
    walk_call(tables, rank, buffer, from_raw_parts_mut(record, record_len))
}

/// # Safety
/// Each pointer with its length is a slice that lives through the call and overlaps no other.
#[inline(never)]
pub unsafe extern "C" fn second_check_json(
    payload: *const u8,
    payload_len: usize,
    record: *mut u8,
    record_len: usize,
) -> u32 {
    check_json_call(
        from_raw_parts(payload, payload_len),
        from_raw_parts_mut(record, record_len),
    )
}

/// # Safety
/// Each pointer with its length is a slice that lives through the call and overlaps no other.
#[inline(never)]
pub unsafe extern "C" fn second_read_command(
    bytes: *const u8,
    bytes_len: usize,
    record: *mut u8,
    record_len: usize,
) -> u32 {
    read_command_call(
        from_raw_parts(bytes, bytes_len),
        from_raw_parts_mut(record, record_len),
    )
}

/// # Safety
/// Each pointer with its length is a slice that lives through the call and overlaps no other.
#[inline(never)]
pub unsafe extern "C" fn second_write_command(
    sender: u8,
    command: u8,
    name: *const u8,
    name_len: usize,
    address: *const u8,
    address_len: usize,
    body: *const u8,
    body_len: usize,
    out: *mut u8,
    out_len: usize,
    record: *mut u8,
    record_len: usize,
) -> u32 {
    let command = Command {
        sender,
        command,
        name: from_raw_parts(name, name_len),
        address: from_raw_parts(address, address_len),
        body: from_raw_parts(body, body_len),
    };
    let out = from_raw_parts_mut(out, out_len);
    write_command_call(&command, out, from_raw_parts_mut(record, record_len))
}
