//! One broker's step: what becomes of the frame at the front of its buffer.

use crate::floor::{service_of, Floor};
use crate::frame::*;
use crate::read::{read, Reading};
use crate::write::put_header;

/// Linux's "Function not implemented": nobody has the service.
pub const ERROR_NO_SERVICE: u32 = 38;
/// Linux's "No route to host".
pub const ERROR_NO_ROUTE: u32 = 113;

/// A route with its size.
const ROUTE_PART: usize = 1 + ROUTE_LEN;

#[derive(Clone, Copy, Debug, PartialEq, Eq)]
pub enum Answer {
    /// With the number of the service's record.
    Delivered(usize),
    /// With the rank of the next broker.
    Forward(usize),
    ErrorReply(u32),
    /// An error was due, and nobody wants to hear of it.
    Silenced(u32),
    Home,
}

#[derive(Clone, Copy, Debug, PartialEq, Eq)]
pub struct Stepped {
    pub answer: Answer,
    /// Of the frame that is now in the buffer.
    pub frame_len: usize,
}

/// What a broker does with a request.
enum Way {
    Deliver(usize),
    Forward(usize),
    Fail(u32),
}

/// A refusal leaves the buffer as it was. So do all answers but a forward and an error reply, which
/// clear it behind the new frame.
pub fn step(floor: &Floor, rank: u32, buffer: &mut [u8]) -> Result<Stepped, Refusal> {
    let rank = rank as usize;
    if rank >= floor.ranks() {
        return Err(Refusal::WrongRank);
    }
    let reading = read(buffer)?;
    match reading.header.kind {
        REQUEST => {
            let topic = reading.topic.unwrap_or_default().of(buffer);
            let way = way_of(floor, rank, &reading.header, topic);
            step_request(floor, rank, way, &reading, buffer)
        }
        RESPONSE => step_response(floor, rank, &reading, buffer),
        _ => Err(Refusal::NotRouted),
    }
}

fn way_of(floor: &Floor, rank: usize, header: &Header, topic: &[u8]) -> Way {
    let nodeid = header.first;
    let own_record = || floor.record_of(rank, service_of(topic));
    if nodeid == NODEID_ANY || header.has(FLAG_UPSTREAM) {
        // Upstream the nodeid is the sender's rank: the sender is skipped. 4294967295 is no rank.
        let is_sender = nodeid as usize == rank;
        let record = if is_sender { None } else { own_record() };
        return match (record, floor.parent(rank)) {
            (Some(record), _) => Way::Deliver(record),
            (None, Some(parent)) => Way::Forward(parent),
            (None, None) => Way::Fail(ERROR_NO_SERVICE),
        };
    }
    let target = nodeid as usize;
    if target >= floor.ranks() {
        Way::Fail(ERROR_NO_ROUTE)
    } else if target != rank {
        Way::Forward(floor.next_hop(rank, target))
    } else {
        own_record().map_or(Way::Fail(ERROR_NO_SERVICE), Way::Deliver)
    }
}

fn step_request(
    floor: &Floor,
    rank: usize,
    way: Way,
    reading: &Reading,
    buffer: &mut [u8],
) -> Result<Stepped, Refusal> {
    let header = &reading.header;
    let mut frame_len = reading.frame_len;
    let answer = match way {
        Way::Deliver(record) => Answer::Delivered(record),
        Way::Forward(next) => {
            frame_len = push_route(floor.identity(rank), reading, buffer)?;
            Answer::Forward(next)
        }
        Way::Fail(error) if header.has(FLAG_NORESPONSE) => Answer::Silenced(error),
        Way::Fail(error) => {
            frame_len = make_error_reply(error, reading, buffer);
            Answer::ErrorReply(error)
        }
    };
    Ok(Stepped { answer, frame_len })
}

fn step_response(
    floor: &Floor,
    rank: usize,
    reading: &Reading,
    buffer: &mut [u8],
) -> Result<Stepped, Refusal> {
    let named = reading
        .first_route()
        .and_then(|at| floor.rank_of(&buffer[at..at + ROUTE_LEN]));
    match named {
        None => Ok(Stepped {
            answer: Answer::Home,
            frame_len: reading.frame_len,
        }),
        Some(next) if floor.are_neighbours(rank, next) => Ok(Stepped {
            answer: Answer::Forward(next),
            frame_len: pop_route(reading, buffer),
        }),
        Some(_) => Err(Refusal::NoNeighbour),
    }
}

/// Puts a route on top and tells the frame's new length.
fn push_route(route: &[u8], reading: &Reading, buffer: &mut [u8]) -> Result<usize, Refusal> {
    let frame_len = reading.frame_len + ROUTE_PART;
    if reading.routes == MAX_ROUTES || frame_len > PREFIX_LEN + MAX_BODY {
        return Err(Refusal::CannotGrow);
    }
    if frame_len > buffer.len() {
        return Err(Refusal::OutputTooShort);
    }
    buffer.copy_within(PREFIX_LEN..reading.frame_len, PREFIX_LEN + ROUTE_PART);
    buffer[PREFIX_LEN] = ROUTE_LEN as u8;
    buffer[PREFIX_LEN + 1..PREFIX_LEN + ROUTE_PART].copy_from_slice(route);
    Ok(end_frame(buffer, frame_len))
}

/// Takes the top route away and tells the frame's new length.
fn pop_route(reading: &Reading, buffer: &mut [u8]) -> usize {
    buffer.copy_within(PREFIX_LEN + ROUTE_PART..reading.frame_len, PREFIX_LEN);
    end_frame(buffer, reading.frame_len - ROUTE_PART)
}

/// The reply keeps all in front of the payload, so it is never longer than the request.
fn make_error_reply(error: u32, reading: &Reading, buffer: &mut [u8]) -> usize {
    let streaming = reading.header.flags & FLAG_STREAMING;
    let header = Header {
        kind: RESPONSE,
        flags: FLAG_TOPIC | FLAG_ROUTE | streaming,
        userid: u32::MAX,
        rolemask: 0,
        first: error,
        second: reading.header.second,
    };
    // Behind the topic and its zero byte.
    let at = reading.topic.unwrap_or_default().end() + 1;
    put_header(&mut buffer[at..], &header);
    end_frame(buffer, at + 1 + HEADER_LEN)
}

/// Sets the body's length and clears all behind the frame.
fn end_frame(buffer: &mut [u8], frame_len: usize) -> usize {
    let body_len = (frame_len - PREFIX_LEN) as u32;
    buffer[4..PREFIX_LEN].copy_from_slice(&body_len.to_be_bytes());
    buffer[frame_len..].fill(0);
    frame_len
}
