//! The writer: a message into a lent buffer.

use crate::frame::*;

/// What the writer takes: routes of 37 bytes each, the topic without its zero byte.
#[derive(Clone, Copy, Debug)]
pub struct Message<'a> {
    pub header: Header,
    pub routes: &'a [u8],
    pub topic: &'a [u8],
    pub payload: &'a [u8],
}

/// Writes the frame to the front of `out` and tells its length. A refusal writes nothing.
#[inline]
pub fn write(message: &Message, out: &mut [u8]) -> Result<usize, Refusal> {
    check(message)?;
    let body_len = body_len(message);
    if body_len > MAX_BODY {
        return Err(Refusal::BodyTooLong);
    }
    let frame_len = PREFIX_LEN + body_len;
    let frame = out.get_mut(..frame_len).ok_or(Refusal::OutputTooShort)?;
    let rest = put(frame, &MAGIC);
    let rest = put(rest, &(body_len as u32).to_be_bytes());
    put_parts(rest, message);
    Ok(frame_len)
}

/// Everything but the lengths of body and output, in the paper's order.
fn check(message: &Message) -> Result<(), Refusal> {
    let header = &message.header;
    if !header.has_known_type() {
        return Err(Refusal::WrongType);
    }
    if header.has(FLAG_REFUSED) {
        return Err(Refusal::RefusedFlag);
    }
    // A part that is not empty needs its flag; a flag may stand with an empty part.
    let unflagged = (!message.routes.is_empty() && !header.has(FLAG_ROUTE))
        || (!message.topic.is_empty() && !header.has(FLAG_TOPIC))
        || (!message.payload.is_empty() && !header.has(FLAG_PAYLOAD));
    if unflagged || !header.flags_fit_type() {
        return Err(Refusal::PartsDisagree);
    }
    let mut routes = message.routes.chunks_exact(ROUTE_LEN);
    let whole = routes.remainder().is_empty();
    if !whole || routes.len() > MAX_ROUTES || !routes.all(is_route) {
        return Err(Refusal::WrongRoute);
    }
    if header.has(FLAG_TOPIC) && !is_topic(message.topic) {
        return Err(Refusal::WrongTopic);
    }
    if header.wrong_field().is_some() {
        return Err(Refusal::WrongField);
    }
    Ok(())
}

/// A part's bytes with its size.
pub(crate) fn part_len(data_len: usize) -> usize {
    if data_len < LONG_SIZE as usize {
        1 + data_len
    } else {
        5 + data_len
    }
}

fn body_len(message: &Message) -> usize {
    let header = &message.header;
    let mut len = message.routes.len() / ROUTE_LEN * (1 + ROUTE_LEN);
    if header.has(FLAG_ROUTE) {
        len += part_len(0);
    }
    if header.has(FLAG_TOPIC) {
        len += part_len(message.topic.len() + 1);
    }
    if header.has(FLAG_PAYLOAD) {
        len += part_len(message.payload.len());
    }
    len + part_len(HEADER_LEN)
}

/// The whole body; `rest` has exactly its length.
fn put_parts(mut rest: &mut [u8], message: &Message) {
    let header = &message.header;
    for route in message.routes.chunks_exact(ROUTE_LEN) {
        rest = put_size(rest, ROUTE_LEN);
        rest = put(rest, route);
    }
    if header.has(FLAG_ROUTE) {
        rest = put_size(rest, 0);
    }
    if header.has(FLAG_TOPIC) {
        rest = put_size(rest, message.topic.len() + 1);
        rest = put(rest, message.topic);
        rest = put(rest, &[0]);
    }
    if header.has(FLAG_PAYLOAD) {
        rest = put_size(rest, message.payload.len());
        rest = put(rest, message.payload);
    }
    put_header(rest, header);
}

/// The header's part, with its size.
pub(crate) fn put_header(out: &mut [u8], header: &Header) {
    let mut rest = put_size(out, HEADER_LEN);
    rest = put(
        rest,
        &[HEADER_MAGIC, HEADER_VERSION, header.kind, header.flags],
    );
    for field in [header.userid, header.rolemask, header.first, header.second] {
        rest = put(rest, &field.to_be_bytes());
    }
}

pub(crate) fn put_size(out: &mut [u8], data_len: usize) -> &mut [u8] {
    if data_len < LONG_SIZE as usize {
        put(out, &[data_len as u8])
    } else {
        let rest = put(out, &[LONG_SIZE]);
        put(rest, &(data_len as u32).to_be_bytes())
    }
}

/// Copies to the front and hands back what follows.
pub(crate) fn put<'a>(out: &'a mut [u8], bytes: &[u8]) -> &'a mut [u8] {
    let (front, rest) = out.split_at_mut(bytes.len());
    front.copy_from_slice(bytes);
    rest
}
