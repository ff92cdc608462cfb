//! Random messages, mostly right ones, in the shapes that matter.

use second::frame::Header;
use second::sample::{route, OwnedMessage, Rng};

/// A bound on a message's frame.
pub fn frame_len_at_most(message: &OwnedMessage) -> usize {
    let routes = message.routes.len() / 37 * 38 + 1;
    8 + routes + message.topic.len() + 6 + message.payload.len() + 5 + 21
}

/// A message that the writer takes.
pub fn right(rng: &mut Rng) -> OwnedMessage {
    let kind = rng.pick(&[1, 1, 1, 2, 2, 4, 4, 8]);
    let mut flags = rng.pick(&[0x00, 0x00, 0x04, 0x10, 0x20, 0x40, 0x74]);
    let mut message = OwnedMessage {
        header: Header {
            kind,
            flags: 0,
            userid: number(rng),
            rolemask: number(rng),
            first: number(rng),
            second: number(rng),
        },
        routes: Vec::new(),
        topic: Vec::new(),
        payload: Vec::new(),
    };
    if kind != 8 {
        flags |= 0x01;
        message.topic = topic(rng);
        if rng.once_in(2) {
            flags |= 0x02;
            message.payload = payload(rng);
        }
    }
    if kind <= 2 {
        flags |= 0x08;
        message.routes = (0..route_count(rng)).flat_map(|_| route(rng)).collect();
    }
    if kind == 1 && message.header.first == 0xFFFF_FFFE {
        message.header.first = 0xFFFF_FFFF;
    }
    if kind == 4 {
        message.header.second = 0;
    }
    message.header.flags = flags;
    message
}

/// Breaks one rule of the writer, or another thing that is no rule.
pub fn spoil(rng: &mut Rng, message: &mut OwnedMessage) {
    let header = &mut message.header;
    match rng.below(9) {
        0 => header.kind = rng.byte(),
        1 => header.flags ^= 1 << rng.below(8),
        2 => header.first = 0xFFFF_FFFE,
        3 => header.second = rng.pick(&[1, 1 << 31, 0]),
        4 => change_byte(rng, &mut message.routes),
        5 => message.routes.truncate(rng.below(80)),
        6 => change_byte(rng, &mut message.topic),
        7 => message.topic.resize(rng.pick(&[0, 255, 256, 257]), b'z'),
        _ => message
            .payload
            .resize(rng.pick(&[0, 1, 32_737, 33_000]), b'z'),
    }
}

fn change_byte(rng: &mut Rng, bytes: &mut [u8]) {
    if !bytes.is_empty() {
        let at = rng.below(bytes.len());
        bytes[at] = rng.pick(&[0, b'-', b'0', b'A', b'F', b'f', b'g', b'.', 0xFF]);
    }
}

/// Often a number at some boundary.
fn number(rng: &mut Rng) -> u32 {
    if rng.once_in(3) {
        rng.pick(&[0, 1, 0xFFFF_FFFF, 0xFFFF_FFFE, 0x8000_0000, 0x7FFF_FFFF])
    } else {
        rng.next() as u32
    }
}

fn topic(rng: &mut Rng) -> Vec<u8> {
    let len = match rng.below(16) {
        0 => rng.between(252, 255),
        1 => rng.between(1, 255),
        _ => rng.between(1, 24),
    };
    let mut topic = rng.bytes(len);
    if rng.once_in(2) {
        topic.iter_mut().for_each(|byte| *byte = b'a' + *byte % 26);
    }
    topic
        .iter_mut()
        .for_each(|byte| *byte |= (*byte == 0) as u8);
    topic
}

fn payload(rng: &mut Rng) -> Vec<u8> {
    let len = match rng.below(256) {
        // With 64 routes and a long topic, the body still holds so much.
        0 => rng.between(29_000, 30_000),
        1..=20 => 0,
        21..=50 => rng.between(250, 260),
        51..=60 => rng.between(0, 2000),
        _ => rng.between(0, 64),
    };
    rng.bytes(len)
}

fn route_count(rng: &mut Rng) -> usize {
    match rng.below(32) {
        0 => rng.between(62, 64),
        1 => rng.between(0, 64),
        2..=9 => 0,
        _ => rng.between(1, 4),
    }
}
