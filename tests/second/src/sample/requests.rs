//! Requests for a floor, and responses to them.

use super::{depth_of, floors::NAMES, route, OwnedTables, Rng};
use crate::frame::{number_at, Header};
use crate::path::chain;
use crate::write::Message;

/// The body that demand 3 leaves room to grow by 32 routes.
const MAX_BODY: usize = 31_552;

#[derive(Clone, Debug, PartialEq, Eq)]
pub struct OwnedMessage {
    pub header: Header,
    pub routes: Vec<u8>,
    pub topic: Vec<u8>,
    pub payload: Vec<u8>,
}

impl OwnedMessage {
    pub fn lent(&self) -> Message<'_> {
        Message {
            header: self.header,
            routes: &self.routes,
            topic: &self.topic,
            payload: &self.payload,
        }
    }

    /// The body's length without the payload's part.
    fn rest_len(&self) -> usize {
        let topic = self.topic.len() + 1;
        let topic_part = topic + if topic < 255 { 1 } else { 5 };
        self.routes.len() / 37 * 38 + 1 + topic_part + 21
    }
}

/// A request, and the rank at which its walk begins.
#[derive(Clone, Debug)]
pub struct Request {
    pub entry: u32,
    pub message: OwnedMessage,
}

/// A request within demand 3's premises, often at their limits.
pub fn request(rng: &mut Rng, tables: &OwnedTables) -> Request {
    let entry = far_rank(rng, tables);
    let header = Header {
        kind: 1,
        flags: 0x09 | rng.pick(&[0x00, 0x00, 0x00, 0x04, 0x20, 0x40, 0x44, 0x64]),
        userid: rng.next() as u32,
        rolemask: rng.next() as u32,
        first: nodeid(rng, tables),
        second: rng.next() as u32,
    };
    let mut message = OwnedMessage {
        header,
        routes: entry_routes(rng, tables),
        topic: topic(rng),
        payload: Vec::new(),
    };
    let way_up = chain(&tables.lent(), entry);
    if rng.once_in(4) {
        message.header.flags |= 0x10;
        message.header.first = sender(rng, tables, &way_up);
    }
    if rng.once_in(2) {
        aim(rng, tables, &way_up, &mut message);
    }
    if rng.once_in(2) {
        add_payload(rng, &mut message, MAX_BODY);
    }
    Request { entry, message }
}

/// Lets a request ask for a service that some broker has, and often name that broker. Upstream it
/// is one on the way: no other matters.
fn aim(rng: &mut Rng, tables: &OwnedTables, way_up: &[u32], message: &mut OwnedMessage) {
    let upstream = message.header.flags & 0x10 != 0;
    let matters = |record: &&[u8]| !upstream || way_up.contains(&number_at(record, 0));
    let records: Vec<&[u8]> = tables.services.chunks(32).filter(matters).collect();
    if !records.is_empty() {
        let record = rng.pick(&records);
        let name = &record[5..5 + record[4] as usize];
        message.topic = [name, rng.pick(&[&b""[..], b".run", b"."])].concat();
        if message.header.first != u32::MAX && rng.once_in(2) {
            message.header.first = number_at(record, 0);
        }
    }
}

/// A response that the broker at the request's end may send: it has the routes at rest, mostly the
/// request's topic and matchtag, and all else is free.
pub fn response(rng: &mut Rng, request: &OwnedMessage, routes: Vec<u8>) -> OwnedMessage {
    let header = Header {
        kind: 2,
        flags: 0x09 | rng.pick(&[0x00, 0x00, 0x04, 0x10, 0x20, 0x40, 0x74]),
        userid: rng.next() as u32,
        rolemask: rng.next() as u32,
        first: rng.pick(&[0, 0, 2, 38, 113, u32::MAX, u32::MAX - 1]),
        second: request.header.second,
    };
    let mut message = OwnedMessage {
        header,
        routes,
        topic: request.topic.clone(),
        payload: Vec::new(),
    };
    if rng.once_in(4) {
        message.topic = topic(rng);
        message.header.second = rng.next() as u32;
    }
    if rng.once_in(2) {
        add_payload(rng, &mut message, 32_768);
    }
    message
}

/// A topic whose service may or may not be among the names.
pub fn topic(rng: &mut Rng) -> Vec<u8> {
    let name = rng.pick(&NAMES);
    let method: &[u8] = rng.pick(&[b"", b".run", b".", b".put.x", b"..", b".bench"]);
    match rng.below(16) {
        0 => [b".", name].concat(),
        1 => [name, b"x", method].concat(),
        2 => [&name[..name.len() - 1], b"!", method].concat(),
        3 => {
            // A name of the longest length, cut out of a longer service.
            let longer = rng.pick(&[1, 228]);
            [NAMES[5], &vec![b'z'; longer]].concat()
        }
        4 => {
            let mut topic = [name, b"."].concat();
            topic.resize(rng.pick(&[253, 254, 255]), b'm');
            topic
        }
        _ => [name, method].concat(),
    }
}

fn nodeid(rng: &mut Rng, tables: &OwnedTables) -> u32 {
    match rng.below(12) {
        0..=3 => u32::MAX,
        4 => outside(rng, tables),
        _ => far_rank(rng, tables),
    }
}

/// Whom an upstream request names: mostly the entry, its parent, rank 0 or another on the way.
fn sender(rng: &mut Rng, tables: &OwnedTables, way_up: &[u32]) -> u32 {
    match rng.below(8) {
        0..=1 => way_up[0],
        2 => way_up[1.min(way_up.len() - 1)],
        3 => 0,
        4 => rng.pick(way_up),
        5 => outside(rng, tables),
        _ => nodeid(rng, tables),
    }
}

/// No rank of the tree.
fn outside(rng: &mut Rng, tables: &OwnedTables) -> u32 {
    let ranks = tables.ranks() as u32;
    rng.pick(&[ranks, ranks + 1, 1024, 1 << 31, u32::MAX - 2, ranks << 8])
}

/// Any rank, or the deepest of several.
fn far_rank(rng: &mut Rng, tables: &OwnedTables) -> u32 {
    let choices = [0; 8].map(|_| rng.below(tables.ranks()) as u32);
    let several = rng.pick(&[1, 1, 3, 8]);
    let far = choices[..several].iter().copied();
    far.max_by_key(|&rank| depth_of(&tables.tree, rank))
        .unwrap()
}

/// At most 32 routes, the top one no broker's; brokers may stand below it.
fn entry_routes(rng: &mut Rng, tables: &OwnedTables) -> Vec<u8> {
    let count = match rng.below(16) {
        0 => 32,
        1 => rng.between(29, 31),
        2..=8 => 0,
        _ => rng.between(1, 3),
    };
    let mut routes = Vec::new();
    for number in 0..count {
        if number > 0 && rng.once_in(3) {
            let rank = rng.below(tables.ranks()) as u32;
            routes.extend_from_slice(tables.identity(rank));
        } else {
            routes.extend_from_slice(&foreign(rng, tables));
        }
    }
    routes
}

/// A route that no broker has, at times nearly one's.
fn foreign(rng: &mut Rng, tables: &OwnedTables) -> Vec<u8> {
    loop {
        let mut route = route(rng);
        if rng.once_in(4) {
            let rank = rng.below(tables.ranks()) as u32;
            route = tables.identity(rank).to_vec();
            route[rng.pick(&[0, 7, 24, 35])] = rng.pick(b"0123456789abcdef");
        }
        let mut identities = tables.identities.chunks(37);
        if !identities.any(|identity| identity == route) {
            return route;
        }
    }
}

/// A payload with which the body has at most `limit` bytes.
fn add_payload(rng: &mut Rng, message: &mut OwnedMessage, limit: usize) {
    let room = limit - message.rest_len() - 5;
    let len = match rng.below(64) {
        0 => room,
        1 => room - rng.below(80),
        2..=5 => rng.between(250, 260),
        6..=9 => 0,
        _ => rng.below(64),
    };
    message.header.flags |= 0x02;
    message.payload = rng.bytes(len);
}
