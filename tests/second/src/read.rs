//! The reader: where the parts of the frame at the front of some bytes are. Nothing is copied.

use crate::frame::*;

/// A stretch of the caller's bytes, counted from the frame's front.
#[derive(Clone, Copy, Debug, Default, PartialEq, Eq)]
pub struct Stretch {
    pub start: usize,
    pub len: usize,
}

impl Stretch {
    pub fn end(self) -> usize {
        self.start + self.len
    }

    pub fn of(self, frame: &[u8]) -> &[u8] {
        &frame[self.start..self.end()]
    }
}

/// An accepted frame. Its routes lie one behind the other, each with its size byte in front.
#[derive(Clone, Copy, Debug, PartialEq, Eq)]
pub struct Reading {
    pub frame_len: usize,
    pub header: Header,
    pub routes: usize,
    /// Without its zero byte.
    pub topic: Option<Stretch>,
    pub payload: Option<Stretch>,
}

impl Reading {
    /// The first byte of the top route, which always stands in the same place.
    pub fn first_route(&self) -> Option<usize> {
        (self.routes > 0).then_some(PREFIX_LEN + 1)
    }
}

/// Why a frame is refused, and the byte at fault, counted from the frame's front.
#[derive(Clone, Copy, Debug, PartialEq, Eq)]
pub struct Fault {
    pub refusal: Refusal,
    /// 0 if the frame is refused before its body is looked at.
    pub byte: usize,
}

impl Fault {
    fn new(refusal: Refusal, byte: usize) -> Fault {
        Fault { refusal, byte }
    }
}

/// What the walk through the body keeps. Topic, payload and header are among the last three
/// parts, and the routes are checked as one stretch, so no list of parts is needed.
struct Parts {
    count: usize,
    /// Where the last part's size begins; where it would if there is none.
    last_size: usize,
    /// Number and place of the first empty part.
    first_empty: Option<(usize, Stretch)>,
    /// The last three, the latest first.
    last: [Stretch; 3],
}

/// The parts by their role, as the flags say.
struct Roles {
    routes: usize,
    /// All routes with their sizes.
    route_bytes: Stretch,
    topic: Option<Stretch>,
    payload: Option<Stretch>,
}

#[inline]
pub fn read(bytes: &[u8]) -> Result<Reading, Refusal> {
    read_fault(bytes).map_err(|fault| fault.refusal)
}

/// The same, with the byte at fault if the frame is refused.
#[inline]
pub fn read_fault(bytes: &[u8]) -> Result<Reading, Fault> {
    let frame = frame_in(bytes).map_err(|refusal| Fault::new(refusal, 0))?;
    let parts = walk_parts(frame)?;
    let header = read_header(frame, &parts)?;
    let roles = assign_roles(&parts, &header)?;
    check_routes(frame, &roles)?;
    let topic = roles
        .topic
        .map(|part| read_topic(frame, part))
        .transpose()?;
    if let Some(at) = header.wrong_field() {
        return Err(Fault::new(Refusal::WrongField, parts.last[0].start + at));
    }
    Ok(Reading {
        frame_len: frame.len(),
        header,
        routes: roles.routes,
        topic,
        payload: roles.payload,
    })
}

/// The frame without what lies behind it.
fn frame_in(bytes: &[u8]) -> Result<&[u8], Refusal> {
    if bytes.len() < PREFIX_LEN {
        return Err(Refusal::TooFewBytes);
    }
    if bytes[..4] != MAGIC {
        return Err(Refusal::WrongMagic);
    }
    let body_len = number_at(bytes, 4) as usize;
    if body_len > MAX_BODY {
        return Err(Refusal::BodyTooLong);
    }
    bytes
        .get(..PREFIX_LEN + body_len)
        .ok_or(Refusal::TooFewBytes)
}

fn walk_parts(frame: &[u8]) -> Result<Parts, Fault> {
    let mut parts = Parts {
        count: 0,
        last_size: PREFIX_LEN,
        first_empty: None,
        last: [Stretch::default(); 3],
    };
    let mut at = PREFIX_LEN;
    while at < frame.len() {
        // Before the size is read: what a 69th part looks like does not matter.
        if parts.count == MAX_PARTS {
            return Err(Fault::new(Refusal::TooManyParts, at));
        }
        let part = part_at(frame, at)?;
        parts.last_size = at;
        if part.len == 0 && parts.first_empty.is_none() {
            parts.first_empty = Some((parts.count, part));
        }
        parts.last = [part, parts.last[0], parts.last[1]];
        parts.count += 1;
        at = part.end();
    }
    Ok(parts)
}

/// The data of the part whose size begins at `at`, which is the byte at fault for all that can be
/// wrong here.
pub(crate) fn part_at(frame: &[u8], at: usize) -> Result<Stretch, Fault> {
    let part = if frame[at] != LONG_SIZE {
        Stretch {
            start: at + 1,
            len: frame[at] as usize,
        }
    } else if frame.len() - at < 5 {
        return Err(Fault::new(Refusal::PartPastEnd, at));
    } else {
        Stretch {
            start: at + 5,
            len: number_at(frame, at + 1) as usize,
        }
    };
    // A short part has one encoding only.
    let is_long = part.start == at + 5;
    if (is_long && part.len < LONG_SIZE as usize) || part.len > frame.len() - part.start {
        return Err(Fault::new(Refusal::PartPastEnd, at));
    }
    Ok(part)
}

/// The header in the last part. With no part at all that stretch is empty.
fn read_header(frame: &[u8], parts: &Parts) -> Result<Header, Fault> {
    let part = parts.last[0];
    let data = part.of(frame);
    if data.len() != HEADER_LEN {
        return Err(Fault::new(Refusal::WrongHeaderLength, parts.last_size));
    }
    let header = Header {
        kind: data[2],
        flags: data[3],
        userid: number_at(data, 4),
        rolemask: number_at(data, 8),
        first: number_at(data, FIRST_AT),
        second: number_at(data, SECOND_AT),
    };
    let (refusal, at) = if data[0] != HEADER_MAGIC {
        (Refusal::WrongHeaderMagic, 0)
    } else if data[1] != HEADER_VERSION {
        (Refusal::WrongVersion, 1)
    } else if !header.has_known_type() {
        (Refusal::WrongType, 2)
    } else if header.has(FLAG_REFUSED) {
        (Refusal::RefusedFlag, 3)
    } else {
        return Ok(header);
    };
    Err(Fault::new(refusal, part.start + at))
}

/// Which part is what follows from the flags and its place alone, never from its content.
fn assign_roles(parts: &Parts, header: &Header) -> Result<Roles, Fault> {
    let disagree = Fault::new(Refusal::PartsDisagree, parts.last[0].start);
    let mut routes = 0;
    let mut route_bytes = Stretch::default();
    let mut in_front_of_topic = 0;
    if header.has(FLAG_ROUTE) {
        // The header has 20 bytes, so an empty part is never the last.
        let (number, delimiter) = parts.first_empty.ok_or(disagree)?;
        routes = number;
        route_bytes = Stretch {
            start: PREFIX_LEN,
            len: delimiter.start - 1 - PREFIX_LEN,
        };
        in_front_of_topic = number + 1;
    }
    let has_topic = header.has(FLAG_TOPIC);
    let has_payload = header.has(FLAG_PAYLOAD);
    let wanted = in_front_of_topic + has_topic as usize + has_payload as usize + 1;
    if !header.flags_fit_type() || parts.count != wanted {
        return Err(disagree);
    }
    let [_, behind, before] = parts.last;
    Ok(Roles {
        routes,
        route_bytes,
        topic: has_topic.then_some(if has_payload { before } else { behind }),
        payload: has_payload.then_some(behind),
    })
}

/// Routes of the right form all take 38 bytes with their size.
fn check_routes(frame: &[u8], roles: &Roles) -> Result<(), Fault> {
    let route_bytes = roles.route_bytes.of(frame);
    let right = roles.routes <= MAX_ROUTES
        && route_bytes.len() == roles.routes * (1 + ROUTE_LEN)
        && route_bytes
            .chunks_exact(1 + ROUTE_LEN)
            .all(|part| part[0] as usize == ROUTE_LEN && is_route(&part[1..]));
    if right {
        return Ok(());
    }
    let wrong = first_wrong_route(frame)?;
    Err(Fault::new(Refusal::WrongRoute, wrong.start))
}

/// The first of 64 routes that is not of the form, else the 65th, whatever its form. The delimiter
/// is no route, so the search ends there at the latest.
fn first_wrong_route(frame: &[u8]) -> Result<Stretch, Fault> {
    let mut part = part_at(frame, PREFIX_LEN)?;
    for _ in 0..MAX_ROUTES {
        if !is_route(part.of(frame)) {
            break;
        }
        part = part_at(frame, part.end())?;
    }
    Ok(part)
}

/// The topic without its zero byte.
fn read_topic(frame: &[u8], part: Stretch) -> Result<Stretch, Fault> {
    match part.of(frame).split_last() {
        Some((0, topic)) if is_topic(topic) => Ok(Stretch {
            start: part.start,
            len: topic.len(),
        }),
        _ => Err(Fault::new(Refusal::WrongTopic, part.start)),
    }
}
