//! Frames put together part by part, so that each rule can be broken alone or with others. This is
//! the tests' own encoder: it uses neither program.

use second::write::Message;

pub const MAGIC: [u8; 4] = [0xFF, 0xEE, 0x00, 0x12];

#[derive(Clone)]
pub struct Draft {
    pub magic: [u8; 4],
    /// In place of the body's real length.
    pub body_length: Option<u32>,
    pub routes: Vec<Vec<u8>>,
    pub delimiter: bool,
    /// The topic's part, with its zero byte.
    pub topic: Option<Vec<u8>>,
    pub payload: Option<Vec<u8>>,
    /// Parts between payload and header that should not be there.
    pub extra: Vec<Vec<u8>>,
    pub header: Vec<u8>,
    pub no_header: bool,
    /// Gives the first part a 4-byte size, whatever its length is.
    pub long_first: bool,
    /// Gives the part of this number, from 0, a size that passes the body's end.
    pub past_end: Option<usize>,
    /// Bytes of the body behind the header that form no right part.
    pub raw: Vec<u8>,
    /// Only so many bytes of the frame are there.
    pub keep: Option<usize>,
    /// So many bytes at the frame's end are missing.
    pub cut: usize,
}

impl Draft {
    /// A header alone.
    pub fn control() -> Draft {
        Draft {
            magic: MAGIC,
            body_length: None,
            routes: Vec::new(),
            delimiter: false,
            topic: None,
            payload: None,
            extra: Vec::new(),
            header: header(8, 0, 2, 3),
            no_header: false,
            long_first: false,
            past_end: None,
            raw: Vec::new(),
            keep: None,
            cut: 0,
        }
    }

    /// A request or a response, whose parts look alike.
    pub fn routed(kind: u8, routes: usize, topic: &[u8], payload: Option<&[u8]>) -> Draft {
        let mut draft = Draft::control();
        draft.routes = (0..routes).map(|number| route(number as u64)).collect();
        draft.delimiter = true;
        draft.topic = Some([topic, &[0]].concat());
        draft.payload = payload.map(<[u8]>::to_vec);
        let flags = if payload.is_some() { 0x0B } else { 0x09 };
        draft.header = header(kind, flags, 7, 9);
        draft
    }

    pub fn request(routes: usize, topic: &[u8], payload: Option<&[u8]>) -> Draft {
        Draft::routed(1, routes, topic, payload)
    }

    pub fn event(topic: &[u8], payload: Option<&[u8]>) -> Draft {
        let mut draft = Draft::control();
        draft.topic = Some([topic, &[0]].concat());
        draft.payload = payload.map(<[u8]>::to_vec);
        let flags = if payload.is_some() { 0x03 } else { 0x01 };
        draft.header = header(4, flags, 77, 0);
        draft
    }

    pub fn kind(&self) -> u8 {
        self.header[2]
    }

    pub fn set_field(&mut self, first_byte: usize, value: u32) {
        self.header[first_byte..first_byte + 4].copy_from_slice(&value.to_be_bytes());
    }

    pub fn parts(&self) -> Vec<&[u8]> {
        let mut parts: Vec<&[u8]> = self.routes.iter().map(Vec::as_slice).collect();
        if self.delimiter {
            parts.push(&[]);
        }
        parts.extend(self.topic.iter().map(Vec::as_slice));
        parts.extend(self.payload.iter().map(Vec::as_slice));
        parts.extend(self.extra.iter().map(Vec::as_slice));
        if !self.no_header {
            parts.push(&self.header);
        }
        parts
    }

    pub fn bytes(&self) -> Vec<u8> {
        let (mut body, _) = self.body();
        body.extend_from_slice(&self.raw);
        let length = self.body_length.unwrap_or(body.len() as u32);
        let mut frame = [&self.magic[..], &length.to_be_bytes(), &body].concat();
        frame.truncate(frame.len() - self.cut);
        if let Some(keep) = self.keep {
            frame.truncate(keep);
        }
        frame
    }

    /// Where the parts lie, counted from the frame's front. What lies behind the header counts as a
    /// part of its own.
    pub fn places(&self) -> Vec<Place> {
        let (body, mut places) = self.body();
        if !self.raw.is_empty() {
            let size = 8 + body.len();
            places.push(Place {
                size,
                data: size + 1,
            });
        }
        places
    }

    /// The parts with their sizes.
    fn body(&self) -> (Vec<u8>, Vec<Place>) {
        let (mut body, mut places) = (Vec::new(), Vec::new());
        for (number, part) in self.parts().into_iter().enumerate() {
            let size = 8 + body.len();
            if self.past_end == Some(number) {
                body.extend_from_slice(&[255, 0, 1, 0, 0]);
                body.extend_from_slice(part);
            } else {
                push_part(&mut body, part, self.long_first && number == 0);
            }
            let data = 8 + body.len() - part.len();
            places.push(Place { size, data });
        }
        (body, places)
    }
}

/// Where a part's size begins, and where its data does.
#[derive(Clone, Copy)]
pub struct Place {
    pub size: usize,
    pub data: usize,
}

pub fn push_part(body: &mut Vec<u8>, data: &[u8], always_long: bool) {
    if data.len() >= 255 || always_long {
        body.push(255);
        body.extend_from_slice(&(data.len() as u32).to_be_bytes());
    } else {
        body.push(data.len() as u8);
    }
    body.extend_from_slice(data);
}

/// A frame of any body.
pub fn frame_with(body: &[u8]) -> Vec<u8> {
    [&MAGIC[..], &(body.len() as u32).to_be_bytes(), body].concat()
}

/// The frame that the paper describes for a message that the writer takes.
pub fn frame_of(message: &Message) -> Vec<u8> {
    let fields = &message.header;
    let mut body = Vec::new();
    for route in message.routes.chunks(37) {
        push_part(&mut body, route, false);
    }
    if fields.flags & 0x08 != 0 {
        push_part(&mut body, &[], false);
    }
    if fields.flags & 0x01 != 0 {
        push_part(&mut body, &[message.topic, &[0]].concat(), false);
    }
    if fields.flags & 0x02 != 0 {
        push_part(&mut body, message.payload, false);
    }
    let mut last = header(fields.kind, fields.flags, fields.first, fields.second);
    last[4..8].copy_from_slice(&fields.userid.to_be_bytes());
    last[8..12].copy_from_slice(&fields.rolemask.to_be_bytes());
    push_part(&mut body, &last, false);
    frame_with(&body)
}

/// A header of user unknown and no roles.
pub fn header(kind: u8, flags: u8, first: u32, second: u32) -> Vec<u8> {
    let mut header = vec![0x8E, 0x01, kind, flags, 255, 255, 255, 255, 0, 0, 0, 0];
    header.extend_from_slice(&first.to_be_bytes());
    header.extend_from_slice(&second.to_be_bytes());
    header
}

/// A route of the right form that differs from number to number.
pub fn route(number: u64) -> Vec<u8> {
    let mixed = number.wrapping_mul(0x9E37_79B9_7F4A_7C15) ^ 0x0123_4567_89AB_CDEF;
    let text = format!(
        "{:08x}-{:04x}-{:04x}-{:04x}-{:012x}\0",
        mixed as u32,
        (mixed >> 32) as u16,
        (mixed >> 48) as u16,
        (mixed >> 16) as u16,
        number & 0xFFFF_FFFF_FFFF
    );
    text.into_bytes()
}

pub fn routes(count: usize) -> Vec<u8> {
    (0..count as u64).flat_map(route).collect()
}

/// Whether a byte may stand at this place of a route, straight from the paper.
pub fn fits_route(place: usize, byte: u8) -> bool {
    match place {
        36 => byte == 0,
        8 | 13 | 18 | 23 => byte == b'-',
        _ => b"0123456789abcdef".contains(&byte),
    }
}

/// A route of the form, straight from the paper.
pub fn is_right_route(part: &[u8]) -> bool {
    part.len() == 37 && (0..37).all(|place| fits_route(place, part[place]))
}

/// Values of a header's field: each single bit, all but each, and the ends of the range.
pub fn field_values() -> impl Iterator<Item = u32> {
    (0..32)
        .flat_map(|bit| [1 << bit, !(1 << bit)])
        .chain([0, u32::MAX, u32::MAX - 1, u32::MAX - 2])
}
