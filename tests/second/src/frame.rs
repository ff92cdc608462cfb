//! What reader and writer share: the numbers of the frame, the header, the refusals and the form
//! of a route and a topic.

pub const MAGIC: [u8; 4] = [0xFF, 0xEE, 0x00, 0x12];
/// Magic and body length.
pub const PREFIX_LEN: usize = 8;
pub const MAX_BODY: usize = 32_768;
pub const MAX_PARTS: usize = 68;
pub const HEADER_LEN: usize = 20;
/// 36 characters and a zero byte.
pub const ROUTE_LEN: usize = 37;
pub const MAX_ROUTES: usize = 64;
pub const MAX_TOPIC: usize = 255;
/// The first byte of a part's size that says that four more follow.
pub const LONG_SIZE: u8 = 255;

pub const HEADER_MAGIC: u8 = 0x8E;
pub const HEADER_VERSION: u8 = 0x01;
/// Where the last two fields begin in the header.
pub const FIRST_AT: usize = 12;
pub const SECOND_AT: usize = 16;

pub const REQUEST: u8 = 1;
pub const RESPONSE: u8 = 2;
pub const EVENT: u8 = 4;
pub const CONTROL: u8 = 8;

pub const FLAG_TOPIC: u8 = 0x01;
pub const FLAG_PAYLOAD: u8 = 0x02;
pub const FLAG_NORESPONSE: u8 = 0x04;
pub const FLAG_ROUTE: u8 = 0x08;
pub const FLAG_UPSTREAM: u8 = 0x10;
pub const FLAG_STREAMING: u8 = 0x40;
pub const FLAG_REFUSED: u8 = 0x80;

/// A request for the nearest broker that has the service.
pub const NODEID_ANY: u32 = 4_294_967_295;
/// Never on the wire.
pub const NODEID_UPSTREAM: u32 = 4_294_967_294;

/// The numbers for a no.
#[derive(Clone, Copy, Debug, PartialEq, Eq)]
#[repr(u32)]
pub enum Refusal {
    TooFewBytes = 1,
    WrongMagic = 2,
    BodyTooLong = 3,
    PartPastEnd = 4,
    TooManyParts = 5,
    WrongHeaderLength = 6,
    PartsDisagree = 7,
    WrongRoute = 8,
    WrongTopic = 9,
    WrongField = 10,
    OutputTooShort = 11,
    CannotGrow = 12,
    WrongTree = 14,
    WrongServices = 15,
    WrongIdentities = 16,
    WrongRank = 17,
    NotRouted = 18,
    NoNeighbour = 19,
    WrongHeaderMagic = 20,
    WrongVersion = 21,
    WrongType = 22,
    RefusedFlag = 23,
    TooDeep = 26,
    WrongPartSize = 30,
    CommandTooLong = 31,
    WrongMark = 32,
    WrongCommand = 33,
    WrongPartCount = 34,
    WrongName = 35,
    WrongAddress = 36,
    WrongSeparator = 37,
}

/// The header's fields. What `first` and `second` mean depends on the type.
#[derive(Clone, Copy, Debug, PartialEq, Eq)]
pub struct Header {
    pub kind: u8,
    pub flags: u8,
    pub userid: u32,
    pub rolemask: u32,
    pub first: u32,
    pub second: u32,
}

impl Header {
    pub fn has(&self, flag: u8) -> bool {
        self.flags & flag != 0
    }

    /// A type that there is.
    pub fn has_known_type(&self) -> bool {
        matches!(self.kind, REQUEST | RESPONSE | EVENT | CONTROL)
    }

    /// The type's required parts are flagged and its forbidden ones are not.
    pub fn flags_fit_type(&self) -> bool {
        match self.kind {
            REQUEST | RESPONSE => self.has(FLAG_TOPIC) && self.has(FLAG_ROUTE),
            EVENT => self.has(FLAG_TOPIC) && !self.has(FLAG_ROUTE),
            _ => self.flags & (FLAG_TOPIC | FLAG_PAYLOAD | FLAG_ROUTE) == 0,
        }
    }

    /// Where in the header the field begins that has a value which its type forbids.
    pub fn wrong_field(&self) -> Option<usize> {
        match self.kind {
            REQUEST if self.first == NODEID_UPSTREAM => Some(FIRST_AT),
            EVENT if self.second != 0 => Some(SECOND_AT),
            _ => None,
        }
    }
}

/// 8-4-4-4-12 lower-case hex digits with hyphens between, then a zero byte.
#[inline]
pub fn is_route(data: &[u8]) -> bool {
    data.len() == ROUTE_LEN
        && [8, 13, 18, 23].iter().all(|&at| data[at] == b'-')
        && data[36] == 0
        && is_hex(&data[..8])
        && is_hex(&data[9..13])
        && is_hex(&data[14..18])
        && is_hex(&data[19..23])
        && is_hex(&data[24..36])
}

/// Looks at all digits before it answers: they are nearly always right, and without a branch for
/// each the compiler tests many at once.
fn is_hex(digits: &[u8]) -> bool {
    digits.iter().fold(true, |right, digit| {
        right & matches!(digit, b'0'..=b'9' | b'a'..=b'f')
    })
}

/// A topic without its zero byte.
#[inline]
pub fn is_topic(topic: &[u8]) -> bool {
    (1..=MAX_TOPIC).contains(&topic.len()) && !topic.contains(&0)
}

/// The big-endian number in the four bytes at `at`.
#[inline]
pub fn number_at(bytes: &[u8], at: usize) -> u32 {
    u32::from_be_bytes([bytes[at], bytes[at + 1], bytes[at + 2], bytes[at + 3]])
}
