//! What demand 3 says of a request's walk and of its response's walk home, worked out from the
//! request, the response and the path: no step, and no buffer.

use crate::floor::Tables;
use crate::frame::{Header, PREFIX_LEN};
use crate::path::{path_of, End, Path};
use crate::sample::OwnedMessage;
use crate::write::{write, Message};

/// How a walk ends.
#[derive(Clone, Debug)]
pub struct Rest {
    /// The brokers that it visits, in order.
    pub brokers: Vec<u32>,
    /// Answer, its number, error number, frame length, rank and links: the walk's record.
    pub numbers: [u32; 6],
    /// The message whose frame the writer makes.
    pub message: OwnedMessage,
    pub frame: Vec<u8>,
    /// The buffer is as it was at the start, whatever lies behind the frame.
    pub untouched: bool,
}

impl Rest {
    /// From the brokers visited, the answer with its number and error number, and the final message.
    pub fn new(brokers: Vec<u32>, answer: [u32; 3], message: OwnedMessage) -> Rest {
        let frame = frame_of(&message.lent());
        let links = brokers.len() - 1;
        let [answer, number, error] = answer;
        Rest {
            numbers: [
                answer,
                number,
                error,
                frame.len() as u32,
                brokers[links],
                links as u32,
            ],
            untouched: links == 0 && answer != 3,
            brokers,
            message,
            frame,
        }
    }

    /// Whether a buffer holds at the end what it must.
    pub fn is_in(&self, at_start: &[u8], at_end: &[u8]) -> bool {
        if self.untouched {
            return at_start == at_end && at_end.starts_with(&self.frame);
        }
        at_end.len() == at_start.len()
            && at_end
                .strip_prefix(&self.frame[..])
                .is_some_and(is_all_zero)
    }
}

/// Where a request's walk ends. The tables are right, the entry is a rank, and the request lies
/// within demand 3's premises.
pub fn request_rest(tables: &Tables, entry: u32, request: &OwnedMessage) -> Rest {
    let header = &request.header;
    let upstream = header.flags & 0x10 != 0;
    let path = path_of(tables, entry, header.first, upstream, &request.topic);
    let mut message = request.clone();
    message.routes = routes_at_rest(tables, &path, &request.routes);
    let answer = match path.end {
        End::Delivers(record) => [1, record, 0],
        End::Error(error) if header.flags & 0x04 != 0 => [4, 0, error],
        End::Error(error) => {
            message = error_reply(message, error);
            [3, 0, error]
        }
    };
    Rest::new(path.brokers, answer, message)
}

/// Where the walk of a response ends that starts with the routes at rest, as the request's walk
/// left them.
pub fn response_rest(request: &OwnedMessage, there: &Rest, response: &OwnedMessage) -> Rest {
    let mut message = response.clone();
    message.routes = request.routes.clone();
    let brokers = there.brokers.iter().rev().copied().collect();
    Rest::new(brokers, [5, 0, 0], message)
}

/// Those on entry, with the identities of all brokers but the last above them, the latest on top.
fn routes_at_rest(tables: &Tables, path: &Path, on_entry: &[u8]) -> Vec<u8> {
    let mut routes = Vec::new();
    for &rank in path.brokers.iter().rev().skip(1) {
        routes.extend_from_slice(&tables.identities[37 * rank as usize..][..37]);
    }
    routes.extend_from_slice(on_entry);
    routes
}

fn error_reply(request: OwnedMessage, error: u32) -> OwnedMessage {
    let streaming = request.header.flags & 0x40;
    OwnedMessage {
        header: Header {
            kind: 2,
            flags: 0x09 | streaming,
            userid: 0xFFFF_FFFF,
            rolemask: 0,
            first: error,
            second: request.header.second,
        },
        payload: Vec::new(),
        ..request
    }
}

/// What the writer makes of a message.
pub fn frame_of(message: &Message) -> Vec<u8> {
    let parts = message.routes.len() * 2 + message.topic.len() + message.payload.len();
    let mut frame = vec![0; PREFIX_LEN + parts + 64];
    let len = write(message, &mut frame).expect("a message that the writer takes");
    frame.truncate(len);
    frame
}

fn is_all_zero(bytes: &[u8]) -> bool {
    const ZEROS: [u8; 4096] = [0; 4096];
    bytes
        .chunks(ZEROS.len())
        .all(|chunk| chunk == &ZEROS[..chunk.len()])
}
