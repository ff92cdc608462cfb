//! Listing the frames of a stream.

use std::cell::RefCell;
use std::hint::black_box;

use second::demand3::frame_of;
use second::frame::{number_at, Header};
use second::sample::OwnedMessage;
use second::side::{Side, LIBRARY, SECOND};

use crate::buffers::message;
use crate::turns::{print_own_row, print_row, take_turns};

const MIB: usize = 1 << 20;
/// A list of this size is never too short.
const MAX_LIST: usize = 289_256;

struct Shape {
    name: &'static str,
    make: fn() -> OwnedMessage,
}

const SHAPES: [Shape; 3] = [
    Shape {
        name: "control messages",
        make: control,
    },
    Shape {
        name: "frames of 1 KiB",
        make: || message(1, u32::MAX, "kvs.put", Some(1024 - 8)),
    },
    Shape {
        name: "the longest frames",
        make: || message(1, u32::MAX, "kvs.put", Some(32_768)),
    },
];

/// The shortest frame that there is.
fn control() -> OwnedMessage {
    OwnedMessage {
        header: Header {
            kind: 8,
            flags: 0,
            userid: 1000,
            rolemask: 1,
            first: 1,
            second: 1,
        },
        routes: Vec::new(),
        topic: Vec::new(),
        payload: Vec::new(),
    }
}

/// The same frame again and again, and one list for all calls.
struct Input {
    bytes: Vec<u8>,
    entries: usize,
    list: RefCell<Vec<u8>>,
}

impl Input {
    fn new(frame: &[u8], entries: usize) -> Input {
        Input {
            bytes: frame.repeat(entries),
            entries,
            list: RefCell::new(vec![0; MAX_LIST]),
        }
    }
}

/// As many whole frames as a MiB holds.
pub fn measure() {
    for shape in &SHAPES {
        let frame = frame_of(&(shape.make)().lent());
        let input = Input::new(&frame, MIB / frame.len());
        let times = take_turns(lister(LIBRARY, &input), lister(SECOND, &input));
        print_row("read_stream", shape.name, input.bytes.len(), &times);
    }
}

/// As many whole frames as half a MiB holds, and twice as many.
pub fn measure_own() {
    for shape in &SHAPES {
        let frame = frame_of(&(shape.make)().lent());
        let count = MIB / 2 / frame.len();
        let [twice, once] = [2 * count, count].map(|entries| Input::new(&frame, entries));
        let times = take_turns(lister(LIBRARY, &twice), lister(LIBRARY, &once));
        let name = format!("1 MiB over 1/2 MiB, {}", shape.name);
        print_own_row("read_stream", &name, &times);
    }
}

fn lister(side: Side, input: &Input) -> impl FnMut() + use<'_> {
    let mut record = [0; 12];
    move || {
        let mut list = input.list.borrow_mut();
        let (list, record) = (black_box(&mut list[..]), black_box(&mut record));
        let answer = black_box(side).read_stream(black_box(&input.bytes), list, record);
        let told = [number_at(record, 0), number_at(record, 8)].map(|number| number as usize);
        assert_eq!((answer, told), (0, [input.entries, input.bytes.len()]));
    }
}
