//! Reading and writing frames.

use std::cell::RefCell;
use std::hint::black_box;

use second::frame::Header;
use second::side::{Side, LIBRARY, SECOND};
use second::write::Message;

use crate::turns::{print_row, take_turns};

const MAX_FRAME: usize = 32_776;

struct Shape {
    name: &'static str,
    routes: usize,
    topic: &'static [u8],
    payload: usize,
}

const SHAPES: [Shape; 4] = [
    shape("small", 1, b"kvs.get", 24),
    shape("medium", 4, b"kvs.commit", 1024),
    // The log request of the paper, with the longest payload.
    shape("large", 0, b"log", 32_736),
    shape("routes", 64, b"kvs.get", 0),
];

const fn shape(name: &'static str, routes: usize, topic: &'static [u8], payload: usize) -> Shape {
    Shape {
        name,
        routes,
        topic,
        payload,
    }
}

pub fn measure() {
    for shape in &SHAPES {
        measure_read(shape);
    }
    for shape in &SHAPES {
        measure_write(shape);
    }
    measure_copy(&SHAPES[2]);
}

pub fn route(number: usize) -> Vec<u8> {
    let mixed = (number as u64 + 1).wrapping_mul(0x9E37_79B9_7F4A_7C15);
    let (a, b, c) = (mixed as u32, (mixed >> 32) as u16, (mixed >> 48) as u16);
    format!("{a:08x}-{b:04x}-{c:04x}-{b:04x}-{number:012x}\0").into_bytes()
}

/// The parts of a request, and the frame that the second program makes of them.
struct Input {
    routes: Vec<u8>,
    topic: &'static [u8],
    payload: Vec<u8>,
    frame: Vec<u8>,
    /// One output for all: where it lies makes a difference to a long copy.
    out: RefCell<Vec<u8>>,
}

impl Input {
    fn new(shape: &Shape) -> Input {
        let mut input = Input {
            routes: (0..shape.routes).flat_map(route).collect(),
            topic: shape.topic,
            payload: (0..shape.payload).map(|at| (at * 7) as u8).collect(),
            frame: vec![0; MAX_FRAME],
            out: RefCell::new(vec![0; MAX_FRAME]),
        };
        let mut frame = vec![0; MAX_FRAME];
        let mut record = [0; 4];
        assert_eq!(SECOND.write(&input.message(), &mut frame, &mut record), 0);
        frame.truncate(u32::from_be_bytes(record) as usize);
        input.frame = frame;
        input
    }

    fn message(&self) -> Message<'_> {
        let flags = if self.payload.is_empty() { 0x09 } else { 0x0B };
        Message {
            header: Header {
                kind: 1,
                flags,
                userid: 1000,
                rolemask: 1,
                first: u32::MAX,
                second: 1,
            },
            routes: &self.routes,
            topic: self.topic,
            payload: &self.payload,
        }
    }
}

fn measure_read(shape: &Shape) {
    let input = Input::new(shape);
    let reader = |side: Side| {
        let frame = &input.frame;
        let mut record = [0; 52];
        move || {
            let refusal = black_box(side).read(black_box(frame), black_box(&mut record));
            assert_eq!(refusal, 0);
        }
    };
    let times = take_turns(reader(LIBRARY), reader(SECOND));
    print_row("read", shape.name, input.frame.len(), &times);
}

fn measure_write(shape: &Shape) {
    let input = Input::new(shape);
    let times = take_turns(writer(&input, LIBRARY), writer(&input, SECOND));
    print_row("write", shape.name, input.frame.len(), &times);
}

fn writer(input: &Input, side: Side) -> impl FnMut() + use<'_> {
    let message = input.message();
    let mut record = [0; 4];
    move || {
        let mut out = input.out.borrow_mut();
        let (out, record) = (black_box(&mut out[..]), black_box(&mut record));
        let refusal = black_box(side).write(black_box(&message), out, record);
        assert_eq!(refusal, 0);
    }
}

/// A large write against a plain copy of as many bytes.
fn measure_copy(shape: &Shape) {
    let input = Input::new(shape);
    let copy = || {
        let mut out = input.out.borrow_mut();
        copy_bytes(black_box(&mut out[..]), black_box(&input.frame))
    };
    let times = take_turns(writer(&input, LIBRARY), copy);
    let name = "large, against a memory copy";
    print_row("write", name, input.frame.len(), &times);
}

#[inline(never)]
pub fn copy_bytes(out: &mut [u8], bytes: &[u8]) {
    out[..bytes.len()].copy_from_slice(bytes);
}
