//! Reading and writing Majordomo commands.

use std::cell::RefCell;
use std::hint::black_box;

use second::command::{Command, CLIENT, MAX_COMMAND, WORKER};
use second::frame::number_at;
use second::side::{Side, LIBRARY, SECOND};

#[cfg(feature = "others")]
use crate::czmq::Czmq;
use crate::frames::{copy_bytes, route};
use crate::turns::{print_row, take_turns};

/// A command with so long a name, or an address if that is 0, and so many body parts of one length.
struct Shape {
    name: &'static str,
    sender: u8,
    command: u8,
    service: usize,
    parts: usize,
    part: usize,
}

const SHAPES: [Shape; 7] = [
    shape("a client's REQUEST, small", (CLIENT, 1), 4, 1, 24),
    shape("READY, the longest name", (WORKER, 1), 255, 0, 0),
    shape("a worker's REQUEST, small", (WORKER, 2), 0, 1, 24),
    shape("a worker's FINAL, 1 KiB", (WORKER, 4), 0, 1, 1024),
    shape("a worker's PARTIAL, 16 parts", (WORKER, 3), 0, 16, 64),
    // With the mark, the number, the address, the separator and the part's size, all 32,768 bytes.
    shape("a worker's REQUEST, the longest", (WORKER, 2), 0, 1, 32_715),
    shape("HEARTBEAT", (WORKER, 5), 0, 0, 0),
];

const LONGEST: usize = 5;

const fn shape(
    name: &'static str,
    (sender, command): (u8, u8),
    service: usize,
    parts: usize,
    part: usize,
) -> Shape {
    Shape {
        name,
        sender,
        command,
        service,
        parts,
        part,
    }
}

pub fn measure() {
    for shape in &SHAPES {
        measure_read(shape);
    }
    for shape in &SHAPES {
        measure_write(shape);
    }
    measure_copy(&SHAPES[LONGEST]);
}

/// A command's fields, and the bytes that the second program makes of them.
struct Input {
    sender: u8,
    command: u8,
    name: Vec<u8>,
    address: Vec<u8>,
    body: Vec<u8>,
    bytes: Vec<u8>,
    /// One output for all: where it lies makes a difference to a long copy.
    out: RefCell<Vec<u8>>,
}

impl Input {
    fn new(shape: &Shape) -> Input {
        let has_address = shape.service == 0 && shape.parts > 0;
        let mut input = Input {
            sender: shape.sender,
            command: shape.command,
            name: vec![b's'; shape.service],
            address: if has_address { route(7) } else { Vec::new() },
            body: (0..shape.parts).flat_map(|_| part(shape.part)).collect(),
            bytes: Vec::new(),
            out: RefCell::new(vec![0; MAX_COMMAND]),
        };
        let mut bytes = vec![0; MAX_COMMAND];
        let mut record = [0; 4];
        let refusal = SECOND.write_command(&input.fields(), &mut bytes, &mut record);
        assert_eq!(refusal, 0);
        bytes.truncate(number_at(&record, 0) as usize);
        input.bytes = bytes;
        input
    }

    fn fields(&self) -> Command<'_> {
        Command {
            sender: self.sender,
            command: self.command,
            name: &self.name,
            address: &self.address,
            body: &self.body,
        }
    }
}

/// A body part of so many bytes, with its size.
fn part(len: usize) -> Vec<u8> {
    let mut part = match u8::try_from(len) {
        Ok(len) if len < 255 => vec![len],
        _ => [&[255], &(len as u32).to_be_bytes()[..]].concat(),
    };
    part.extend((0..len).map(|at| (at * 7) as u8));
    part
}

fn measure_read(shape: &Shape) {
    let input = Input::new(shape);
    let times = take_turns(reader(&input, LIBRARY), reader(&input, SECOND));
    print_row("read_command", shape.name, input.bytes.len(), &times);
    #[cfg(feature = "others")]
    {
        let czmq = Czmq::new(&input.bytes);
        let decode = || assert!(black_box(&czmq).decode() > 0);
        let times = take_turns(reader(&input, LIBRARY), decode);
        let name = format!("{}, against czmq", shape.name);
        print_row("read_command", &name, input.bytes.len(), &times);
    }
}

fn reader(input: &Input, side: Side) -> impl FnMut() + use<'_> {
    let mut record = [0; 32];
    move || {
        let (bytes, record) = (black_box(&input.bytes), black_box(&mut record));
        assert_eq!(black_box(side).read_command(bytes, record), 0);
    }
}

fn measure_write(shape: &Shape) {
    let input = Input::new(shape);
    let times = take_turns(writer(&input, LIBRARY), writer(&input, SECOND));
    print_row("write_command", shape.name, input.bytes.len(), &times);
    #[cfg(feature = "others")]
    {
        let czmq = Czmq::new(&input.bytes);
        let encode = || assert_eq!(black_box(&czmq).encode(), input.bytes.len());
        let times = take_turns(writer(&input, LIBRARY), encode);
        let name = format!("{}, against czmq", shape.name);
        print_row("write_command", &name, input.bytes.len(), &times);
    }
}

/// A plain copy of as many bytes against the other's encode: what the library's write cannot do
/// without; and the library's write against that copy.
fn measure_copy(shape: &Shape) {
    let input = Input::new(shape);
    let copy = || {
        let mut out = input.out.borrow_mut();
        copy_bytes(black_box(&mut out[..]), black_box(&input.bytes))
    };
    let times = take_turns(writer(&input, LIBRARY), copy);
    let name = format!("{}, against a memory copy", shape.name);
    print_row("write_command", &name, input.bytes.len(), &times);
    #[cfg(feature = "others")]
    {
        let czmq = Czmq::new(&input.bytes);
        let encode = || assert_eq!(black_box(&czmq).encode(), input.bytes.len());
        let times = take_turns(copy, encode);
        let name = format!("{}, against czmq", shape.name);
        print_row("a memory copy", &name, input.bytes.len(), &times);
    }
}

fn writer(input: &Input, side: Side) -> impl FnMut() + use<'_> {
    let fields = input.fields();
    let mut record = [0; 4];
    move || {
        let mut out = input.out.borrow_mut();
        let (out, record) = (black_box(&mut out[..]), black_box(&mut record));
        let refusal = black_box(side).write_command(black_box(&fields), out, record);
        assert_eq!(refusal, 0);
    }
}
