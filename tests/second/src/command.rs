//! Majordomo commands, MDP 0.2: read from their parts, and written.

use crate::frame::{is_route, Refusal, ROUTE_LEN};
use crate::read::{part_at, Stretch};
use crate::write::{part_len, put, put_size};

/// The first part of every command, which says whose it is.
pub const CLIENT_MARK: [u8; 6] = *b"MDPC02";
pub const WORKER_MARK: [u8; 6] = *b"MDPW02";

pub const CLIENT: u8 = 1;
pub const WORKER: u8 = 2;

/// All the parts of a command with their sizes.
pub const MAX_COMMAND: usize = 32_768;
pub const MAX_NAME: usize = 255;
pub const MAX_BODY_PARTS: usize = 16;

/// What a command has behind its number.
#[derive(Clone, Copy, Debug, PartialEq, Eq)]
pub enum Form {
    /// A client's: a service name, then the body.
    NameAndBody,
    /// READY.
    Name,
    /// A worker's request or reply: the client's address, an empty part, then the body.
    AddressAndBody,
    /// HEARTBEAT and DISCONNECT.
    Nothing,
}

impl Form {
    /// None if the sender has no such command, or is none.
    pub fn of(sender: u8, command: u8) -> Option<Form> {
        match (sender, command) {
            (CLIENT, 1..=3) => Some(Form::NameAndBody),
            (WORKER, 1) => Some(Form::Name),
            (WORKER, 2..=4) => Some(Form::AddressAndBody),
            (WORKER, 5 | 6) => Some(Form::Nothing),
            _ => None,
        }
    }

    fn has_name(self) -> bool {
        matches!(self, Form::NameAndBody | Form::Name)
    }

    fn has_address(self) -> bool {
        self == Form::AddressAndBody
    }

    fn has_body(self) -> bool {
        matches!(self, Form::NameAndBody | Form::AddressAndBody)
    }

    /// Parts in front of the body.
    fn front(self) -> usize {
        match self {
            Form::Nothing => 2,
            Form::Name | Form::NameAndBody => 3,
            Form::AddressAndBody => 4,
        }
    }

    /// Whether a body may have so many parts.
    fn takes(self, body_parts: usize) -> bool {
        match self.has_body() {
            true => (1..=MAX_BODY_PARTS).contains(&body_parts),
            false => body_parts == 0,
        }
    }
}

/// A command that was read. Starts are counted from the front of its bytes.
#[derive(Clone, Copy, Debug, PartialEq, Eq)]
pub struct CommandReading {
    pub sender: u8,
    pub command: u8,
    pub name: Option<Stretch>,
    pub address: Option<Stretch>,
    /// From the first body part's size to the end.
    pub body: Option<Stretch>,
    pub body_parts: usize,
}

/// What the writer takes. The body is parts, each with its size in front.
#[derive(Clone, Copy, Debug)]
pub struct Command<'a> {
    pub sender: u8,
    pub command: u8,
    pub name: &'a [u8],
    pub address: &'a [u8],
    pub body: &'a [u8],
}

/// How many parts some bytes have, and where the first ones are. A body is told from its bytes, so
/// no more than four are needed.
#[derive(Default)]
struct Parts {
    count: usize,
    first: [Stretch; 4],
}

#[inline]
pub fn read_command(bytes: &[u8]) -> Result<CommandReading, Refusal> {
    if bytes.len() > MAX_COMMAND {
        return Err(Refusal::CommandTooLong);
    }
    let parts = walk_parts(bytes)?;
    let [mark, number, third, fourth] = parts.first;
    let sender = sender_of(mark.of(bytes)).ok_or(Refusal::WrongMark)?;
    let &[command] = number.of(bytes) else {
        return Err(Refusal::WrongCommand);
    };
    let form = Form::of(sender, command).ok_or(Refusal::WrongCommand)?;
    let body_parts = parts.count.checked_sub(form.front());
    let body_parts = body_parts
        .filter(|&count| form.takes(count))
        .ok_or(Refusal::WrongPartCount)?;
    if form.has_name() && !is_name(third.of(bytes)) {
        return Err(Refusal::WrongName);
    }
    if form.has_address() && !is_route(third.of(bytes)) {
        return Err(Refusal::WrongAddress);
    }
    if form.has_address() && fourth.len > 0 {
        return Err(Refusal::WrongSeparator);
    }
    let start = parts.first[form.front() - 1].end();
    let len = bytes.len() - start;
    Ok(CommandReading {
        sender,
        command,
        name: form.has_name().then_some(third),
        address: form.has_address().then_some(third),
        body: form.has_body().then_some(Stretch { start, len }),
        body_parts,
    })
}

/// All parts must have a right size, however many they are.
fn walk_parts(bytes: &[u8]) -> Result<Parts, Refusal> {
    let mut parts = Parts::default();
    let mut at = 0;
    while at < bytes.len() {
        let part = part_at(bytes, at).map_err(|_| Refusal::WrongPartSize)?;
        if let Some(place) = parts.first.get_mut(parts.count) {
            *place = part;
        }
        parts.count += 1;
        at = part.end();
    }
    Ok(parts)
}

/// With no part at all the mark is empty, as it is with one that is.
fn sender_of(mark: &[u8]) -> Option<u8> {
    if mark == CLIENT_MARK {
        Some(CLIENT)
    } else if mark == WORKER_MARK {
        Some(WORKER)
    } else {
        None
    }
}

/// Looks at all bytes before it answers: they are nearly always right.
#[inline]
pub fn is_name(name: &[u8]) -> bool {
    (1..=MAX_NAME).contains(&name.len())
        && name
            .iter()
            .fold(true, |right, byte| right & matches!(byte, 0x20..=0x7E))
}

/// Writes the command to the front of `out` and tells its length. A refusal writes nothing.
#[inline]
pub fn write_command(command: &Command, out: &mut [u8]) -> Result<usize, Refusal> {
    let form = check(command)?;
    let len = command_len(form, command);
    if len > MAX_COMMAND {
        return Err(Refusal::CommandTooLong);
    }
    let out = out.get_mut(..len).ok_or(Refusal::OutputTooShort)?;
    let mark = match command.sender {
        CLIENT => &CLIENT_MARK,
        _ => &WORKER_MARK,
    };
    let mut rest = put_part(out, mark);
    rest = put_part(rest, &[command.command]);
    if form.has_name() {
        rest = put_part(rest, command.name);
    }
    if form.has_address() {
        rest = put_part(rest, command.address);
        rest = put_part(rest, &[]);
    }
    put(rest, command.body);
    Ok(len)
}

/// Everything but the lengths of command and output, in the ticket's order. What the command lacks
/// may not be given, whatever it holds.
fn check(command: &Command) -> Result<Form, Refusal> {
    let form = Form::of(command.sender, command.command).ok_or(Refusal::WrongCommand)?;
    let body_parts = walk_parts(command.body)?.count;
    if !form.takes(body_parts) {
        return Err(Refusal::WrongPartCount);
    }
    let right = match form.has_name() {
        true => is_name(command.name),
        false => command.name.is_empty(),
    };
    if !right {
        return Err(Refusal::WrongName);
    }
    let right = match form.has_address() {
        true => is_route(command.address),
        false => command.address.is_empty(),
    };
    if !right {
        return Err(Refusal::WrongAddress);
    }
    Ok(form)
}

fn command_len(form: Form, command: &Command) -> usize {
    let mut len = part_len(CLIENT_MARK.len()) + part_len(1);
    if form.has_name() {
        len += part_len(command.name.len());
    }
    if form.has_address() {
        len += part_len(ROUTE_LEN) + part_len(0);
    }
    len + command.body.len()
}

fn put_part<'a>(out: &'a mut [u8], data: &[u8]) -> &'a mut [u8] {
    put(put_size(out, data.len()), data)
}
