//! Commands put together part by part, from the paper alone: neither program is used.

use second::command::Command;

use crate::draft::{push_part, route};

/// What a command has behind its number.
#[derive(Clone, Copy, Debug, PartialEq, Eq)]
pub enum Kind {
    /// A client's: name and body.
    Named,
    /// READY: a name.
    Ready,
    /// A worker's request or reply: address, separator and body.
    Addressed,
    /// HEARTBEAT and DISCONNECT.
    Bare,
}

impl Kind {
    pub fn has_name(self) -> bool {
        matches!(self, Kind::Named | Kind::Ready)
    }

    pub fn has_address(self) -> bool {
        self == Kind::Addressed
    }

    pub fn has_body(self) -> bool {
        matches!(self, Kind::Named | Kind::Addressed)
    }

    /// Parts in front of the body.
    pub fn front(self) -> usize {
        match self {
            Kind::Bare => 2,
            Kind::Named | Kind::Ready => 3,
            Kind::Addressed => 4,
        }
    }
}

/// Every command that there is, with its sender.
pub const COMMANDS: [(u8, u8, Kind); 9] = [
    (1, 1, Kind::Named),
    (1, 2, Kind::Named),
    (1, 3, Kind::Named),
    (2, 1, Kind::Ready),
    (2, 2, Kind::Addressed),
    (2, 3, Kind::Addressed),
    (2, 4, Kind::Addressed),
    (2, 5, Kind::Bare),
    (2, 6, Kind::Bare),
];

pub fn kind_of(sender: u8, command: u8) -> Option<Kind> {
    let mut all = COMMANDS.iter();
    let found = all.find(|(whose, number, _)| (*whose, *number) == (sender, command))?;
    Some(found.2)
}

/// A command by its parts, the mark and the command's number among them.
#[derive(Clone)]
pub struct Sample {
    pub sender: u8,
    pub command: u8,
    pub kind: Kind,
    pub parts: Vec<Vec<u8>>,
}

impl Sample {
    /// With a name or an address as the command needs it, and these body parts.
    pub fn new((sender, command, kind): (u8, u8, Kind), body: &[Vec<u8>]) -> Sample {
        let mark = if sender == 1 { b"MDPC02" } else { b"MDPW02" };
        let mut parts = vec![mark.to_vec(), vec![command]];
        if kind.has_name() {
            parts.push(b"echo".to_vec());
        }
        if kind.has_address() {
            parts.extend([route(7), Vec::new()]);
        }
        if kind.has_body() {
            parts.extend_from_slice(body);
        }
        Sample {
            sender,
            command,
            kind,
            parts,
        }
    }

    /// Each command with so many body parts, if it has a body at all.
    pub fn each(body_parts: usize) -> impl Iterator<Item = Sample> {
        COMMANDS
            .into_iter()
            .map(move |command| Sample::new(command, &body_of(body_parts)))
    }

    pub fn bytes(&self) -> Vec<u8> {
        joined(&self.parts)
    }

    /// What a read of it shows.
    pub fn record(&self) -> [u32; 8] {
        let mut record = [0; 8];
        record[0] = self.sender as u32;
        record[1] = self.command as u32;
        let (data, len) = self.third();
        if self.kind.has_name() {
            record[2..4].copy_from_slice(&[data as u32, len as u32]);
        }
        if self.kind.has_address() {
            record[4] = data as u32;
        }
        if self.kind.has_body() {
            let (front, body) = self.parts.split_at(self.kind.front());
            let body_start = joined(front).len() as u32;
            let body_len = joined(body).len() as u32;
            record[5..].copy_from_slice(&[body_start, body_len, body.len() as u32]);
        }
        record
    }

    /// Where the third part's data begin, and its length.
    fn third(&self) -> (usize, usize) {
        let len = self.parts.get(2).map_or(0, Vec::len);
        // Mark and command take nine bytes with their sizes.
        (if len < 255 { 10 } else { 14 }, len)
    }

    /// What the writer takes to make it.
    pub fn fields(&self) -> Fields {
        let third = |there: bool| match there {
            true => self.parts[2].clone(),
            false => Vec::new(),
        };
        Fields {
            sender: self.sender,
            command: self.command,
            name: third(self.kind.has_name()),
            address: third(self.kind.has_address()),
            body: joined(&self.parts[self.kind.front()..]),
        }
    }
}

/// What the writer takes.
#[derive(Clone, Debug, PartialEq, Eq)]
pub struct Fields {
    pub sender: u8,
    pub command: u8,
    pub name: Vec<u8>,
    pub address: Vec<u8>,
    pub body: Vec<u8>,
}

impl Fields {
    pub fn lent(&self) -> Command<'_> {
        Command {
            sender: self.sender,
            command: self.command,
            name: &self.name,
            address: &self.address,
            body: &self.body,
        }
    }
}

/// Parts with their sizes.
pub fn joined(parts: &[Vec<u8>]) -> Vec<u8> {
    let mut bytes = Vec::new();
    parts
        .iter()
        .for_each(|part| push_part(&mut bytes, part, false));
    bytes
}

/// Body parts that are neither empty nor names.
pub fn body_of(count: usize) -> Vec<Vec<u8>> {
    (0..count)
        .map(|number| vec![number as u8 + 1; number + 2])
        .collect()
}

/// Makes the command so many bytes long by its last part, which is a long one.
pub fn filled(mut sample: Sample, total: usize) -> Sample {
    sample.parts.pop();
    let rest = sample.bytes().len() + 5;
    sample.parts.push(vec![0x42; total - rest]);
    sample
}
