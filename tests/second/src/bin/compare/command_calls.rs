//! Commands on both programs, and what the paper says of them.

use second::calls::WRITE_COMMAND_RECORD_LEN;
use second::command::Command;
use second::side::Side;

use crate::command_parts::{Fields, Sample};
use crate::tester::{hex, named, Call, Expect, ReadCase, Tester, WriteAnswer};

/// Bytes of the read's record.
pub const RECORD: usize = 32;

impl<'a> ReadCase<'a> {
    /// With a record for a command.
    pub fn command(bytes: &'a [u8]) -> ReadCase<'a> {
        ReadCase {
            record_len: RECORD,
            ..ReadCase::new(bytes)
        }
    }
}

#[derive(Clone, Copy)]
pub struct WriteCommandCase<'a> {
    pub command: Command<'a>,
    pub out_len: usize,
    pub record_len: usize,
}

/// The library's answer to a read; the record is only there if it accepted.
pub struct CommandAnswer {
    pub refusal: u32,
    pub record: [u32; 8],
}

/// What the paper says of bytes.
pub enum Told {
    Refused(u32),
    /// They are this command.
    Good(Sample),
}

impl Tester {
    /// One read as a case of its own, with all that the paper says of it.
    pub fn command_case(&mut self, label: (&'static str, u64, u64), bytes: &[u8], told: &Told) {
        self.case(label.0, label.1, label.2, |tester| {
            let right = match told {
                Told::Refused(number) => {
                    tester.read_command(&ReadCase::command(bytes), Expect::Number(*number));
                    return;
                }
                Told::Good(sample) => sample.record(),
            };
            let answer = tester.read_command(&ReadCase::command(bytes), Expect::Number(0));
            tester.require(answer.record == right, || {
                format!("{:?} in the record for {right:?}", answer.record)
            });
            tester.command_written_back(bytes, &answer.record);
        });
    }

    pub fn read_command(&mut self, case: &ReadCase, expect: Expect) -> CommandAnswer {
        let name = "lampreycoil_read_command";
        let (refusal, record) = self.read_record(name, case, expect, Side::read_command);
        CommandAnswer { refusal, record }
    }

    /// The writer makes the same bytes of what was read, in a room of just their length.
    pub fn command_written_back(&mut self, bytes: &[u8], record: &[u32; 8]) {
        let Some(fields) = fields_in(bytes, record) else {
            self.require(false, || format!("the record holds {record:?}"));
            return;
        };
        let case = WriteCommandCase {
            command: fields.lent(),
            out_len: bytes.len(),
            record_len: WRITE_COMMAND_RECORD_LEN,
        };
        let answer = self.write_command(&case, Expect::Number(0));
        self.require(answer.frame() == bytes, || {
            format!("{} written back as {}", hex(bytes), hex(answer.frame()))
        });
    }

    /// What was written is read as the same fields.
    pub fn command_read_back(&mut self, bytes: &[u8], fields: &Fields) {
        let answer = self.read_command(&ReadCase::command(bytes), Expect::Number(0));
        let shown = fields_in(bytes, &answer.record);
        self.require(shown.as_ref() == Some(fields), || {
            format!("{} read back as {:?}", hex(bytes), answer.record)
        });
    }

    pub fn write_command(&mut self, case: &WriteCommandCase, expect: Expect) -> WriteAnswer {
        let lent = case.command;
        self.arena.start();
        // What would tempt one who reads too far.
        let name = self.arena.lend(lent.name, b"x");
        let address = self.arena.lend(lent.address, &[0]);
        let body = self.arena.lend(lent.body, &[0]);
        let out = self.arena.lend_room(case.out_len);
        let record = self.arena.lend_room(case.record_len);
        self.arena.seal();
        let slices = [&name, &address, &body, &out, &record];
        let refusals = self.on_both(slices, |side, [name, address, body, out, record]| {
            let command = Command {
                name,
                address,
                body,
                ..lent
            };
            side.write_command(&command, out, record)
        });
        let call = || Call {
            name: "lampreycoil_write_command",
            numbers: format!("sender {}, command {}", lent.sender, lent.command),
            inputs: named(["name", "address", "body"], [&name, &address, &body]),
            rooms: named(["out", "record"], [&out, &record]),
        };
        self.judge_written(refusals, expect, [&out, &record], call)
    }
}

/// The fields that a read's record points at.
fn fields_in(bytes: &[u8], record: &[u32; 8]) -> Option<Fields> {
    let place = |start: u32, len: u32| {
        let end = start.checked_add(len)?;
        Some(bytes.get(start as usize..end as usize)?.to_vec())
    };
    let [sender, command, name, name_len, address, body, body_len, _] = *record;
    Some(Fields {
        sender: sender as u8,
        command: command as u8,
        name: place(name, name_len)?,
        address: place(address, if address == 0 { 0 } else { 37 })?,
        body: place(body, body_len)?,
    })
}
