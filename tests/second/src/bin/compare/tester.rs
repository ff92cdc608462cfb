//! Makes a call on both programs, compares all they answer and leave, and keeps the score.

use std::collections::BTreeMap;
use std::fmt::Write as _;
use std::ops::Range;

use second::calls::{READ_RECORD_LEN, WRITE_RECORD_LEN};
use second::frame::number_at;
use second::side::{Side, LIBRARY, SECOND};
use second::write::Message;

use crate::arena::Arena;
use crate::crash;
use crate::pages::Edge;

/// So many failures are shown whole; the others are only counted.
const SHOWN: usize = 10;
/// Hex digits are cut off behind about so many.
const SHOWN_DIGITS: usize = 1 << 17;
const SIDES: [Side; 2] = [LIBRARY, SECOND];

/// What the paper says of a case, apart from the two programs agreeing.
#[derive(Clone, Copy, PartialEq)]
pub enum Expect {
    /// This refusal, or 0.
    Number(u32),
    /// Some refusal.
    Refused,
    /// Nothing: the programs only have to agree.
    Agreed,
}

pub struct ReadCase<'a> {
    pub bytes: &'a [u8],
    /// Lies right behind the slice, outside of it.
    pub behind: &'a [u8],
    pub record_len: usize,
}

impl<'a> ReadCase<'a> {
    pub fn new(bytes: &'a [u8]) -> ReadCase<'a> {
        ReadCase {
            bytes,
            behind: &[],
            record_len: READ_RECORD_LEN,
        }
    }
}

pub struct WriteCase<'a> {
    pub message: Message<'a>,
    pub out_len: usize,
    pub record_len: usize,
}

/// The library's answer to a read; the record is only there if it accepted.
#[derive(Clone, Copy)]
pub struct ReadAnswer {
    pub refusal: u32,
    pub record: [u32; 13],
}

/// The library's answer to a write; the frame is only there if it accepted.
pub struct WriteAnswer {
    pub refusal: u32,
    pub out: Vec<u8>,
    pub frame_len: usize,
}

impl WriteAnswer {
    pub fn frame(&self) -> &[u8] {
        self.out.get(..self.frame_len).unwrap_or(&[])
    }
}

/// Slices by name, and where they lie in the arena.
type Slices = Vec<(&'static str, Range<usize>)>;

/// One call: its name, its plain numbers and its slices.
pub struct Call {
    pub name: &'static str,
    pub numbers: String,
    pub inputs: Slices,
    pub rooms: Slices,
}

/// The group that is running.
#[derive(Default)]
struct Tally {
    name: &'static str,
    cases: u64,
    failed: u64,
    /// Library's answers by their number.
    answers: BTreeMap<u32, u64>,
    /// Those among them that say that a payload is JSON.
    yes: u64,
    /// Frames of other calls that were also asked for the byte at fault.
    faults: u64,
}

pub struct Tester {
    pub arena: Arena,
    tally: Tally,
    passed: u64,
    failed: u64,
    shown: usize,
    label: (&'static str, u64, u64),
    hint: String,
    case_failed: bool,
    /// What the library did otherwise with its slices against a page that faults.
    fence_faults: Vec<String>,
}

impl Tester {
    pub fn new() -> Tester {
        Tester {
            arena: Arena::new(),
            tally: Tally::default(),
            passed: 0,
            failed: 0,
            shown: 0,
            label: ("", 0, 0),
            hint: String::new(),
            case_failed: false,
            fence_faults: Vec::new(),
        }
    }

    pub fn begin_group(&mut self, name: &'static str) {
        crash::set_group(name);
        self.tally = Tally {
            name,
            ..Tally::default()
        };
        self.hint = String::new();
    }

    /// How a failing case of this group is run alone, but for its number.
    pub fn set_hint(&mut self, hint: String) {
        self.hint = hint;
    }

    pub fn end_group(&mut self, remark: &str) {
        let tally = &self.tally;
        let mut line = format!(
            "{}: {} cases, {} failed",
            tally.name, tally.cases, tally.failed
        );
        if !remark.is_empty() {
            write!(line, "; {remark}").unwrap();
        }
        if tally.faults > 0 {
            write!(line, "; {} asked for the byte at fault", tally.faults).unwrap();
        }
        println!("{line}");
        let answers: Vec<String> = tally
            .answers
            .iter()
            .map(|(number, times)| format!("{number}: {times}"))
            .collect();
        println!("    answers of the library  {}", answers.join(", "));
        self.failed += tally.failed;
        self.passed += tally.cases - tally.failed;
    }

    pub fn score(&self) -> (u64, u64) {
        (self.passed, self.failed)
    }

    /// Runs one case, which is passed if nothing in it fails.
    pub fn case(&mut self, what: &'static str, a: u64, b: u64, run: impl FnOnce(&mut Tester)) {
        self.label = (what, a, b);
        crash::set_case(what, a, b);
        self.case_failed = false;
        self.arena.set_place(a, b);
        run(self);
        self.tally.cases += 1;
        self.tally.failed += self.case_failed as u64;
    }

    /// One read as a case of its own.
    pub fn read_case(&mut self, label: (&'static str, u64, u64), case: &ReadCase, expect: Expect) {
        self.case(label.0, label.1, label.2, |tester| {
            tester.read(case, expect);
        });
    }

    /// One write as a case of its own.
    pub fn write_case(
        &mut self,
        label: (&'static str, u64, u64),
        case: &WriteCase,
        expect: Expect,
    ) {
        self.case(label.0, label.1, label.2, |tester| {
            tester.write(case, expect);
        });
    }

    pub fn case_has_failed(&self) -> bool {
        self.case_failed
    }

    /// Whether the next failure is shown whole.
    pub fn shows(&self) -> bool {
        self.shown < SHOWN
    }

    /// A property beside the agreement of the two.
    pub fn require(&mut self, holds: bool, what: impl FnOnce() -> String) {
        if !holds {
            let text = what();
            self.fail(&text);
        }
    }

    pub fn read(&mut self, case: &ReadCase, expect: Expect) -> ReadAnswer {
        let (refusal, record) = self.read_record("lampreycoil_read", case, expect, Side::read);
        if case.record_len >= READ_RECORD_LEN {
            self.fault_of(case.bytes, refusal);
        }
        ReadAnswer { refusal, record }
    }

    /// A call that reads bytes and, unless it refuses, fills a record of some numbers.
    pub fn read_record<const N: usize>(
        &mut self,
        name: &'static str,
        case: &ReadCase,
        expect: Expect,
        call: fn(&Side, &[u8], &mut [u8]) -> u32,
    ) -> (u32, [u32; N]) {
        self.arena.start();
        let bytes = self.arena.lend(case.bytes, case.behind);
        let record = self.arena.lend_room(case.record_len);
        self.arena.seal();
        let refusals = self.on_both([&bytes, &record], |side, [bytes, record]| {
            call(side, bytes, record)
        });
        let written = [front(&record, 4 * N)];
        self.judge(refusals, expect, [&written, &written], || Call {
            name,
            numbers: String::new(),
            inputs: named(["bytes"], [&bytes]),
            rooms: named(["record"], [&record]),
        });
        let mut numbers = [0; N];
        if refusals[0] == 0 && record.len() >= 4 * N {
            let left = &self.arena.after[0][record];
            numbers = std::array::from_fn(|place| number_at(left, 4 * place));
        }
        (refusals[0], numbers)
    }

    pub fn write(&mut self, case: &WriteCase, expect: Expect) -> WriteAnswer {
        let Message { header, .. } = case.message;
        self.arena.start();
        let routes = self.arena.lend(case.message.routes, &[]);
        let topic = self.arena.lend(case.message.topic, &[0]);
        let payload = self.arena.lend(case.message.payload, &[]);
        let out = self.arena.lend_room(case.out_len);
        let record = self.arena.lend_room(case.record_len);
        self.arena.seal();
        let slices = [&routes, &topic, &payload, &out, &record];
        let refusals = self.on_both(slices, |side, [routes, topic, payload, out, record]| {
            let message = Message {
                header,
                routes,
                topic,
                payload,
            };
            side.write(&message, out, record)
        });
        self.judge_written(refusals, expect, [&out, &record], || Call {
            name: "lampreycoil_write",
            numbers: format!("{header:x?}"),
            inputs: named(["routes", "topic", "payload"], [&routes, &topic, &payload]),
            rooms: named(["out", "record"], [&out, &record]),
        })
    }

    /// Judges a call that writes to the front of `out` and tells in its record how much.
    pub fn judge_written(
        &mut self,
        refusals: [u32; 2],
        expect: Expect,
        [out, record]: [&Range<usize>; 2],
        call: impl Fn() -> Call,
    ) -> WriteAnswer {
        let lens = [0, 1].map(|side| self.number_in(side, record));
        let written = lens.map(|len| [front(out, len), front(record, WRITE_RECORD_LEN)]);
        self.judge(refusals, expect, [&written[0], &written[1]], call);
        let left = (refusals[0] == 0).then(|| self.arena.after[0][out.clone()].to_vec());
        WriteAnswer {
            refusal: refusals[0],
            out: left.unwrap_or_default(),
            frame_len: lens[0],
        }
    }

    /// Calls each program on its copy of the slices, and the library on fenced ones as well.
    pub fn on_both<const N: usize>(
        &mut self,
        lent: [&Range<usize>; N],
        call: impl Fn(&Side, [&mut [u8]; N]) -> u32,
    ) -> [u32; 2] {
        let refusals = [0, 1].map(|number: usize| {
            let arena = &mut self.arena.after[number];
            let slices = arena.get_disjoint_mut(lent.map(Range::clone)).unwrap();
            call(&SIDES[number], slices)
        });
        for edge in [Edge::End, Edge::Start] {
            let again = |slices: [&mut [u8]; N]| call(&LIBRARY, slices);
            let (refusal, same) = self.arena.on_fenced(lent, edge, again);
            if refusal != refusals[0] || !same {
                self.fence_faults.push(format!(
                    "with slices at the {edge:?} of their pages the library answered {refusal} \
                     or left other bytes"
                ));
            }
        }
        refusals
    }

    /// Counts an answer of the library that was not got by `judge`.
    pub fn count(&mut self, refusal: u32) {
        *self.tally.answers.entry(refusal).or_default() += 1;
    }

    pub fn count_yes(&mut self) {
        self.tally.yes += 1;
    }

    pub fn count_fault(&mut self) {
        self.tally.faults += 1;
    }

    pub fn yes(&self) -> u64 {
        self.tally.yes
    }

    /// The first number of a record, 0 if it is too short to hold one.
    pub fn number_in(&self, side: usize, record: &Range<usize>) -> usize {
        if record.len() < 4 {
            return 0;
        }
        number_at(&self.arena.after[side], record.start) as usize
    }

    /// The checks that every call gets. `written` is what each program may have changed if it
    /// accepted; a refusal may change nothing.
    pub fn judge(
        &mut self,
        refusals: [u32; 2],
        expect: Expect,
        written: [&[Range<usize>]; 2],
        call: impl Fn() -> Call,
    ) {
        let allowed = [0, 1].map(|side| match refusals[side] {
            0 => written[side],
            _ => &[],
        });
        self.judge_all(refusals, expect, allowed, call);
    }

    /// The same where a refusal may have changed something too.
    pub fn judge_all(
        &mut self,
        refusals: [u32; 2],
        expect: Expect,
        allowed: [&[Range<usize>]; 2],
        call: impl Fn() -> Call,
    ) {
        let mut faults = std::mem::take(&mut self.fence_faults);
        for (side, &refusal) in refusals.iter().enumerate() {
            let name = SIDES[side].name;
            if let Some(at) = self.arena.stray_write(side, allowed[side]) {
                faults.push(format!("{name} changed {}", place(&call(), at)));
            }
            match expect {
                Expect::Number(number) if number != refusal => faults.push(format!(
                    "{name} answered {refusal}, the paper says {number}"
                )),
                Expect::Refused if refusal == 0 => {
                    faults.push(format!("{name} accepted what the paper refuses"))
                }
                _ => {}
            }
        }
        if refusals[0] != refusals[1] {
            faults.push("the answers differ".to_string());
        }
        if let Some(at) = self.arena.difference() {
            faults.push(format!("the bytes left differ at {}", place(&call(), at)));
        }
        self.count(refusals[0]);
        if !faults.is_empty() {
            let text = self.describe(&call(), refusals, &faults);
            self.fail(&text);
        }
    }

    fn describe(&self, call: &Call, refusals: [u32; 2], faults: &[String]) -> String {
        let mut text = faults.join("; ");
        write!(text, "\n    {} {}", call.name, call.numbers).unwrap();
        for (name, range) in &call.inputs {
            let bytes = hex(&self.arena.before[range.clone()]);
            write!(text, "\n    {name} ({} bytes) {bytes}", range.len()).unwrap();
        }
        for (name, range) in &call.rooms {
            let bytes = hex(&self.arena.before[range.clone()]);
            write!(text, "\n    {name} before ({} bytes) {bytes}", range.len()).unwrap();
        }
        for (side, refusal) in refusals.iter().enumerate() {
            write!(text, "\n    {} answered {refusal}", SIDES[side].name).unwrap();
            for (name, range) in &call.rooms {
                let bytes = hex(&self.arena.after[side][range.clone()]);
                write!(text, "\n        {name} {bytes}").unwrap();
            }
        }
        text
    }

    fn fail(&mut self, text: &str) {
        // Later faults of a case mostly follow from its first.
        if !self.case_failed && self.shown < SHOWN {
            self.shown += 1;
            let (what, a, b) = self.label;
            println!("FAILED {}: {what} ({a}, {b}): {text}", self.tally.name);
            if !self.hint.is_empty() {
                println!("    again: {} --from {a} --cases 1", self.hint);
            }
        }
        self.case_failed = true;
    }
}

pub fn named<const N: usize>(names: [&'static str; N], ranges: [&Range<usize>; N]) -> Slices {
    names.into_iter().zip(ranges.map(Range::clone)).collect()
}

/// The front of a range, no longer than the range is.
pub fn front(range: &Range<usize>, len: usize) -> Range<usize> {
    range.start..range.start + len.min(range.len())
}

/// Names a byte of the arena by the slice that it lies in or next to.
fn place(call: &Call, at: usize) -> String {
    let mut name = "the guard in front of everything".to_string();
    for (slice, range) in call.inputs.iter().chain(&call.rooms) {
        if range.contains(&at) {
            return format!("byte {} of {slice}", at - range.start);
        }
        if range.end <= at {
            name = format!(
                "the guard, {} bytes behind the end of {slice}",
                at - range.end
            );
        }
    }
    name
}

/// Hex digits; a byte that comes 16 times or more is written once with its count. Of a long stream
/// only the front is shown.
pub fn hex(bytes: &[u8]) -> String {
    let mut text = String::new();
    let mut left = bytes.len();
    for run in bytes.chunk_by(|a, b| a == b) {
        if text.len() >= SHOWN_DIGITS {
            write!(text, " and {left} bytes more").unwrap();
            break;
        }
        left -= run.len();
        if run.len() >= 16 {
            write!(text, "[{:02x}*{}]", run[0], run.len()).unwrap();
        } else {
            run.iter()
                .for_each(|byte| write!(text, "{byte:02x}").unwrap());
        }
    }
    text
}
