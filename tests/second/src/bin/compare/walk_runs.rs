//! Walks of demand 3, by steps one after another and by the walk call, on both programs. The
//! library's slices lie against pages that nobody may touch.

use second::calls::step_numbers;
use second::demand3::Rest;
use second::floor::{Floor, Tables};
use second::frame::number_at;
use second::sample::OwnedTables;
use second::side::{LIBRARY, SECOND};
use second::step::step;

use crate::pages::{Edge, Fenced};
use crate::tester::{hex, Tester};

/// No walk has more steps: a request gains a route at each link, a response loses one.
const MOST_STEPS: usize = 65;
const ROOM: usize = 1 << 17;
/// What is behind the numbers of a record stays.
const TAIL: u8 = 0xE3;

/// Memory for both programs.
pub struct Ground {
    tables: [Fenced; 3],
    buffer: Fenced,
    record: Fenced,
    second_buffer: Vec<u8>,
}

/// How a walk, or the steps in its place, ended.
#[derive(Debug, PartialEq)]
struct Run {
    brokers: Vec<u32>,
    refusal: u32,
    numbers: [u32; 4],
}

/// Where a walk starts, and with what in its buffer.
#[derive(Clone, Copy)]
pub struct Start<'a> {
    pub tables: &'a OwnedTables,
    pub rank: u32,
    pub buffer: &'a [u8],
    pub edge: Edge,
}

impl Start<'_> {
    /// For a failure's report.
    fn shown(&self) -> String {
        let tables = self.tables;
        format!(
            "\n    rank {}\n    tree {}\n    services {}\n    identities {}\n    buffer before {}",
            self.rank,
            hex(&tables.tree),
            hex(&tables.services),
            hex(&tables.identities),
            hex(self.buffer)
        )
    }
}

impl Ground {
    pub fn new() -> Ground {
        let fenced = || Fenced::new(ROOM).expect("the system gives no pages to fence");
        Ground {
            tables: [fenced(), fenced(), fenced()],
            buffer: fenced(),
            record: fenced(),
            second_buffer: Vec::new(),
        }
    }

    /// Both ways to walk must end as demand 3 says, and leave the tables alone.
    pub fn walk_as(&mut self, tester: &mut Tester, start: &Start, rest: &Rest) {
        self.writer_makes(tester, rest);
        self.by_steps(tester, start, rest);
        self.by_walk(tester, start, rest);
    }

    /// The final frame is what the library's own writer makes.
    fn writer_makes(&mut self, tester: &mut Tester, rest: &Rest) {
        let out = self.buffer.lend(rest.frame.len(), Edge::End);
        let refusal = LIBRARY.write(&rest.message.lent(), out, &mut [0; 4]);
        tester.require(refusal == 0 && out == rest.frame, || {
            format!("the writer answered {refusal} or made another frame")
        });
    }

    fn by_steps(&mut self, tester: &mut Tester, start: &Start, rest: &Rest) {
        let tables = lend_tables(&mut self.tables, start);
        // Here the second program checks its tables once, so that there is time for more walks.
        let Ok(floor) = Floor::new(start.tables.lent()) else {
            return tester.require(false, || "the tables are wrong".to_string());
        };
        let buffer = lend_copy(&mut self.buffer, start.buffer, start.edge);
        self.second_buffer.clear();
        self.second_buffer.extend_from_slice(start.buffer);
        let mut run = Run {
            brokers: Vec::new(),
            refusal: 0,
            numbers: [2, start.rank, 0, 0],
        };
        while run.refusal == 0 && run.numbers[0] == 2 && run.brokers.len() < MOST_STEPS {
            let rank = run.numbers[1];
            let record = self.record.lend(16 + run.brokers.len() % 3, start.edge);
            record.fill(TAIL);
            run.refusal = LIBRARY.step(tables, rank, buffer, record);
            run.numbers = numbers(record);
            run.brokers.push(rank);
            let other = second_step(&floor, rank, &mut self.second_buffer, record.len());
            tester.count(run.refusal);
            tester.require(*record == other && *buffer == self.second_buffer, || {
                format!(
                    "the second program steps otherwise: {run:?}{}",
                    start.shown()
                )
            });
        }
        let right = Run {
            brokers: rest.brokers.clone(),
            refusal: 0,
            numbers: numbers_of(rest),
        };
        tester.require(run == right, || {
            format!("steps {run:?} for {right:?}{}", start.shown())
        });
        check_left(tester, start, rest, tables, buffer);
    }

    fn by_walk(&mut self, tester: &mut Tester, start: &Start, rest: &Rest) {
        let tables = lend_tables(&mut self.tables, start);
        let buffer = lend_copy(&mut self.buffer, start.buffer, start.edge);
        self.second_buffer.clear();
        self.second_buffer.extend_from_slice(start.buffer);
        let len = 24 + rest.brokers.len() % 3;
        let record = self.record.lend(len, start.edge);
        record.fill(TAIL);
        let mut other = [TAIL; 26];
        let refusals = [
            LIBRARY.walk(tables, start.rank, buffer, record),
            SECOND.walk(
                tables,
                start.rank,
                &mut self.second_buffer,
                &mut other[..len],
            ),
        ];
        tester.count(refusals[0]);
        let mut right = rest.numbers.map(u32::to_be_bytes).concat();
        right.resize(len, TAIL);
        tester.require(refusals == [0; 2] && record == right, || {
            let record = hex(record);
            format!(
                "the walk answered {refusals:?} and {record}{}",
                start.shown()
            )
        });
        check_left(tester, start, rest, tables, buffer);
        let same = record == &other[..len] && buffer == self.second_buffer;
        tester.require(same, || {
            format!("the second program walked otherwise{}", start.shown())
        });
    }
}

/// The record that the second program would leave.
fn second_step(floor: &Floor, rank: u32, buffer: &mut [u8], record_len: usize) -> Vec<u8> {
    let mut record = vec![TAIL; record_len];
    if let Ok(stepped) = step(floor, rank, buffer) {
        let numbers = step_numbers(&stepped).map(u32::to_be_bytes).concat();
        record[..16].copy_from_slice(&numbers);
    }
    record
}

fn lend_copy<'a>(fence: &'a mut Fenced, bytes: &[u8], edge: Edge) -> &'a mut [u8] {
    let slice = fence.lend(bytes.len(), edge);
    slice.copy_from_slice(bytes);
    slice
}

fn lend_tables<'a>(fences: &'a mut [Fenced; 3], start: &Start) -> Tables<'a> {
    let [tree, services, identities] = fences;
    Tables {
        tree: lend_copy(tree, &start.tables.tree, start.edge),
        services: lend_copy(services, &start.tables.services, start.edge),
        identities: lend_copy(identities, &start.tables.identities, start.edge),
    }
}

/// All bytes of the buffer are what they must be, and those of the tables what they were.
fn check_left(tester: &mut Tester, start: &Start, rest: &Rest, tables: Tables, buffer: &[u8]) {
    tester.require(rest.is_in(start.buffer, buffer), || {
        format!("{} left{}", hex(buffer), start.shown())
    });
    let right = start.tables;
    let same = tables.tree == right.tree
        && tables.services == right.services
        && tables.identities == right.identities;
    tester.require(same, || format!("a table is changed{}", start.shown()));
}

fn numbers(record: &[u8]) -> [u32; 4] {
    std::array::from_fn(|place| number_at(record, 4 * place))
}

fn numbers_of(rest: &Rest) -> [u32; 4] {
    let [answer, number, error, frame_len, _, _] = rest.numbers;
    [answer, number, error, frame_len]
}
