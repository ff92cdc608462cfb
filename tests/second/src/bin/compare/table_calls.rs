//! The table checks on both programs, and what the paper says of a table, told apart from either.

use second::calls::TREE_RECORD_LEN;
use second::side::Side;

use crate::draft::fits_route;
use crate::tester::{front, hex, named, Call, Expect, Tester};

pub const NO_PARENT: u32 = 4_294_967_295;

pub struct TreeCase<'a> {
    pub tree: &'a [u8],
    pub depths_len: usize,
    pub record_len: usize,
}

type TableCheck = fn(&Side, &[u8], &[u8]) -> u32;

impl Tester {
    /// A tree check. What it must answer and write follows from the tree and the lengths.
    pub fn check_tree(&mut self, case: &TreeCase) {
        let right = depths_of(case.tree);
        let number = match &right {
            _ if case.record_len < TREE_RECORD_LEN => 11,
            None => 14,
            Some(depths) if depths.len() > case.depths_len => 11,
            Some(_) => 0,
        };
        self.arena.start();
        let tree = self.arena.lend(case.tree, &[0; 4]);
        let depths = self.arena.lend_room(case.depths_len);
        let record = self.arena.lend_room(case.record_len);
        self.arena.seal();
        let refusals = self.on_both([&tree, &depths, &record], |side, [tree, depths, record]| {
            side.check_tree(tree, depths, record)
        });
        let counts = [0, 1].map(|side| self.number_in(side, &record));
        let written = counts.map(|len| [front(&depths, len), front(&record, TREE_RECORD_LEN)]);
        let expect = Expect::Number(number);
        self.judge(refusals, expect, [&written[0], &written[1]], || Call {
            name: "lampreycoil_check_tree",
            numbers: String::new(),
            inputs: named(["tree"], [&tree]),
            rooms: named(["depths", "record"], [&depths, &record]),
        });
        if let (0, Some(right)) = (number, right) {
            let left = self.arena.after[0][front(&depths, right.len())].to_vec();
            let told = counts[0];
            self.require(left == right && told == right.len(), || {
                format!("{told} depths {} in place of {}", hex(&left), hex(&right))
            });
        }
    }

    pub fn check_services(&mut self, tree: &[u8], services: &[u8], expect: Expect) {
        self.check_table(
            "lampreycoil_check_services",
            tree,
            services,
            expect,
            Side::check_services,
        );
    }

    pub fn check_identities(&mut self, tree: &[u8], identities: &[u8], expect: Expect) {
        let name = "lampreycoil_check_identities";
        self.check_table(name, tree, identities, expect, Side::check_identities);
    }

    /// The checks that write nothing.
    fn check_table(
        &mut self,
        name: &'static str,
        tree: &[u8],
        table: &[u8],
        expect: Expect,
        check: TableCheck,
    ) {
        self.arena.start();
        let tree = self.arena.lend(tree, &[0; 4]);
        let table = self.arena.lend(table, &[]);
        self.arena.seal();
        let refusals = self.on_both([&tree, &table], |side, [tree, table]| {
            check(side, tree, table)
        });
        self.judge(refusals, expect, [&[], &[]], || Call {
            name,
            numbers: String::new(),
            inputs: named(["tree", "table"], [&tree, &table]),
            rooms: Vec::new(),
        });
    }
}

/// The depths that the paper asks for, level by level, or none if there are no such.
pub fn depths_of(tree: &[u8]) -> Option<Vec<u8>> {
    if tree.is_empty() || !tree.len().is_multiple_of(4) || tree.len() > 4 * 1024 {
        return None;
    }
    let parents: Vec<u32> = tree
        .chunks(4)
        .map(|number| u32::from_be_bytes(number.try_into().unwrap()))
        .collect();
    let mut depths: Vec<Option<u8>> = vec![None; parents.len()];
    if parents[0] == NO_PARENT {
        depths[0] = Some(0);
    }
    for level in 1..=16 {
        for rank in 1..parents.len() {
            let above = depths.get(parents[rank] as usize).copied().flatten();
            if above == Some(level - 1) {
                depths[rank] = Some(level);
            }
        }
    }
    depths.into_iter().collect()
}

/// What the paper says of services beside this tree.
pub fn services_expected(tree: &[u8], services: &[u8]) -> u32 {
    let Some(depths) = depths_of(tree) else {
        return 14;
    };
    let mut records: Vec<&[u8]> = services.chunks(32).collect();
    let right = services.len().is_multiple_of(32)
        && records.len() <= 1024
        && records.iter().all(|record| {
            let rank = u32::from_be_bytes(record[..4].try_into().unwrap());
            let len = record[4] as usize;
            (rank as usize) < depths.len()
                && (1..=27).contains(&len)
                && (0..27).all(|at| match record[5 + at] {
                    0 => at >= len,
                    b'.' => false,
                    _ => at < len,
                })
        });
    records.sort();
    let twice = records.windows(2).any(|pair| pair[0] == pair[1]);
    if right && !twice {
        0
    } else {
        15
    }
}

/// What the paper says of identities beside this tree.
pub fn identities_expected(tree: &[u8], identities: &[u8]) -> u32 {
    let Some(depths) = depths_of(tree) else {
        return 14;
    };
    let mut routes: Vec<&[u8]> = identities.chunks(37).collect();
    let right = identities.len() == 37 * depths.len()
        && identities
            .iter()
            .enumerate()
            .all(|(at, &byte)| fits_route(at % 37, byte));
    routes.sort();
    let twice = routes.windows(2).any(|pair| pair[0] == pair[1]);
    if right && !twice {
        0
    } else {
        16
    }
}

/// All ranks are children of rank 0.
pub fn star(ranks: usize) -> Vec<u8> {
    let mut tree = vec![0; 4 * ranks];
    tree[..4].fill(255);
    tree
}
