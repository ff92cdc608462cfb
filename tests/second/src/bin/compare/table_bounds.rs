//! Every boundary of the tables, each with the answer that the paper gives.

use second::sample::{service, tree_of};

use crate::draft::{fits_route, routes};
use crate::table_calls::{star, TreeCase, NO_PARENT};
use crate::tester::{Expect, Tester};

/// Parents none,0,0,1,1,2,2, as the paper has them.
const FLOOR: [u32; 7] = [NO_PARENT, 0, 0, 1, 1, 2, 2];

pub fn trees(tester: &mut Tester) {
    tester.begin_group("tree-bounds");
    paper_tree(tester);
    tree_lengths(tester);
    tree_rooms(tester);
    chains(tester);
    chains_in_full_trees(tester);
    rings(tester);
    parents(tester);
    small_trees(tester);
    tester.end_group("");
}

pub fn services(tester: &mut Tester) {
    tester.begin_group("service-bounds");
    service_lengths(tester);
    service_ranks(tester);
    service_names(tester);
    services_twice(tester);
    tester.end_group("");
}

pub fn identities(tester: &mut Tester) {
    tester.begin_group("identity-bounds");
    identity_lengths(tester);
    identity_bytes(tester);
    identities_twice(tester);
    tester.end_group("");
}

fn tree(tester: &mut Tester, what: &'static str, at: usize, tree: &[u8]) {
    tester.case(what, at as u64, tree.len() as u64, |tester| {
        tester.check_tree(&TreeCase {
            tree,
            depths_len: 1030,
            record_len: 4,
        });
    });
}

fn paper_tree(tester: &mut Tester) {
    let bytes = tree_of(&FLOOR);
    tester.case("the paper's tree", 0, 0, |tester| {
        let right = crate::table_calls::depths_of(&bytes);
        tester.require(right == Some(vec![0, 1, 1, 2, 2, 2, 2]), || {
            "the tests' own depths are wrong".to_string()
        });
        tester.check_tree(&TreeCase {
            tree: &bytes,
            depths_len: 9,
            record_len: 5,
        });
    });
}

/// Every length in bytes up to more than 1,024 ranks.
fn tree_lengths(tester: &mut Tester) {
    let long = star(1027);
    for len in 0..=long.len() {
        tree(tester, "length", len, &long[..len]);
    }
}

/// Depth buffers and records of each length, beside a right and a wrong tree.
fn tree_rooms(tester: &mut Tester) {
    let mut wrong = FLOOR;
    wrong[6] = 7;
    for parents in [FLOOR, wrong] {
        for depths_len in 0..=30 {
            for record_len in 0..=8 {
                let case = TreeCase {
                    tree: &tree_of(&parents),
                    depths_len,
                    record_len,
                };
                let rooms = (depths_len as u64, record_len as u64);
                tester.case("rooms", rooms.0, rooms.1, |tester| tester.check_tree(&case));
            }
        }
    }
    for depths_len in [0, 1, 1022, 1023, 1024, 1025] {
        let case = TreeCase {
            tree: &star(1024),
            depths_len,
            record_len: 4,
        };
        tester.case("rooms of a full tree", depths_len as u64, 0, |tester| {
            tester.check_tree(&case)
        });
    }
}

/// Chains around depth 16, with parents below and above their children.
fn chains(tester: &mut Tester) {
    for depth in 1..=40 {
        let mut upward = vec![NO_PARENT];
        upward.extend(0..depth);
        tree(tester, "chain", depth as usize, &tree_of(&upward));

        let mut downward = vec![NO_PARENT];
        downward.extend(2..=depth);
        downward.push(0);
        let bytes = tree_of(&downward);
        tree(tester, "chain of larger parents", depth as usize, &bytes);
    }
}

/// The same in a full tree, at its end and all over it.
fn chains_in_full_trees(tester: &mut Tester) {
    for depth in 1..=40 {
        let mut last = vec![0; 1024];
        last[0] = NO_PARENT;
        for (rank, parent) in last.iter_mut().enumerate().skip(1024 - depth + 1) {
            *parent = rank as u32 - 1;
        }
        tree(tester, "chain at the end", depth, &tree_of(&last));

        let mut mixed = vec![0; 1024];
        mixed[0] = NO_PARENT;
        // Every 100th rank, round about: no order of ranks helps.
        let rank = |link: usize| 1 + link * 100 % 1023;
        for link in 1..depth {
            mixed[rank(link)] = rank(link - 1) as u32;
        }
        tree(tester, "chain all over", depth, &tree_of(&mixed));
    }
}

fn rings(tester: &mut Tester) {
    for ring in 1..=40 {
        for tail in 0..3 {
            // Ranks 1 to `ring` in a ring, and some that hang from it.
            let mut parents = vec![NO_PARENT];
            parents.extend((1..=ring).map(|rank| rank % ring + 1));
            parents.extend((0..tail).map(|_| 1));
            tree(tester, "ring", ring as usize, &tree_of(&parents));
        }
    }
    let mut full: Vec<u32> = (0..1024).map(|rank| (rank + 1) % 1024).collect();
    tree(tester, "ring through rank 0", 0, &tree_of(&full));
    full[0] = NO_PARENT;
    tree(tester, "a chain of 1,023", 0, &tree_of(&full));
    full[1023] = 1;
    tree(tester, "a ring of 1,023", 0, &tree_of(&full));
}

/// Each rank with each parent that could be mistaken for a right one.
fn parents(tester: &mut Tester) {
    let small: Vec<u32> = (0..9).collect();
    let large = (0..32).flat_map(|bit| [1 << bit, !(1 << bit), (1 << bit) | 1]);
    let odd = [
        NO_PARENT,
        NO_PARENT - 1,
        0x0100_0000,
        0x0001_0000,
        256,
        1024,
    ];
    for parent in small.into_iter().chain(large).chain(odd) {
        for rank in 0..7 {
            let mut parents = FLOOR;
            parents[rank] = parent;
            tree(tester, "parent", rank, &tree_of(&parents));
        }
        tree(tester, "one rank", 0, &tree_of(&[parent]));
    }
}

/// All trees of up to 5 ranks, right and wrong.
fn small_trees(tester: &mut Tester) {
    for ranks in 1..=5u32 {
        let choices = ranks + 2;
        for number in 0..choices.pow(ranks) {
            let mut rest = number;
            let parents: Vec<u32> = (0..ranks)
                .map(|_| {
                    let choice = rest % choices;
                    rest /= choices;
                    if choice > ranks {
                        NO_PARENT
                    } else {
                        choice
                    }
                })
                .collect();
            tree(tester, "small tree", number as usize, &tree_of(&parents));
        }
    }
}

fn service_case(
    tester: &mut Tester,
    what: &'static str,
    at: usize,
    services: &[Vec<u8>],
    refusal: u32,
) {
    let label = (at as u64, refusal as u64);
    tester.case(what, label.0, label.1, |tester| {
        let table = services.concat();
        tester.check_services(&tree_of(&FLOOR), &table, Expect::Number(refusal));
    });
}

/// Every length in bytes, the most records, and a wrong tree beside wrong services.
fn service_lengths(tester: &mut Tester) {
    let many: Vec<Vec<u8>> = (0..1030u32)
        .map(|number| service(number % 7, format!("s{number}").as_bytes()))
        .collect();
    let bytes = many.concat();
    let floor = tree_of(&FLOOR);
    for len in (0..=200).chain(1020 * 32..=bytes.len()) {
        let refusal = if len % 32 == 0 && len <= 1024 * 32 {
            0
        } else {
            15
        };
        tester.case("length", len as u64, refusal as u64, |tester| {
            tester.check_services(&floor, &bytes[..len], Expect::Number(refusal));
        });
    }
    let wrong_trees = [vec![], vec![255; 3], vec![255; 8], vec![0; 4], star(1025)];
    for (which, tree) in wrong_trees.iter().enumerate() {
        for table in [
            &bytes[..0],
            &bytes[..32],
            &bytes[..33],
            &[0; 32][..],
            &bytes,
        ] {
            let label = (which as u64, table.len() as u64);
            tester.case("wrong tree", label.0, label.1, |tester| {
                tester.check_services(tree, table, Expect::Number(14));
            });
        }
    }
}

fn service_ranks(tester: &mut Tester) {
    let values = (0..12u32).chain((0..32).flat_map(|bit| [1 << bit, u32::MAX - (1 << bit)]));
    for rank in values.chain([u32::MAX]) {
        let refusal = if rank < 7 { 0 } else { 15 };
        let records = [service(0, b"log"), service(rank, b"kvs")];
        service_case(tester, "rank", rank as usize, &records, refusal);
    }
    for ranks in 1..=40u32 {
        for rank in 0..45 {
            let refusal = if rank < ranks { 0 } else { 15 };
            tester.case("rank in a star", ranks as u64, rank as u64, |tester| {
                let tree = star(ranks as usize);
                tester.check_services(&tree, &service(rank, b"kvs"), Expect::Number(refusal));
            });
        }
    }
}

/// Name lengths, every byte at every place of a name, and every byte in the padding.
fn service_names(tester: &mut Tester) {
    for len in 0..=255 {
        let mut record = service(1, &[b'n'; 27]);
        record[4] = len;
        if len < 27 {
            record[5 + len as usize..].fill(0);
        }
        let refusal = if (1..=27).contains(&len) { 0 } else { 15 };
        service_case(tester, "name length", len as usize, &[record], refusal);
    }
    for len in 1..=27 {
        for place in 0..27 {
            for byte in 0..=255 {
                let mut record = service(1, &vec![b'n'; len]);
                record[5 + place] = byte;
                let right = if place < len {
                    byte != 0 && byte != b'.'
                } else {
                    byte == 0
                };
                let refusal = if right { 0 } else { 15 };
                service_case(tester, "name byte", place, &[record], refusal);
            }
        }
    }
}

/// The same rank and name at each two places; near misses are no repetition.
fn services_twice(tester: &mut Tester) {
    let some: Vec<Vec<u8>> = (0..40)
        .map(|number| service(number % 7, format!("bench{}", number / 7).as_bytes()))
        .collect();
    service_case(tester, "one name at several ranks", 0, &some, 0);
    for first in 0..some.len() {
        for second in first + 1..some.len() {
            let mut records = some.clone();
            records[second] = records[first].clone();
            service_case(tester, "twice", first, &records, 15);
        }
    }
    let full: Vec<Vec<u8>> = (0..1024u32)
        .map(|number| service(number % 7, format!("s{number}").as_bytes()))
        .collect();
    for (first, second) in [(0, 1023), (0, 1), (1022, 1023), (511, 512), (1, 1000)] {
        let mut records = full.clone();
        records[first] = records[second].clone();
        service_case(tester, "twice in a full table", first, &records, 15);
    }
    service_near_misses(tester);
}

fn service_near_misses(tester: &mut Tester) {
    let base = service(1, b"abcdefghijklmnopqrstuvwxyz0");
    for place in 0..27 {
        for byte in 1..=255 {
            let mut other = base.clone();
            other[5 + place] = byte;
            let refusal = if byte == b'.' || other == base { 15 } else { 0 };
            let records = [base.clone(), other];
            service_case(tester, "near miss", place, &records, refusal);
        }
    }
    for len in 1..27 {
        let records = [
            service(1, &vec![b'a'; len]),
            service(1, &vec![b'a'; len + 1]),
        ];
        service_case(tester, "a name that begins another", len, &records, 0);
    }
    // Records that a weak hash would put into one place: the same bytes in another order.
    let mut mixed: Vec<Vec<u8>> = Vec::new();
    for at in 0..27 {
        let mut name = [b'a'; 27];
        name[at] = b'b';
        mixed.push(service(0, &name));
    }
    service_case(tester, "the same bytes in another order", 0, &mixed, 0);
    mixed.push(mixed[13].clone());
    service_case(tester, "the same bytes in another order", 1, &mixed, 15);
}

fn identity_case(
    tester: &mut Tester,
    what: &'static str,
    at: usize,
    identities: &[u8],
    refusal: u32,
) {
    tester.case(what, at as u64, refusal as u64, |tester| {
        let tree = star(40);
        tester.check_identities(&tree, identities, Expect::Number(refusal));
    });
}

fn identity_lengths(tester: &mut Tester) {
    let many = routes(42);
    for len in 0..=many.len() {
        let refusal = if len == 40 * 37 { 0 } else { 16 };
        identity_case(tester, "length", len, &many[..len], refusal);
    }
    let full = routes(1025);
    for ranks in [1, 2, 1023, 1024, 1025] {
        for len in [ranks * 37 - 37, ranks * 37 - 1, ranks * 37] {
            let refusal = match len {
                _ if ranks > 1024 => 14,
                _ if len == ranks * 37 => 0,
                _ => 16,
            };
            tester.case("ranks", ranks as u64, len as u64, |tester| {
                tester.check_identities(&star(ranks), &full[..len], Expect::Number(refusal));
            });
        }
    }
    for tree in [vec![], vec![255; 3], vec![255; 8], vec![0; 4]] {
        for len in [0, 37, 74, 5] {
            tester.case("wrong tree", tree.len() as u64, len as u64, |tester| {
                tester.check_identities(&tree, &full[..len], Expect::Number(14));
            });
        }
    }
}

/// Every byte at every place of the first, a middle and the last identity.
fn identity_bytes(tester: &mut Tester) {
    for which in [0, 17, 39] {
        for place in 0..37 {
            for byte in 0..=255 {
                let mut table = routes(40);
                table[37 * which + place] = byte;
                let refusal = if fits_route(place, byte) { 0 } else { 16 };
                identity_case(tester, "byte", place, &table, refusal);
            }
        }
    }
}

/// The same identity at each two ranks; ones that differ in a digit are no repetition.
fn identities_twice(tester: &mut Tester) {
    for first in 0..40 {
        for second in first + 1..40 {
            let mut table = routes(40);
            table.copy_within(37 * first..37 * first + 37, 37 * second);
            identity_case(tester, "twice", first, &table, 16);
        }
    }
    for (first, second) in [(0, 1023), (0, 1), (1022, 1023), (511, 512), (1, 1000)] {
        let mut table = routes(1024);
        table.copy_within(37 * first..37 * first + 37, 37 * second);
        tester.case(
            "twice in a full table",
            first as u64,
            second as u64,
            |tester| {
                tester.check_identities(&star(1024), &table, Expect::Number(16));
            },
        );
    }
    let base = routes(1);
    for place in 0..36 {
        for byte in b'a'..=b'f' {
            let mut other = base.clone();
            other[place] = byte;
            let refusal = if !fits_route(place, byte) || other == base {
                16
            } else {
                0
            };
            tester.case("near miss", place as u64, byte as u64, |tester| {
                let table = [&base[..], &other].concat();
                tester.check_identities(&star(2), &table, Expect::Number(refusal));
            });
        }
    }
}
