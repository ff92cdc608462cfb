//! Seeded tables, right ones and damaged ones, each with the answer that the paper gives.

use second::sample::{route, service, tree_of, Rng};

use crate::seeded::Run;
use crate::table_calls::{identities_expected, services_expected, star, TreeCase, NO_PARENT};
use crate::tester::{Expect, Tester};

pub fn trees(tester: &mut Tester, run: &Run) {
    group(tester, "trees", run, tree_case);
}

pub fn services(tester: &mut Tester, run: &Run) {
    group(tester, "services", run, service_case);
}

pub fn identities(tester: &mut Tester, run: &Run) {
    group(tester, "identities", run, identity_case);
}

fn group(tester: &mut Tester, name: &'static str, run: &Run, case: fn(&mut Tester, &mut Rng)) {
    tester.begin_group(name);
    tester.set_hint(format!("compare --seed {} --group {name}", run.seed));
    for number in run.from..run.from + run.cases {
        let mut rng = Rng::for_case(run.seed, name, number);
        tester.case("case", number, run.seed, |tester| case(tester, &mut rng));
    }
    tester.end_group(&format!("seed {}", run.seed));
}

/// Mostly few, at times the most there may be.
fn size(rng: &mut Rng, most: usize) -> usize {
    match rng.below(40) {
        0 => rng.between(most - 2, most + 1),
        1 => rng.between(1, most),
        2..=12 => rng.between(1, 64),
        _ => rng.between(1, 9),
    }
}

/// A tree whose ranks are placed in random order, and so under parents of any rank.
fn random_tree(rng: &mut Rng, ranks: usize) -> Vec<u32> {
    let mut order: Vec<usize> = (1..ranks).collect();
    for at in (1..order.len()).rev() {
        order.swap(at, rng.below(at + 1));
    }
    let deepest = rng.pick(&[1, 3, 15, 16, 16, 16, 17]);
    let deep = rng.once_in(2);
    let mut parents = vec![NO_PARENT; ranks];
    let mut placed = vec![(0, 0)];
    for rank in order {
        let latest = placed.len() - 1;
        let at = if deep && !rng.once_in(8) {
            latest
        } else {
            rng.below(latest + 1)
        };
        let (parent, depth) = placed[at];
        let (parent, depth) = if depth < deepest {
            (parent, depth)
        } else {
            (0, 0)
        };
        parents[rank] = parent as u32;
        placed.push((rank, depth + 1));
    }
    parents
}

fn tree_case(tester: &mut Tester, rng: &mut Rng) {
    let ranks = size(rng, 1024);
    let mut parents = random_tree(rng, ranks);
    if rng.once_in(3) {
        let rank = rng.below(ranks);
        parents[rank] = match rng.below(4) {
            0 => rng.pick(&[NO_PARENT, NO_PARENT - 1, ranks as u32, 1 << 31]),
            1 => rank as u32,
            _ => rng.below(ranks) as u32,
        };
    }
    let mut tree = tree_of(&parents);
    if rng.once_in(24) {
        tree.truncate(rng.below(tree.len() + 1));
    }
    let depths_len = match rng.below(8) {
        0 => rng.below(ranks + 1),
        1 => ranks,
        _ => ranks + rng.below(20),
    };
    let record_len = if rng.once_in(32) {
        rng.below(4)
    } else {
        rng.between(4, 8)
    };
    tester.check_tree(&TreeCase {
        tree: &tree,
        depths_len,
        record_len,
    });
}

/// A star, now and then a wrong tree.
fn mostly_star(rng: &mut Rng, ranks: usize) -> Vec<u8> {
    let mut tree = star(ranks.min(1024));
    if rng.once_in(24) {
        let at = rng.below(tree.len());
        tree[at] ^= 1 << rng.below(8);
    }
    tree
}

/// Names of few letters, so that two often agree in part or whole.
fn service_case(tester: &mut Tester, rng: &mut Rng) {
    let ranks = size(rng, 1024);
    let tree = mostly_star(rng, ranks);
    let count = size(rng, 1024) - 1;
    // Enough different names that large tables are often right.
    let longest = if count > 64 {
        27
    } else {
        rng.pick(&[2, 5, 27])
    };
    let mut table = Vec::new();
    for _ in 0..count {
        let len = rng.between(longest.min(10), longest);
        let name: Vec<u8> = (0..len).map(|_| rng.pick(b"abc\xFF-")).collect();
        let rank = rng.below(ranks.min(1024)) as u32;
        table.extend_from_slice(&service(rank, &name));
    }
    if rng.once_in(4) && !table.is_empty() {
        let at = rng.below(table.len());
        table[at] = rng.pick(&[0, 1, 5, 27, 28, b'.', b'a', 255]);
    }
    if rng.once_in(16) && count > 1 {
        let (from, to) = (rng.below(count), rng.below(count));
        table.copy_within(32 * from..32 * from + 32, 32 * to);
    }
    if rng.once_in(24) {
        table.truncate(rng.below(table.len() + 1));
    }
    let number = services_expected(&tree, &table);
    tester.check_services(&tree, &table, Expect::Number(number));
}

/// Identities that differ in one digit, or in all.
fn identity_case(tester: &mut Tester, rng: &mut Rng) {
    let ranks = size(rng, 1024);
    let tree = mostly_star(rng, ranks);
    let base = route(rng);
    let near = rng.once_in(2) && ranks < 9;
    let mut table = Vec::new();
    for _ in 0..ranks {
        let mut identity = if near { base.clone() } else { route(rng) };
        let place = rng.pick(&[0, 7, 9, 17, 24, 35]);
        identity[place] = rng.pick(b"0123456789abcdef");
        table.extend_from_slice(&identity);
    }
    if rng.once_in(4) {
        let at = rng.below(table.len());
        table[at] = rng.pick(&[0, b'-', b'A', b'f', b'g', b'0']);
    }
    if rng.once_in(8) && ranks > 1 {
        let (from, to) = (rng.below(ranks), rng.below(ranks));
        table.copy_within(37 * from..37 * from + 37, 37 * to);
    }
    if rng.once_in(24) {
        table.truncate(rng.below(table.len() + 1));
    }
    let number = identities_expected(&tree, &table);
    tester.check_identities(&tree, &table, Expect::Number(number));
}
