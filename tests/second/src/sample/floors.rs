//! Floors: trees of several shapes, services of few names, and identities.

use std::collections::HashSet;

use super::Rng;
use crate::floor::Tables;

const NO_PARENT: u32 = u32::MAX;
const MAX_DEPTH: usize = 16;

/// Names that begin one another, of the longest length, and of odd bytes.
pub const NAMES: [&[u8]; 8] = [
    b"log",
    b"bench",
    b"benchmark",
    b"b",
    b"kvs",
    b"abcdefghijklmnopqrstuvwxyz0",
    b"abcdefghijklmnopqrstuvwxyz",
    b"\xFF\x01-",
];

#[derive(Clone, Debug)]
pub struct OwnedTables {
    pub tree: Vec<u8>,
    pub services: Vec<u8>,
    pub identities: Vec<u8>,
}

impl OwnedTables {
    pub fn lent(&self) -> Tables<'_> {
        Tables {
            tree: &self.tree,
            services: &self.services,
            identities: &self.identities,
        }
    }

    pub fn ranks(&self) -> usize {
        self.tree.len() / 4
    }

    pub fn identity(&self, rank: u32) -> &[u8] {
        &self.identities[37 * rank as usize..][..37]
    }
}

/// A right floor of so many ranks.
pub fn floor(rng: &mut Rng, ranks: usize) -> OwnedTables {
    OwnedTables {
        tree: tree_of(&parents(rng, ranks)),
        services: services(rng, ranks),
        identities: identities(rng, ranks),
    }
}

pub fn tree_of(parents: &[u32]) -> Vec<u8> {
    parents
        .iter()
        .flat_map(|parent| parent.to_be_bytes())
        .collect()
}

/// A service record as the paper lays it out; the name may be wrong.
pub fn service(rank: u32, name: &[u8]) -> Vec<u8> {
    let mut record = rank.to_be_bytes().to_vec();
    record.push(name.len() as u8);
    record.extend_from_slice(name);
    record.resize(32, 0);
    record
}

/// A random route of the right form.
pub fn route(rng: &mut Rng) -> Vec<u8> {
    let mut route: Vec<u8> = rng
        .bytes(37)
        .iter()
        .map(|byte| b"0123456789abcdef"[(byte % 16) as usize])
        .collect();
    for at in [8, 13, 18, 23] {
        route[at] = b'-';
    }
    route[36] = 0;
    route
}

pub fn depth_of(tree: &[u8], rank: u32) -> usize {
    let (mut at, mut depth) = (rank as usize, 0);
    while at != 0 {
        at = u32::from_be_bytes(tree[4 * at..4 * at + 4].try_into().unwrap()) as usize;
        depth += 1;
    }
    depth
}

/// How the next rank is hung into the tree.
#[derive(Clone, Copy)]
enum Shape {
    /// Chains from rank 0, as long as they may be.
    Chains,
    /// Mostly below the latest.
    Deep,
    /// Below any.
    Any,
    Binary,
    Star,
}

/// The ranks are mostly placed in random order, and so under parents of any rank.
fn parents(rng: &mut Rng, ranks: usize) -> Vec<u32> {
    use Shape::*;
    let mut order: Vec<usize> = (1..ranks).collect();
    if !rng.once_in(4) {
        for at in (1..order.len()).rev() {
            order.swap(at, rng.below(at + 1));
        }
    }
    let shape = rng.pick(&[Chains, Chains, Deep, Any, Binary, Star]);
    let mut parents = vec![NO_PARENT; ranks];
    let mut placed = vec![(0, 0)];
    for rank in order {
        let (latest, depth) = (placed.len() - 1, placed[placed.len() - 1].1);
        let at = match shape {
            Chains if depth < MAX_DEPTH => latest,
            Deep if !rng.once_in(8) => latest,
            Deep | Any => rng.below(latest + 1),
            Binary => latest / 2,
            Chains | Star => 0,
        };
        let at = if placed[at].1 < MAX_DEPTH { at } else { 0 };
        parents[rank] = placed[at].0 as u32;
        placed.push((rank, placed[at].1 + 1));
    }
    parents
}

/// A few names at random ranks, now and then a full table.
fn services(rng: &mut Rng, ranks: usize) -> Vec<u8> {
    let full = ranks > 64 && rng.once_in(2);
    let count = if full { 1024 } else { rng.below(ranks + 3) };
    let mut seen = HashSet::new();
    let mut table = Vec::new();
    for number in 0..count.min(1024) {
        let rank = rng.below(ranks) as u32;
        let mut record = service(rank, rng.pick(&NAMES));
        if seen.contains(&record) {
            record = service(rank, format!("s{number}").as_bytes());
        }
        table.extend_from_slice(&record);
        seen.insert(record);
    }
    table
}

/// Random ones, or ones that differ in their last digits alone.
fn identities(rng: &mut Rng, ranks: usize) -> Vec<u8> {
    let base = route(rng);
    let near = rng.once_in(3);
    let mut table = Vec::with_capacity(37 * ranks);
    for rank in 0..ranks {
        if near {
            table.extend_from_slice(&base[..33]);
            table.extend_from_slice(format!("{rank:03x}\0").as_bytes());
        } else {
            table.extend_from_slice(&route(rng));
        }
    }
    table
}
