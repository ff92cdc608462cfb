//! The path that a request takes, from the tables alone: chains of parents, and no step in it.

use crate::floor::Tables;

#[derive(Clone, Debug, PartialEq, Eq)]
pub struct Path {
    /// From the entry to the last.
    pub brokers: Vec<u32>,
    pub end: End,
}

/// What the last broker does.
#[derive(Clone, Copy, Debug, PartialEq, Eq)]
pub enum End {
    /// With the number of the record that has its rank and the service.
    Delivers(u32),
    Error(u32),
}

impl Path {
    pub fn last(&self) -> u32 {
        self.brokers[self.brokers.len() - 1]
    }

    pub fn links(&self) -> usize {
        self.brokers.len() - 1
    }
}

/// The tables are right, and the entry is a rank of the tree.
pub fn path_of(tables: &Tables, entry: u32, nodeid: u32, upstream: bool, topic: &[u8]) -> Path {
    let service = topic.split(|&byte| byte == b'.').next().unwrap();
    let registers = |rank: u32| record_number(tables, rank, service);
    let from_entry = chain(tables, entry);
    if nodeid == u32::MAX {
        up_to_nearest(&from_entry, registers)
    } else if upstream {
        up_to_nearest(&from_entry, |rank| {
            registers(rank).filter(|_| rank != nodeid)
        })
    } else if (nodeid as usize) < tables.tree.len() / 4 {
        let brokers = across(&from_entry, &chain(tables, nodeid));
        let end = end_of(registers(nodeid));
        Path { brokers, end }
    } else {
        Path {
            brokers: vec![entry],
            end: End::Error(113),
        }
    }
}

/// What the last broker does, if this is the record by which it serves.
fn end_of(record: Option<u32>) -> End {
    record.map_or(End::Error(38), End::Delivers)
}

/// The rank, its parent, and so on to rank 0.
pub fn chain(tables: &Tables, rank: u32) -> Vec<u32> {
    let mut ranks = vec![rank];
    let mut at = rank as usize;
    while at != 0 {
        let parent = &tables.tree[4 * at..4 * at + 4];
        let parent = u32::from_be_bytes(parent.try_into().unwrap());
        ranks.push(parent);
        at = parent as usize;
    }
    ranks
}

/// Up a chain to the first rank that serves, itself included, or else to its end.
fn up_to_nearest(chain: &[u32], serves: impl Fn(u32) -> Option<u32>) -> Path {
    let nearest = chain.iter().position(|&rank| serves(rank).is_some());
    let last = nearest.unwrap_or(chain.len() - 1);
    Path {
        brokers: chain[..=last].to_vec(),
        end: end_of(serves(chain[last])),
    }
}

/// Up one chain to the first rank that is in the other as well, and down that.
fn across(up: &[u32], down: &[u32]) -> Vec<u32> {
    let meet = |rank: &u32| down.iter().position(|other| other == rank);
    let top = up.iter().position(|rank| meet(rank).is_some()).unwrap();
    let below = &down[..meet(&up[top]).unwrap()];
    up[..=top]
        .iter()
        .chain(below.iter().rev())
        .copied()
        .collect()
}

/// The number of the record with this rank and name, counted from 0.
fn record_number(tables: &Tables, rank: u32, service: &[u8]) -> Option<u32> {
    let is_it = |record: &[u8]| {
        let len = record[4] as usize;
        record[..4] == rank.to_be_bytes() && record[5..5 + len] == *service
    };
    let at = tables.services.chunks(32).position(is_it)?;
    Some(at as u32)
}
