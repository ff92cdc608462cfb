//! A floor: the three tables together, checked, and what a broker looks up in them.

use crate::frame::{number_at, Refusal, ROUTE_LEN};
use crate::tables::{identities_fit, services_fit, Tree, MAX_NAME, NAME_AT, SERVICE_LEN};

/// The tables as a caller lends them.
#[derive(Clone, Copy, Debug)]
pub struct Tables<'a> {
    pub tree: &'a [u8],
    pub services: &'a [u8],
    pub identities: &'a [u8],
}

/// Tables that are right. The ranks that its methods take are ranks of the tree.
pub struct Floor<'a> {
    tables: Tables<'a>,
    tree: Tree,
}

impl<'a> Floor<'a> {
    pub fn new(tables: Tables<'a>) -> Result<Floor<'a>, Refusal> {
        let tree = Tree::new(tables.tree)?;
        services_fit(tables.services, tree.ranks())?;
        identities_fit(tables.identities, tree.ranks())?;
        Ok(Floor { tables, tree })
    }

    pub fn ranks(&self) -> usize {
        self.tree.ranks()
    }

    /// None for rank 0.
    pub fn parent(&self, rank: usize) -> Option<usize> {
        (rank != 0).then(|| number_at(self.tables.tree, 4 * rank) as usize)
    }

    pub fn are_neighbours(&self, one: usize, other: usize) -> bool {
        self.parent(one) == Some(other) || self.parent(other) == Some(one)
    }

    pub fn identity(&self, rank: usize) -> &[u8] {
        &self.tables.identities[ROUTE_LEN * rank..ROUTE_LEN * (rank + 1)]
    }

    /// The broker that a route names.
    pub fn rank_of(&self, route: &[u8]) -> Option<usize> {
        let mut identities = self.tables.identities.chunks_exact(ROUTE_LEN);
        identities.position(|identity| identity == route)
    }

    /// The number of the record with which a rank registers a service.
    pub fn record_of(&self, rank: usize, service: &[u8]) -> Option<usize> {
        if service.is_empty() || service.len() > MAX_NAME {
            return None;
        }
        // The padding is zero, so there is only one record that it can be.
        let mut wanted = [0; SERVICE_LEN];
        wanted[..4].copy_from_slice(&(rank as u32).to_be_bytes());
        wanted[4] = service.len() as u8;
        wanted[NAME_AT..NAME_AT + service.len()].copy_from_slice(service);
        let mut records = self.tables.services.chunks_exact(SERVICE_LEN);
        records.position(|record| record == wanted)
    }

    /// The next broker on the tree path from one rank to another: a child if the target lies below
    /// it, else the parent.
    pub fn next_hop(&self, from: usize, target: usize) -> usize {
        let depths = self.tree.depths();
        let mut at = target;
        while depths[at] > depths[from] {
            let above = number_at(self.tables.tree, 4 * at) as usize;
            if above == from {
                return at;
            }
            at = above;
        }
        number_at(self.tables.tree, 4 * from) as usize
    }
}

/// All of a topic before its first period.
pub fn service_of(topic: &[u8]) -> &[u8] {
    let end = topic.iter().position(|&byte| byte == b'.');
    &topic[..end.unwrap_or(topic.len())]
}
