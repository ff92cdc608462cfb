//! The checks of the floor's tables: tree, services and identities.

use std::collections::HashSet;

use crate::frame::{is_route, number_at, Refusal, ROUTE_LEN};

pub const MAX_RANKS: usize = 1_024;
pub const MAX_DEPTH: u8 = 16;
pub const MAX_SERVICES: usize = 1_024;
pub const SERVICE_LEN: usize = 32;
/// Rank and name length stand in front of a service's name.
pub const NAME_AT: usize = 5;
pub const MAX_NAME: usize = SERVICE_LEN - NAME_AT;
/// Rank 0 has no parent.
pub const NO_PARENT: u32 = 4_294_967_295;

/// A depth that is not known yet. Above any depth that a tree may have.
const UNKNOWN: u8 = u8::MAX;

/// The depths of a right tree.
pub struct Tree {
    ranks: usize,
    depths: [u8; MAX_RANKS],
}

impl Tree {
    pub fn ranks(&self) -> usize {
        self.ranks
    }

    pub fn depths(&self) -> &[u8] {
        &self.depths[..self.ranks]
    }

    /// Each rank climbs to the nearest one whose depth is known, so no link is crossed twice.
    pub fn new(tree: &[u8]) -> Result<Tree, Refusal> {
        let (parents, odd) = (tree.chunks_exact(4), tree.len() % 4);
        let ranks = parents.len();
        if odd != 0 || ranks == 0 || ranks > MAX_RANKS || number_at(tree, 0) != NO_PARENT {
            return Err(Refusal::WrongTree);
        }
        let mut depths = [UNKNOWN; MAX_RANKS];
        depths[0] = 0;
        for rank in 1..ranks {
            climb(tree, &mut depths[..ranks], rank).ok_or(Refusal::WrongTree)?;
        }
        Ok(Tree { ranks, depths })
    }
}

/// Fills in the depths from `rank` up to the first ancestor that has one. None if a parent is
/// outside the tree or the climb is too long, as it is in a ring.
fn climb(tree: &[u8], depths: &mut [u8], rank: usize) -> Option<()> {
    let mut path = [0; MAX_DEPTH as usize];
    let mut links = 0;
    let mut at = rank;
    while *depths.get(at)? == UNKNOWN {
        *path.get_mut(links)? = at;
        links += 1;
        at = number_at(tree, 4 * at) as usize;
    }
    let mut depth = depths[at];
    for &below in path[..links].iter().rev() {
        depth += 1;
        if depth > MAX_DEPTH {
            return None;
        }
        depths[below] = depth;
    }
    Some(())
}

/// Writes one depth a rank to the front of `depths` and tells how many.
pub fn check_tree(tree: &[u8], depths: &mut [u8]) -> Result<usize, Refusal> {
    let checked = Tree::new(tree)?;
    depths
        .get_mut(..checked.ranks)
        .ok_or(Refusal::OutputTooShort)?
        .copy_from_slice(checked.depths());
    Ok(checked.ranks)
}

pub fn check_services(tree: &[u8], services: &[u8]) -> Result<(), Refusal> {
    services_fit(services, Tree::new(tree)?.ranks)
}

/// Whether these are right services in a tree of so many ranks.
pub fn services_fit(services: &[u8], ranks: usize) -> Result<(), Refusal> {
    let records = services.chunks_exact(SERVICE_LEN);
    if !records.remainder().is_empty() || records.len() > MAX_SERVICES {
        return Err(Refusal::WrongServices);
    }
    let mut seen = HashSet::with_capacity(records.len());
    for record in records {
        // The padding is zero, so equal rank and name means equal bytes.
        if !is_service(record, ranks) || !seen.insert(record) {
            return Err(Refusal::WrongServices);
        }
    }
    Ok(())
}

fn is_service(record: &[u8], ranks: usize) -> bool {
    let name_len = record[4] as usize;
    if number_at(record, 0) as usize >= ranks || !(1..=MAX_NAME).contains(&name_len) {
        return false;
    }
    let (name, padding) = record[NAME_AT..].split_at(name_len);
    name.iter().all(|&byte| byte != 0 && byte != b'.') && padding.iter().all(|&byte| byte == 0)
}

pub fn check_identities(tree: &[u8], identities: &[u8]) -> Result<(), Refusal> {
    identities_fit(identities, Tree::new(tree)?.ranks)
}

/// Whether these are right identities in a tree of so many ranks.
pub fn identities_fit(identities: &[u8], ranks: usize) -> Result<(), Refusal> {
    if identities.len() != ranks * ROUTE_LEN {
        return Err(Refusal::WrongIdentities);
    }
    let mut seen = HashSet::with_capacity(ranks);
    for identity in identities.chunks_exact(ROUTE_LEN) {
        if !is_route(identity) || !seen.insert(identity) {
            return Err(Refusal::WrongIdentities);
        }
    }
    Ok(())
}
