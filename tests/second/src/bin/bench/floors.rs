//! Floors to measure on.

use second::sample::{service, tree_of, OwnedTables};

use crate::frames::route;

const NO_PARENT: u32 = u32::MAX;

/// A binary tree with one service a rank, of a few names.
pub fn binary(ranks: usize) -> OwnedTables {
    let parents: Vec<u32> = (0..ranks as u32)
        .map(|rank| rank.checked_sub(1).map_or(NO_PARENT, |below| below / 2))
        .collect();
    OwnedTables {
        tree: tree_of(&parents),
        services: (0..ranks as u32)
            .flat_map(|rank| service(rank, name_at(rank).as_bytes()))
            .collect(),
        identities: (0..ranks).flat_map(route).collect(),
    }
}

/// The service that a rank of the binary tree has.
pub fn name_at(rank: u32) -> String {
    format!("service-{}", rank % 10)
}

/// 1,024 different names at one rank.
pub fn crowded() -> OwnedTables {
    OwnedTables {
        services: (0..1024)
            .flat_map(|number| service(0, format!("service-{number}").as_bytes()))
            .collect(),
        ..binary(1024)
    }
}

/// 1,024 services, and as many identities, that are equal but for their last bytes.
pub fn nearly_equal() -> OwnedTables {
    let base = route(0);
    let name = |number: usize| format!("a-name-as-long-as-can-be{number:03x}");
    let identity = |number: usize| [&base[..33], format!("{number:03x}\0").as_bytes()].concat();
    OwnedTables {
        services: (0..1024)
            .flat_map(|number| service(0, name(number).as_bytes()))
            .collect(),
        identities: (0..1024).flat_map(identity).collect(),
        ..binary(1024)
    }
}

/// 1,024 services, and as many identities, made to be slow in the library: they are equal but for their
/// last six characters, and stand in no order; in each chain of its hash that is used there are as
/// many as it compares, and at the end one has one more, so that all have to be put in order as well.
pub fn hostile() -> OwnedTables {
    let base = route(0);
    let name = |number: u32| format!("a-name-as-long-as-can{number:06x}");
    let identity = |number: u32| [&base[..30], format!("{number:06x}\0").as_bytes()].concat();
    OwnedTables {
        services: crowd(|number| service(0, name(number).as_bytes())),
        identities: crowd(identity),
        ..binary(1024)
    }
}

/// Of the records that `make` gives for numbers below 2^24, 1,023 that are nine to a chain, and a
/// tenth of one chain.
fn crowd(make: impl Fn(u32) -> Vec<u8>) -> Vec<u8> {
    let mut used = vec![0; 4096];
    let mut records = Vec::new();
    // Each number once, in no order.
    for number in (0..1u32 << 24).map(|n| n.wrapping_mul(0x9E37_79B1) & 0xFF_FFFF) {
        let record = make(number);
        let chain = chain(&record);
        let last = records.len() == 1023 * record.len();
        if chain < 114 && (used[chain] < 9) != last {
            used[chain] += 1;
            records.extend(record);
            if last {
                break;
            }
        }
    }
    records
}

/// The chain that a record belongs to in the library (crates/table_distinct, `hash`).
fn chain(record: &[u8]) -> usize {
    let word = |at: usize| u32::from_le_bytes(record[at..at + 4].try_into().unwrap());
    let stir = |hash: u32, at: usize| {
        hash.wrapping_mul(2_135_587_861)
            .wrapping_add(word(at).wrapping_mul(1_540_483_477))
            .wrapping_add(word(at + 4))
    };
    let blocks = (0..record.len() / 8).fold(0, |hash, block| stir(hash, 8 * block));
    let mixed = stir(blocks, record.len() - 8);
    (mixed.wrapping_mul(1_540_483_477) >> 20) as usize
}

/// Two chains of 16 below rank 0, 1 to 16 and 17 to 32, and all other ranks below rank 0. Every rank
/// has the service "bench".
pub fn forked(ranks: usize) -> OwnedTables {
    let mut parents: Vec<u32> = (0..33u32).map(|rank| rank.wrapping_sub(1)).collect();
    parents[17] = 0;
    parents.resize(ranks, 0);
    OwnedTables {
        tree: tree_of(&parents),
        services: (0..ranks as u32)
            .flat_map(|rank| service(rank, b"bench"))
            .collect(),
        identities: (0..ranks).flat_map(route).collect(),
    }
}
