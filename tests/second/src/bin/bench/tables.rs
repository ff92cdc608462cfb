//! The table checks.

use std::hint::black_box;

use second::sample::OwnedTables;
use second::side::{Side, LIBRARY, SECOND};

use crate::floors::{binary, crowded, hostile, nearly_equal};
use crate::turns::{print_own_row, print_row, take_turns};

struct Check {
    name: &'static str,
    run: fn(&Side, &OwnedTables, &mut [u8]),
    bytes: fn(&OwnedTables) -> usize,
}

const TREE: Check = Check {
    name: "check_tree",
    run: check_tree,
    bytes: |floor| floor.tree.len(),
};

const SERVICES: Check = Check {
    name: "check_services",
    run: check_services,
    bytes: |floor| floor.tree.len() + floor.services.len(),
};

const IDENTITIES: Check = Check {
    name: "check_identities",
    run: check_identities,
    bytes: |floor| floor.tree.len() + floor.identities.len(),
};

const ALL: Check = Check {
    name: "all three checks",
    run: check_all,
    bytes: |floor| floor.tree.len() + floor.services.len() + floor.identities.len(),
};

/// `given` are tables of the caller's, made to be slow.
pub fn measure(given: Option<&OwnedTables>) {
    let floors = [128, 1024].map(binary);
    for check in &[TREE, SERVICES, IDENTITIES] {
        measure_check(check, "128 ranks", &floors[0]);
        measure_check(check, "1,024 ranks", &floors[1]);
    }
    measure_check(&SERVICES, "1,024 ranks, all at rank 0", &crowded());
    measure_check(&ALL, "1,024 ranks, 1,024 services", &floors[1]);
    for (input, tables) in &others(given) {
        measure_check(&SERVICES, input, tables);
        measure_check(&IDENTITIES, input, tables);
    }
}

/// The same tables against each other.
pub fn measure_own(given: Option<&OwnedTables>) {
    let floors = [128, 1024].map(binary);
    for check in &[TREE, SERVICES, IDENTITIES] {
        compare(check, "1,024 ranks over 128", &floors[1], &floors[0]);
    }
    for (input, tables) in &others(given) {
        let name = format!("{input} over any 1,024");
        compare(&SERVICES, &name, tables, &floors[1]);
        compare(&IDENTITIES, &name, tables, &floors[1]);
    }
}

/// Tables that are slower than others of their size, or may be.
fn others(given: Option<&OwnedTables>) -> Vec<(&'static str, OwnedTables)> {
    let mut tables = vec![
        ("1,024 that differ in their last bytes", nearly_equal()),
        ("1,024 hostile ones", hostile()),
    ];
    tables.extend(given.map(|given| ("1,024 given ones", given.clone())));
    tables
}

/// One input against another, both by the library.
fn compare(check: &Check, name: &str, slow: &OwnedTables, quick: &OwnedTables) {
    let times = take_turns(runner(check, LIBRARY, slow), runner(check, LIBRARY, quick));
    print_own_row(check.name, name, &times);
}

fn measure_check(check: &Check, input: &str, floor: &OwnedTables) {
    let times = take_turns(runner(check, LIBRARY, floor), runner(check, SECOND, floor));
    print_row(check.name, input, (check.bytes)(floor), &times);
}

fn runner<'a>(check: &Check, side: Side, floor: &'a OwnedTables) -> impl FnMut() + use<'a> {
    let run = check.run;
    let mut depths = vec![0; 1024];
    move || run(&black_box(side), black_box(floor), black_box(&mut depths))
}

fn check_tree(side: &Side, floor: &OwnedTables, depths: &mut [u8]) {
    assert_eq!(side.check_tree(&floor.tree, depths, &mut [0; 4]), 0);
}

fn check_services(side: &Side, floor: &OwnedTables, _: &mut [u8]) {
    assert_eq!(side.check_services(&floor.tree, &floor.services), 0);
}

fn check_identities(side: &Side, floor: &OwnedTables, _: &mut [u8]) {
    assert_eq!(side.check_identities(&floor.tree, &floor.identities), 0);
}

fn check_all(side: &Side, floor: &OwnedTables, depths: &mut [u8]) {
    check_tree(side, floor, depths);
    check_services(side, floor, depths);
    check_identities(side, floor, depths);
}
