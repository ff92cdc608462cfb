//! Measures the library against the second program: same input, same shape of call, one run.
//! Prints ratios, library time over second time, as a markdown table.
//!
//!     bench [--services FILE] [--identities FILE] [PART...]
//!
//! The parts are frames, streams, tables, steps, walks, json and commands; without any, all are
//! measured. The files hold tables of 1,024 records that were made to be slow, as for instance all in
//! one chain of a hash.

mod buffers;
mod commands;
#[cfg(feature = "others")]
mod czmq;
mod floors;
mod frames;
mod json;
mod json_inputs;
#[cfg(feature = "others")]
mod others;
mod steps;
mod streams;
mod tables;
mod turns;
mod walks;

use std::env;

use second::sample::OwnedTables;

use turns::{print_head, print_own_head, ROUNDS};

fn main() {
    let words: Vec<String> = env::args().skip(1).collect();
    let (words, given) = given_tables(words);
    let wanted = |part: &str| words.is_empty() || words.iter().any(|word| word == part);
    println!("Buffers are warmed and not cleared before a call. Times in nanoseconds a call;");
    println!("a ratio is the library's time over the other's: the median over {ROUNDS} rounds in");
    println!("which both took turns, and that of the least times, which are the ones shown.");
    println!();
    print_head();
    measure(&wanted, given.as_ref());
    measure_own(&wanted, given.as_ref());
}

/// The library against the others.
fn measure(wanted: &impl Fn(&str) -> bool, given: Option<&OwnedTables>) {
    if wanted("frames") {
        frames::measure();
    }
    if wanted("streams") {
        streams::measure();
    }
    if wanted("steps") {
        steps::measure(given);
    }
    if wanted("walks") {
        walks::measure();
    }
    if wanted("tables") {
        tables::measure(given);
    }
    if wanted("json") {
        json::measure();
    }
    if wanted("commands") {
        commands::measure();
    }
}

/// The library against itself.
fn measure_own(wanted: &impl Fn(&str) -> bool, given: Option<&OwnedTables>) {
    if ["streams", "tables", "walks", "json"]
        .into_iter()
        .any(wanted)
    {
        print_own_head();
    }
    if wanted("streams") {
        streams::measure_own();
    }
    if wanted("tables") {
        tables::measure_own(given);
    }
    if wanted("walks") {
        walks::measure_own();
    }
    if wanted("json") {
        json::measure_own();
    }
}

/// The tables that the arguments name, beside right ones, and the other arguments.
fn given_tables(words: Vec<String>) -> (Vec<String>, Option<OwnedTables>) {
    let mut tables = floors::binary(1024);
    let (mut parts, mut given) = (Vec::new(), false);
    let mut words = words.into_iter();
    while let Some(word) = words.next() {
        let table = match word.as_str() {
            "--services" => &mut tables.services,
            "--identities" => &mut tables.identities,
            _ => {
                parts.push(word);
                continue;
            }
        };
        let file = words.next().expect("a file behind the option");
        *table = std::fs::read(&file).unwrap_or_else(|fault| panic!("{file}: {fault}"));
        given = true;
    }
    (parts, given.then_some(tables))
}
