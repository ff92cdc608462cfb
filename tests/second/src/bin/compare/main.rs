//! Compares the library with the second program, call by call and byte by byte.
//!
//!     compare [--seed N] [--cases N] [--group NAME] [--from N]
//!
//! `--cases` is the number of seeded cases over all seeded groups, or in the one group that
//! `--group` names; by default each group has its own number. `--from` is the number of the first.
//! The last line is the score; the exit status is 1 if a case failed.

mod arena;
mod command_bounds;
mod command_calls;
mod command_changes;
mod command_limits;
mod command_order;
mod command_outputs;
mod command_parts;
mod crash;
mod draft;
mod fault;
mod fault_calls;
mod fault_parts;
mod fault_routes;
mod faults;
mod json_bytes;
mod json_calls;
mod json_depth;
mod json_documents;
mod json_places;
mod json_rules;
mod json_short;
mod json_sizes;
mod json_text;
mod long_commands;
mod long_json;
mod long_lengths;
mod long_steps;
mod long_streams;
mod messages;
mod pages;
mod paper;
mod paper_floor;
mod reader_bounds;
mod reader_order;
mod repairs;
mod repairs_of_one;
mod seeded;
mod seeded_commands;
mod seeded_json;
mod seeded_steps;
mod seeded_strays;
mod seeded_streams;
mod seeded_tables;
mod seeded_walks;
mod step_bounds;
mod step_calls;
mod step_order;
mod step_rules;
mod stream_bounds;
mod stream_calls;
mod stream_limits;
mod stream_parts;
mod table_bounds;
mod table_calls;
mod tester;
mod two_numbers;
mod upstream;
mod walk_bounds;
mod walk_calls;
mod walk_limits;
mod walk_paper;
mod walk_runs;
mod writer_bounds;
mod writer_order;

use std::env;
use std::process::exit;

use seeded::Run;
use tester::Tester;

const DEFAULT_SEED: u64 = 1;
/// Seeded cases for each weight of a group.
const CASES_A_WEIGHT: u64 = 45_000;

struct Group {
    name: &'static str,
    /// Its part of the seeded cases; 0 if it has none.
    weight: u64,
    run: fn(&mut Tester, &Run),
}

fn group(name: &'static str, weight: u64, run: fn(&mut Tester, &Run)) -> Group {
    Group { name, weight, run }
}

fn groups() -> Vec<Group> {
    let all = [
        frame_groups(),
        stream_groups(),
        table_groups(),
        step_groups(),
        walk_groups(),
        json_groups(),
        command_groups(),
    ];
    all.into_iter().flatten().collect()
}

fn frame_groups() -> Vec<Group> {
    vec![
        group("paper", 0, |tester, _| paper::run(tester)),
        group("reader-bounds", 0, |tester, _| reader_bounds::run(tester)),
        group("reader-order", 0, |tester, _| reader_order::run(tester)),
        group("fault", 0, |tester, _| fault::run(tester)),
        group("writer-bounds", 0, |tester, _| writer_bounds::run(tester)),
        group("writer-order", 0, |tester, _| writer_order::run(tester)),
        group("long-lengths", 0, |tester, _| long_lengths::run(tester)),
        group("structured", 8, seeded::structured),
        group("damaged", 8, seeded::damaged),
        group("random", 8, seeded::random),
    ]
}

fn stream_groups() -> Vec<Group> {
    vec![
        group("stream-bounds", 0, |tester, _| stream_bounds::run(tester)),
        group("stream-limits", 0, |tester, _| stream_limits::run(tester)),
        group("streams", 8, seeded_streams::streams),
    ]
}

fn table_groups() -> Vec<Group> {
    use table_bounds::{identities, services, trees};
    vec![
        group("tree-bounds", 0, |tester, _| trees(tester)),
        group("service-bounds", 0, |tester, _| services(tester)),
        group("identity-bounds", 0, |tester, _| identities(tester)),
        group("trees", 1, seeded_tables::trees),
        group("services", 1, seeded_tables::services),
        group("identities", 1, seeded_tables::identities),
    ]
}

fn step_groups() -> Vec<Group> {
    vec![
        group("step-rules", 0, |tester, _| step_rules::run(tester)),
        group("step-bounds", 0, |tester, _| step_bounds::run(tester)),
        group("step-order", 0, |tester, _| step_order::run(tester)),
        group("steps", 3, seeded_steps::steps),
    ]
}

fn walk_groups() -> Vec<Group> {
    vec![
        group("walk-paper", 0, |tester, _| walk_paper::run(tester)),
        group("upstream", 0, |tester, _| upstream::run(tester)),
        group("walk-bounds", 0, |tester, _| walk_bounds::run(tester)),
        group("walk-limits", 0, |tester, _| walk_limits::run(tester)),
        group("walks", 5, seeded_walks::walks),
        group("stray-walks", 1, seeded_strays::strays),
    ]
}

fn json_groups() -> Vec<Group> {
    vec![
        group("json-rules", 0, |tester, _| json_rules::run(tester)),
        group("json-bytes", 0, |tester, _| json_bytes::run(tester)),
        group("json-text", 0, |tester, _| json_text::run(tester)),
        group("json-depth", 0, |tester, _| json_depth::run(tester)),
        group("json-numbers", 0, |tester, _| json_short::numbers(tester)),
        group("json-short", 0, |tester, _| json_short::run(tester)),
        group("json-places", 0, |tester, _| json_places::run(tester)),
        group("json-sizes", 0, |tester, _| json_sizes::run(tester)),
        group("json", 3, seeded_json::documents),
    ]
}

fn command_groups() -> Vec<Group> {
    vec![
        group("command-bounds", 0, |tester, _| command_bounds::run(tester)),
        group("command-outputs", 0, |tester, _| {
            command_outputs::run(tester)
        }),
        group("command-order", 0, |tester, _| command_order::run(tester)),
        group("commands", 4, seeded_commands::commands),
    ]
}

struct Options {
    seed: u64,
    cases: Option<u64>,
    from: u64,
    group: Option<String>,
}

fn main() {
    let options = options().unwrap_or_else(|fault| {
        eprintln!("{fault}");
        eprintln!("usage: compare [--seed N] [--cases N] [--group NAME] [--from N]");
        exit(2);
    });
    let wanted: Vec<Group> = groups()
        .into_iter()
        .filter(|group| {
            options
                .group
                .as_deref()
                .is_none_or(|name| name == group.name)
        })
        .collect();
    if wanted.is_empty() {
        let names: Vec<_> = groups().iter().map(|group| group.name).collect();
        eprintln!("the groups are {}", names.join(", "));
        exit(2);
    }
    let weights: u64 = wanted.iter().map(|group| group.weight).sum();
    crash::watch();
    let cases = options.cases.unwrap_or(CASES_A_WEIGHT * weights);
    let mut tester = Tester::new();
    println!("seed {}, {cases} seeded cases", options.seed);
    for group in wanted {
        let run = Run {
            seed: options.seed,
            from: options.from,
            cases: (cases * group.weight).div_ceil(weights.max(1)),
        };
        (group.run)(&mut tester, &run);
    }
    let (passed, failed) = tester.score();
    println!("{passed} passed, {failed} failed");
    exit((failed > 0) as i32);
}

fn options() -> Result<Options, String> {
    let mut options = Options {
        seed: DEFAULT_SEED,
        cases: None,
        from: 0,
        group: None,
    };
    let mut words = env::args().skip(1);
    while let Some(word) = words.next() {
        let value = words.next().ok_or(format!("{word} needs a value"))?;
        let number = || {
            value
                .parse::<u64>()
                .map_err(|_| format!("{value} is no number"))
        };
        match word.as_str() {
            "--seed" => options.seed = number()?,
            "--cases" => options.cases = Some(number()?),
            "--from" => options.from = number()?,
            "--group" => options.group = Some(value),
            _ => return Err(format!("{word} is not known")),
        }
    }
    Ok(options)
}
