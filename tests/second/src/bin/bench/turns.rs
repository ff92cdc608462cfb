//! Both sides in turn, and the rows that come of it.

use std::time::Instant;

/// Both sides take turns in so many short rounds.
pub const ROUNDS: usize = 2_001;
/// About so long is a side's part of a round.
const ROUND_NANOS: u128 = 40_000;

/// Times of one call, in nanoseconds, and the middle one of the rounds' ratios.
pub struct Times {
    least: [f64; 2],
    middle_ratio: f64,
}

pub fn print_head() {
    println!("| call | input | bytes | library | other | ratio | ratio of the least |");
    println!("|---|---|---:|---:|---:|---:|---:|");
}

pub fn print_row(call: &str, input: &str, bytes: usize, times: &Times) {
    let [library, other] = times.least;
    let by_least = library / other;
    let by_median = times.middle_ratio;
    println!(
        "| {call} | {input} | {bytes} | {library:.1} | {other:.1} | {by_median:.2} | {by_least:.2} |"
    );
}

/// The table of what one input takes against another, both by the library.
pub fn print_own_head() {
    println!();
    println!("| call | of the library's times | median |");
    println!("|---|---|---:|");
}

pub fn print_own_row(call: &str, name: &str, times: &Times) {
    println!("| {call} | {name} | {:.2} |", times.middle_ratio);
}

/// Runs both in turn. Each round has one stretch of calls of either, and the one that begins
/// changes from round to round.
pub fn take_turns(mut library: impl FnMut(), mut other: impl FnMut()) -> Times {
    let calls = [
        calls_a_round(usize::MAX, &mut |_| (), &mut |_| library()),
        calls_a_round(usize::MAX, &mut |_| (), &mut |_| other()),
    ];
    play(calls, |_| (), |_| library(), |_| other())
}

/// The same where a call changes what it is lent. Before each stretch `prepare` puts as many of the
/// things right as there will be calls, at most `most`, and that is not timed; a call gets its
/// number. Both sides get the same things, and as many.
pub fn take_prepared_turns(
    most: usize,
    mut prepare: impl FnMut(usize),
    mut library: impl FnMut(usize),
    mut other: impl FnMut(usize),
) -> Times {
    let calls = calls_a_round(most, &mut prepare, &mut library);
    let calls = calls.min(calls_a_round(most, &mut prepare, &mut other));
    play([calls; 2], prepare, library, other)
}

fn play(
    calls: [usize; 2],
    mut prepare: impl FnMut(usize),
    mut library: impl FnMut(usize),
    mut other: impl FnMut(usize),
) -> Times {
    let mut times = [Vec::new(), Vec::new()];
    for round in 0..ROUNDS {
        for turn in 0..2 {
            let which = (round + turn) % 2;
            prepare(calls[which]);
            let start = Instant::now();
            if which == 0 {
                (0..calls[0]).for_each(&mut library);
            } else {
                (0..calls[1]).for_each(&mut other);
            }
            times[which].push(start.elapsed().as_nanos() as f64 / calls[which] as f64);
        }
    }
    let [library, other] = times;
    let mut ratios: Vec<f64> = library.iter().zip(&other).map(|(a, b)| a / b).collect();
    ratios.sort_by(f64::total_cmp);
    let least = |times: Vec<f64>| times.into_iter().fold(f64::INFINITY, f64::min);
    Times {
        least: [least(library), least(other)],
        middle_ratio: ratios[ROUNDS / 2],
    }
}

/// Warms up as well.
fn calls_a_round(
    most: usize,
    prepare: &mut impl FnMut(usize),
    call: &mut impl FnMut(usize),
) -> usize {
    let mut calls = 1;
    loop {
        prepare(calls);
        let start = Instant::now();
        (0..calls).for_each(&mut *call);
        if start.elapsed().as_nanos() >= ROUND_NANOS || calls >= most {
            return calls.min(most);
        }
        calls *= 2;
    }
}
