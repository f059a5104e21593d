//! Times the library through the C interface beside the independent program: the readers, the calls of
//! a run, and the planner, this also beside the same search in plain Rust. The search for set bytes is timed
//! beside plain Rust alone, the list of processes to install beside the library's planner, and recipes in
//! chapters beside a single one.
//!
//! Run with `cargo run --release --offline -p benches`, followed by `readers`, `runs`, `marks`, `plans`,
//! `installs` or `chapters` for these alone.

mod chapters;
mod installs;
mod marks;
mod plain;
mod plans;
mod readers;
mod runs;

use std::env;
use std::time::{Duration, Instant};

/// The parts of the benchmark by their names.
const PARTS: [(&str, fn()); 6] = [
    ("readers", readers::measure_all),
    ("runs", runs::measure_all),
    ("marks", marks::measure_all),
    ("plans", plans::measure_all),
    ("installs", installs::measure_all),
    ("chapters", chapters::measure_all),
];

/// How long one round takes at least. Short rounds find the quiet moments of a busy machine.
const ROUND: Duration = Duration::from_millis(2);

/// How long a line is measured, and with how many rounds of each program at least.
const MEASURE: Duration = Duration::from_secs(2);
const LEAST_ROUNDS: usize = 7;

/// Makes so many calls and says how long they took.
type Timed<'a> = &'a mut dyn FnMut(usize) -> Duration;

fn main() {
    println!("The library through its C interface, and the independent program on the same bytes.");
    println!(
        "Each line is measured for {} s in rounds of at least {} ms, turn by turn; the best",
        MEASURE.as_secs(),
        ROUND.as_millis()
    );
    println!("round of each counts. Buffers are reused and not cleared between calls.");
    let named: Vec<String> = env::args().skip(1).collect();
    for (name, measure_all) in PARTS {
        if named.is_empty() || named.iter().any(|other| other == name) {
            println!();
            measure_all();
        }
    }
}

/// The best time of a call in nanoseconds: the library's and the independent program's.
fn best_times(both: [Timed; 2]) -> [f64; 2] {
    best_times_of(LEAST_ROUNDS, both)
}

/// The best time of a call for each of several programs, measured in so many rounds of each at least.
fn best_times_of<const N: usize>(least_rounds: usize, mut all: [Timed; N]) -> [f64; N] {
    let calls = all.each_mut().map(|timed| calls_in_a_round(timed));
    let mut best = [f64::INFINITY; N];
    let mut rounds = 0;
    let start = Instant::now();
    while rounds < least_rounds || start.elapsed() < MEASURE {
        rounds += 1;
        for k in 0..N {
            let time = all[k](calls[k]).as_nanos() as f64;
            best[k] = best[k].min(time / calls[k] as f64);
        }
    }
    best
}

/// How many calls last for a round; one at least.
fn calls_in_a_round(timed: &mut dyn FnMut(usize) -> Duration) -> usize {
    let mut calls = 1;
    while timed(calls) < ROUND {
        calls *= 2;
    }
    calls
}
