//! `compare`: holds the reference against bio, and the proved library against the reference, and prints what it found.
//!
//! `compare [--long] [--seed N]`. The status is 1 where a difference is not on the list of intended ones.

use compare::comparison::{Amount, Comparison};
use reference::model::MOST_SAMPLES;
use std::process::ExitCode;
use std::time::Instant;

const DEFAULT: Amount = Amount {
    models: 2_560,
    paths: 20_480,
    work: 20_000,
    heavy: 400_000,
    viterbi_states: 8,
    sum_states: 2,
    sum_step: 8,
    largest: 1024,
    damaged: 20_000,
    near: 300,
    leaves: 100_000,
    entries: 10,
    files: 8_192,
    rivals: 5_120,
    few_paths: 4_096,
    close: 8_192,
};

const LONG: Amount = Amount {
    models: 12_800,
    paths: 102_400,
    work: 60_000,
    heavy: 1_000_000,
    viterbi_states: 16,
    sum_states: 4,
    sum_step: 2,
    largest: MOST_SAMPLES,
    damaged: 200_000,
    near: 2_000,
    leaves: 1_000_000,
    entries: 100,
    files: 65_536,
    rivals: 51_200,
    few_paths: 65_536,
    close: 65_536,
};

fn main() -> ExitCode {
    let arguments: Vec<String> = std::env::args().skip(1).collect();
    let long = arguments.iter().any(|argument| argument == "--long");
    let seed = seed(&arguments);
    let started = Instant::now();
    println!("seed {seed}");
    let wrong = Comparison::run(seed, if long { &LONG } else { &DEFAULT });
    println!("\n{:.0} seconds", started.elapsed().as_secs_f64());
    match wrong {
        0 => ExitCode::SUCCESS,
        _ => ExitCode::FAILURE,
    }
}

/// The number after `--seed`, else a fixed one.
fn seed(arguments: &[String]) -> u64 {
    let given = arguments.iter().skip_while(|a| *a != "--seed").nth(1);
    given.map_or(20_240_101, |text| text.parse().expect("--seed takes a whole number"))
}
