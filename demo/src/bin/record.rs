//! `record [exit]`: writes the simulated recording, as morning.txt holds it, or that of the exit lane, as exit.txt does.

use demo::recording::{write, Passage};
use demo::simulation::{simulated, simulated_exit_lane};
use std::env;
use std::process::ExitCode;

fn main() -> ExitCode {
    let arguments: Vec<String> = env::args().skip(1).collect();
    let words: Vec<&str> = arguments.iter().map(String::as_str).collect();
    match words[..] {
        [] => print("morning", "record", &simulated()),
        ["exit"] => print("passage of an exit lane", "record -- exit", &[simulated_exit_lane()]),
        _ => {
            eprintln!("usage: record [exit]");
            return ExitCode::FAILURE;
        }
    }
    ExitCode::SUCCESS
}

fn print(what: &str, command: &str, passages: &[Passage]) {
    print!(
        "\
# A simulated {what}: no real data.
# Written by `cargo run --release --bin {command}`. Each line: clock time; one byte every 25 ms in hexadecimal, where bit i
# is barrier i, the lowest first, and 1 is broken; who passed.
{}",
        write(passages)
    );
}
