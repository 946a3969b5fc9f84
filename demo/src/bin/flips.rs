//! `flips RECORDING`: flips every bit of the model, one at a time, decodes the recording with each model that is accepted,
//! and counts what comes of it. It takes seconds.

use demo::consequences::Consequences;
use demo::recording;
use demo::words::grouped;
use std::process::ExitCode;
use std::{env, fs};

fn main() -> ExitCode {
    match run(env::args().nth(1)) {
        Ok(()) => ExitCode::SUCCESS,
        Err(why) => {
            eprintln!("flips: {why}");
            ExitCode::FAILURE
        }
    }
}

fn run(recording: Option<String>) -> Result<(), String> {
    let recording = recording.ok_or("usage: flips RECORDING")?;
    let text = fs::read_to_string(&recording).map_err(|why| format!("{recording}: {why}"))?;
    let passages = recording::read(&text).map_err(|why| format!("{recording}: {why}"))?;
    let found = Consequences::of(&passages);
    let lines = [
        (found.refused, "are refused"),
        (
            found.harmless,
            "are accepted, and every passage has the states that it had",
        ),
        (
            found.other_states,
            "are accepted, and some passage has other states, but every fare is the same",
        ),
        (found.other_fares, "are accepted, and some passage pays another fare"),
    ];
    println!(
        "of the flips of one bit in the model, over {} passages:",
        passages.len()
    );
    for (count, what) in lines {
        println!("  {:>7}  {what}", grouped(count));
    }
    Ok(())
}
