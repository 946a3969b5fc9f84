//! `demo MODEL RECORDING PICTURE [EXIT]`: reads a model file, decodes a recording with it, draws it into a file, and prints
//! what it says; then the recording of an exit lane, where one is named.

use demo::exit_lane::ExitLane;
use demo::morning::Morning;
use demo::stored::Stored;
use demo::{picture, report};
use std::io::{self, Write};
use std::process::ExitCode;
use std::{env, fs};

const USAGE: &str = "usage: demo MODEL RECORDING PICTURE [EXIT]\n";

fn main() -> ExitCode {
    let arguments: Vec<String> = env::args().skip(1).collect();
    let words: Vec<&str> = arguments.iter().map(String::as_str).collect();
    let ended = match words[..] {
        ["-h" | "--help"] => print(USAGE),
        [model, recording, picture] => run(model, recording, picture, None),
        [model, recording, picture, exit] => run(model, recording, picture, Some(exit)),
        _ => Err(USAGE.trim_end().to_string()),
    };
    match ended {
        Ok(()) => ExitCode::SUCCESS,
        Err(why) => {
            eprintln!("demo: {why}");
            ExitCode::FAILURE
        }
    }
}

fn run(model: &str, recording: &str, picture: &str, exit: Option<&str>) -> Result<(), String> {
    let stored = stored(model)?;
    let morning = decoded(recording, |text| Morning::of(text, &stored))?;
    let exit_lane = exit.map(|exit| decoded(exit, ExitLane::of)).transpose()?;
    fs::write(picture, picture::picture(&morning)).map_err(|why| format!("{picture}: {why}"))?;
    let exits = exit_lane.as_ref().map_or(String::new(), report::exits);
    print(&format!("{}{exits}\npicture: {picture}\n", report::report(&morning)))
}

/// The gate's model out of its file; else which file is wrong, and why.
fn stored(model: &str) -> Result<Stored, String> {
    let file = fs::read(model).map_err(|why| format!("{model}: {why}"))?;
    Stored::read(file).map_err(|why| format!("{model}: {why}"))
}

/// What is made of a recording; else which file is wrong, and why.
fn decoded<T>(recording: &str, of: impl FnOnce(&str) -> Result<T, String>) -> Result<T, String> {
    let text = fs::read_to_string(recording).map_err(|why| format!("{recording}: {why}"))?;
    of(&text).map_err(|why| format!("{recording}: {why}"))
}

fn print(text: &str) -> Result<(), String> {
    io::stdout()
        .write_all(text.as_bytes())
        .map_err(|why| format!("printing: {why}"))
}
