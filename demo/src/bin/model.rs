//! `model`: writes the file of the gate's model, as model.bin holds it.

use demo::model::Tables;
use std::io::{self, Write};
use std::process::ExitCode;
use wasnugram::model_file;

fn main() -> ExitCode {
    match run() {
        Ok(()) => ExitCode::SUCCESS,
        Err(why) => {
            eprintln!("model: {why}");
            ExitCode::FAILURE
        }
    }
}

fn run() -> Result<(), String> {
    let file = model_file(&Tables::of_the_gate().lend()).map_err(|refused| refused.to_string())?;
    io::stdout().write_all(&file).map_err(|why| format!("writing: {why}"))
}
