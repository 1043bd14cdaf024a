//! A plain program of the commands `run`, `brief`, `make` and `load`, without contracts. What the proved program costs
//! is measured beside it.

mod commands;
mod entry;
mod kernel;
mod made;
mod name;
mod place;
mod script;
mod text;

use commands::{Command, Fault};
use std::env;
use std::process::ExitCode;

fn main() -> ExitCode {
    let words: Result<Vec<String>, _> = env::args_os().skip(1).map(|word| word.into_string()).collect();
    let words = words.unwrap_or_default();
    let words: Vec<&str> = words.iter().map(String::as_str).collect();
    match Command::of(&words).ok_or(Fault::Usage).and_then(Command::perform) {
        Ok(()) => ExitCode::SUCCESS,
        Err(fault) => {
            let (status, what) = fault.status();
            eprintln!("eka2: {what}");
            ExitCode::from(status)
        }
    }
}
