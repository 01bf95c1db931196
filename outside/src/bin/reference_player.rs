//! The model as a player of standard input, to try the comparer on.
//!
//! With the environment variable `OUTSIDE_FAULT` set to a name listed in
//! `outside::faults`, it plays with that fault.

use std::io::{self, Read, Write};
use std::process::ExitCode;

use outside::faults::{faults, play_with_fault};
use outside::model::play;

fn main() -> ExitCode {
    let mut text = Vec::new();
    if let Err(error) = io::stdin().read_to_end(&mut text) {
        eprintln!("{error}");
        return ExitCode::from(2);
    }
    let output = match std::env::var("OUTSIDE_FAULT") {
        Err(_) => play(&text),
        Ok(name) => match play_with_fault(&name, &text) {
            Some(output) => output,
            None => {
                let names: Vec<&str> = faults().map(|(name, _)| name).collect();
                eprintln!("no such fault: {name}\nthere are: {}", names.join(", "));
                return ExitCode::from(2);
            }
        },
    };
    match io::stdout().write_all(&output) {
        Ok(()) => ExitCode::SUCCESS,
        Err(_) => ExitCode::from(2),
    }
}
