//! The reading of `state` as a program, to try the comparer on.
//!
//! With the environment variable `OUTSIDE_FAULT` set to a name listed in
//! `outside::state_faults`, it answers with that fault. With `OUTSIDE_SCRIPT`
//! set, it has the script's exit status.

use std::fs;
use std::io::{self, Read, Write};
use std::os::unix::ffi::{OsStrExt, OsStringExt};
use std::path::Path;
use std::process::ExitCode;

use outside::state::{answer, Call, Word};
use outside::state_faults::{answer_with_fault, FAULTS};

fn main() -> ExitCode {
    let words: Vec<Vec<u8>> = std::env::args_os().skip(1).map(OsStringExt::into_vec).collect();
    let mut input = Vec::new();
    if io::stdin().read_to_end(&mut input).is_err() {
        return ExitCode::from(3);
    }
    let call = Call {
        words: words.iter().enumerate().map(|(place, word)| understood(place, word)).collect(),
        input,
    };
    let printed = match std::env::var("OUTSIDE_FAULT") {
        Err(_) => answer(&call).printed(),
        Ok(name) => match answer_with_fault(&name, &call) {
            Some(printed) => printed,
            None => {
                let names: Vec<&str> = FAULTS.iter().map(|(name, _)| *name).collect();
                eprintln!("no such fault: {name}\nthere are: {}", names.join(", "));
                return ExitCode::from(3);
            }
        },
    };
    let output = io::stdout().write_all(printed.output.as_bytes());
    let errors = io::stderr().write_all(printed.errors.as_bytes());
    match (output.and(errors), std::env::var_os("OUTSIDE_SCRIPT")) {
        (Err(_), _) => ExitCode::from(3),
        (Ok(()), None) => ExitCode::SUCCESS,
        (Ok(()), Some(_)) => ExitCode::from(printed.status as u8),
    }
}

/// Every word but the first may name a file.
fn understood(place: usize, word: &[u8]) -> Word {
    let path = Path::new(std::ffi::OsStr::from_bytes(word));
    match fs::read(path) {
        Ok(bytes) if place > 0 => Word::File(bytes),
        _ => Word::Plain(word.to_vec()),
    }
}
