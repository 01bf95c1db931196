//! The reading of `plan` as a program, to try the comparer on.
//!
//! With the environment variable `OUTSIDE_FAULT` set to a name listed in
//! `outside::plan_faults`, it answers with that fault. With `OUTSIDE_SCRIPT`
//! set, it has the script's exit status.

use std::io::{self, Write};
use std::os::unix::ffi::OsStringExt;
use std::process::ExitCode;

use outside::plan::{answer, Words};
use outside::plan_faults::{answer_with_fault, faults};

fn main() -> ExitCode {
    let words: Words = std::env::args_os().skip(1).map(OsStringExt::into_vec).collect();
    let printed = match std::env::var("OUTSIDE_FAULT") {
        Err(_) => answer(&words).printed(),
        Ok(name) => match answer_with_fault(&name, &words) {
            Some(printed) => printed,
            None => {
                let names: Vec<&str> = faults().map(|(name, _)| name).collect();
                eprintln!("no such fault: {name}\nthere are: {}", names.join(", "));
                return ExitCode::from(3);
            }
        },
    };
    let output = io::stdout().write_all(printed.output.as_bytes());
    let errors = io::stderr().write_all(printed.errors.as_bytes());
    match (output.and(errors), std::env::var_os("OUTSIDE_SCRIPT")) {
        (Err(_), _) => ExitCode::from(3),
        (Ok(()), None) => ExitCode::SUCCESS,
        (Ok(()), Some(_)) => ExitCode::from(printed.status as u8),
    }
}
