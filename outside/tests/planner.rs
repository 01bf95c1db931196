//! The calls of `plan` tried on the reading itself, right and with planted
//! faults, and on programs that are no plan at all.

use std::path::Path;
use std::process::{Command, Output};
use std::time::Duration;

use outside::plan_compare::compare_calls;
use outside::subject::{Ending, Subject};

const REFERENCE: &str = env!("CARGO_BIN_EXE_reference_plan");

fn program(binary: &str) -> Subject {
    Subject::new(Path::new(binary), Duration::from_secs(60)).unwrap()
}

fn outside(words: &[&str], environment: &[(&str, &str)]) -> Output {
    let mut command = Command::new(env!("CARGO_BIN_EXE_outside"));
    command.args(words).envs(environment.iter().copied()).output().unwrap()
}

#[test]
fn the_reading_equals_itself() {
    let output = outside(&["plan", REFERENCE, "--seed", "3"], &[]);
    let printed = String::from_utf8(output.stdout).unwrap();
    assert_eq!(output.status.code(), Some(0), "{printed}");
    let count = outside::calls::all(3).len();
    assert!(printed.contains(&format!("\n{count} calls were equal: ")), "{printed}");
    assert!(printed.ends_with("\n0 calls differed\n"), "{printed}");
    assert!(!printed.contains("DIFFERENCE"), "{printed}");
}

#[test]
fn a_difference_is_shown_and_told_by_the_exit_status() {
    let output = outside(&["plan", REFERENCE], &[("OUTSIDE_FAULT", "product-32-passes")]);
    let printed = String::from_utf8(output.stdout).unwrap();
    assert_eq!(output.status.code(), Some(1), "{printed}");
    assert!(printed.contains(" \"levels\" \"1\" \"1\" \"32\"\n"), "{printed}");
    assert!(printed.contains("    reading: \"code=12\\n\"\n"), "{printed}");
    assert!(printed.contains("    program: \"sites=32\\n\"\n"), "{printed}");
    assert!(printed.ends_with("\n5 calls differed\n"), "{printed}");
}

#[test]
fn planted_faults_are_found() {
    for fault in [
        "sides-have-32-bits",
        "numbers-wrap",
        "zeros-may-lead",
        "long-words-are-cut",
        "code-with-a-remark",
        "usage-to-standard-output",
        "wrong-use-is-silent",
        "last-line-has-no-end",
        "half-is-enough",
        "runs-start-late",
        "runs-stop-late",
        "runs-end-at-the-last-site",
        "votes-judged-before-their-number",
        "vote-100-is-refused",
        "desks-without-votes-are-skipped",
    ] {
        let subject = program(REFERENCE).with("OUTSIDE_FAULT", fault);
        assert_eq!(compare_calls(&subject, false, 1), Ok(false), "{fault}");
    }
}

#[test]
fn the_script_has_an_exit_status_and_the_program_has_none() {
    let script = program(REFERENCE).with("OUTSIDE_SCRIPT", "1");
    assert_eq!(compare_calls(&script, true, 1), Ok(true));
    assert_eq!(compare_calls(&script, false, 1), Ok(false));
    assert_eq!(compare_calls(&program(REFERENCE), true, 1), Ok(false));
}

#[test]
fn other_programs_are_no_plan() {
    for other in ["/bin/true", "/bin/echo"] {
        assert_eq!(compare_calls(&program(other), false, 1), Ok(false), "{other}");
    }
}

#[test]
fn words_are_handed_over_as_they_are() {
    let words = ["-c", "printf %s \"$1\"; printf %s \"$2\" >&2; exit 7", "x", "\u{e9} \n", ""];
    let words: Vec<Vec<u8>> = words.iter().map(|word| word.as_bytes().to_vec()).collect();
    let called = program("/bin/sh").call(&words).unwrap();
    assert_eq!(called.output, "\u{e9} \n".as_bytes());
    assert_eq!(called.errors, b"");
    assert_eq!(called.ending, Ending::Exited(7));
}

#[test]
fn a_program_that_does_not_end_is_ended() {
    let sleeper = Subject::new(Path::new("/bin/sleep"), Duration::from_millis(300)).unwrap();
    assert_eq!(sleeper.call(&[b"5".to_vec()]).unwrap().ending, Ending::OutOfTime);
}

#[test]
fn a_program_that_prints_on_and_on_is_cut_off() {
    let program = program("/bin/sh");
    for line in ["exec yes", "exec yes >&2"] {
        let called = program.call(&[b"-c".to_vec(), line.as_bytes().to_vec()]).unwrap();
        assert_eq!(called.ending, Ending::Killed);
        assert!(called.output.len() + called.errors.len() <= 100_000);
    }
}
