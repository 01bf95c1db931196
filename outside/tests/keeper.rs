//! The calls of `state` tried on the reading itself, right and with planted
//! faults, and on programs that are no `state` at all.

use std::fs;
use std::path::{Path, PathBuf};
use std::process::{Command, Output};
use std::time::Duration;

use outside::state_compare::{compare_state, Plan};
use outside::subject::{Ending, Subject};
use outside::texts::OLD_FAIL;

const REFERENCE: &str = env!("CARGO_BIN_EXE_reference_state");

fn program(binary: &str) -> Subject {
    Subject::new(Path::new(binary), Duration::from_secs(60)).unwrap()
}

/// A folder of its own for each test.
fn folder(name: &str) -> PathBuf {
    let path = Path::new(env!("CARGO_TARGET_TMPDIR")).join(format!("keeper-{name}"));
    let _ = fs::remove_dir_all(&path);
    fs::create_dir_all(&path).unwrap();
    path
}

fn plan(name: &str) -> Plan {
    let folder = folder(name);
    Plan { seed: 3, rounds: 200, script: false, spent: false, misshapen: true, jobs: 2, folder }
}

fn outside(words: &[&str], environment: &[(&str, &str)]) -> Output {
    let mut command = Command::new(env!("CARGO_BIN_EXE_outside"));
    command.args(words).envs(environment.iter().copied()).output().unwrap()
}

fn files(folder: &Path) -> Vec<PathBuf> {
    fs::read_dir(folder).unwrap().map(|entry| entry.unwrap().path()).collect()
}

#[test]
fn the_reading_equals_itself() {
    let folder = folder("equal");
    let words = ["state", REFERENCE, "--rounds", "40", "--seed", "5", "--folder", folder.to_str().unwrap()];
    let output = outside(&words, &[]);
    let printed = String::from_utf8(output.stdout).unwrap();
    assert_eq!(output.status.code(), Some(0), "{printed}");
    assert!(printed.starts_with("seed 5\n"), "{printed}");
    assert!(printed.contains(" calls were equal in "), "{printed}");
    assert!(printed.ends_with("\nall answers are equal\n"), "{printed}");
    assert_eq!(files(&folder), Vec::<PathBuf>::new());
}

#[test]
fn a_difference_is_shown_and_saved() {
    let folder = folder("different");
    let words = ["state", REFERENCE, "--seed", "5", "--folder", folder.to_str().unwrap()];
    let output = outside(&words, &[("OUTSIDE_FAULT", "places-go-on")]);
    let printed = String::from_utf8(output.stdout).unwrap();
    assert_eq!(output.status.code(), Some(1), "{printed}");
    assert!(printed.contains("DIFFERENCE at batch "), "{printed}");
    assert!(printed.contains("    reading: \"step=1 code="), "{printed}");
    assert_eq!(files(&folder).len(), 4, "{printed}");

    // The command that is printed shows it again.
    let again = printed.lines().find_map(|line| line.trim().strip_prefix("again: ")).unwrap();
    let run = |fault: &str| {
        Command::new("/bin/sh").args(["-c", again]).env("OUTSIDE_FAULT", fault).output().unwrap().stdout
    };
    let stored = |end: &str| {
        let path = files(&folder).into_iter().find(|path| path.extension().is_some_and(|found| found == end));
        fs::read(path.unwrap()).unwrap()
    };
    assert_eq!(run("places-go-on"), stored("printed"));
    assert_eq!(run("accepted-is-not-kept"), stored("expected"));
}

#[test]
fn planted_faults_are_found() {
    for fault in [
        "zeros-may-lead",
        "shape-is-not-tested",
        "last-message-is-not-written",
        "earlier-rule",
        "fail-may-have-the-number-0",
        "fail-needs-a-number",
        "fail-number-is-not-kept",
        "fail-number-is-not-written",
        "fail-without-number-is-dropped",
        "any-fail-counts",
        "fail-with-a-later-number-counts",
        "places-go-on",
        "lines-count-the-head",
        "stop-14-says-a-line",
        "usage-to-standard-output",
        "sets-may-miss",
        "nested-sets-are-read",
        "a-set-around-an-earlier-one-is-read",
        "a-set-inside-an-earlier-one-is-read",
        "equal-sets-are-not-read",
        "nested-sets-are-saved",
        "nested-sets-give-17-for-14",
    ] {
        let subject = program(REFERENCE).with("OUTSIDE_FAULT", fault);
        assert_eq!(compare_state(&subject, &plan("faults")), Ok(false), "{fault}");
    }
}

fn present() -> Subject {
    program(REFERENCE)
}

fn earlier() -> Subject {
    program(REFERENCE).with("OUTSIDE_FAULT", "earlier-rule")
}

/// What a program prints for these words and this input.
fn called(subject: Subject, words: &[&[u8]], input: &str) -> String {
    let words: Vec<Vec<u8>> = words.iter().map(|word| word.to_vec()).collect();
    let called = subject.exchange(&words, input.as_bytes(), usize::MAX, 10_000).unwrap();
    String::from_utf8(called.output).unwrap()
}

/// One run, saved before its last event by either version.
#[test]
fn a_text_of_the_version_before_is_gone_on_with() {
    let file = folder("before").join("saved");
    let name = file.to_str().unwrap().as_bytes().to_vec();
    let (before, last) = OLD_FAIL.split_at(OLD_FAIL.len() - "move=1,3\n".len());
    for (by, fail, flying) in [(earlier(), "message=5,1,3\n", 5), (present(), "message=5,1,3,1\n", 4)] {
        let saved = called(by, &[b"save"], before);
        assert!(saved.contains(fail), "{saved}");
        fs::write(&file, &saved).unwrap();
        assert_eq!(called(present(), &[b"save", &name], ""), saved);
        let line = format!("step=1 code=0 inside=0 waiting=2 flying={flying}\n");
        assert_eq!(called(present(), &[b"play", &name], last), line);
    }
    // What stands in the file now is no text of the version before.
    assert_eq!(called(earlier(), &[b"save", &name], ""), "stop=14\n");
}

/// The version before plays and saves on sets inside others; this one does not,
/// and does not read what that one has saved.
#[test]
fn nested_sets_of_the_version_before_are_turned_down() {
    let file = folder("nested").join("saved");
    let name = file.to_str().unwrap().as_bytes().to_vec();
    for sets in ["set=1\nset=1,2\n", "set=1,2\nset=1\n"] {
        let text = format!("sites=2\n{sets}ask=1\nmove=1,1\n");
        let saved = called(earlier(), &[b"save"], &text);
        assert!(saved.starts_with(&format!("sites=2\n{sets}accepted=2\n")), "{saved}");
        fs::write(&file, &saved).unwrap();
        assert_eq!(called(earlier(), &[b"save", &name], ""), saved);
        assert_eq!(called(present(), &[b"save"], &text), "stop=17 line=3\n");
        assert_eq!(called(present(), &[b"save", &name], ""), "stop=14\n");
        assert_eq!(called(present(), &[b"play", &name], "move=1,1\n"), "stop=14\n");
    }
}

#[test]
fn the_script_has_an_exit_status_and_the_program_has_none() {
    let script = || program(REFERENCE).with("OUTSIDE_SCRIPT", "1");
    let plan = Plan { rounds: 16, ..plan("script") };
    let with_script = Plan { script: true, ..plan.clone() };
    assert_eq!(compare_state(&script(), &with_script), Ok(true));
    assert_eq!(compare_state(&script(), &plan), Ok(false));
    assert_eq!(compare_state(&program(REFERENCE), &with_script), Ok(false));
}

#[test]
fn runs_with_a_misshapen_state_can_be_left_out() {
    let subject = || program(REFERENCE).with("OUTSIDE_FAULT", "misshapen-is-played-on");
    assert_eq!(compare_state(&subject(), &plan("misshapen")), Ok(false));
    let without = Plan { misshapen: false, ..plan("shaped") };
    assert_eq!(compare_state(&subject(), &without), Ok(true));
}

#[test]
fn other_programs_keep_nothing() {
    for other in ["/bin/true", "/bin/cat", "/bin/echo"] {
        assert_eq!(compare_state(&program(other), &plan("other")), Ok(false), "{other}");
    }
}

#[test]
fn words_and_input_are_handed_over() {
    let words = ["-c", "cat; printf %s \"$1\"; printf %s \"$2\" >&2; exit 7", "x", "a b", ""];
    let words: Vec<Vec<u8>> = words.iter().map(|word| word.as_bytes().to_vec()).collect();
    for piece in [1, 3, usize::MAX] {
        let called = program("/bin/sh").exchange(&words, b"in\n\0put", piece, 1_000).unwrap();
        assert_eq!(called.output, b"in\n\0puta b");
        assert_eq!(called.errors, b"");
        assert_eq!(called.ending, Ending::Exited(7));
    }
}
