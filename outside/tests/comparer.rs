//! The comparer tried on the model itself, right and with planted faults.

use std::fs;
use std::path::{Path, PathBuf};
use std::process::Command;
use std::time::Duration;

use outside::compare::{compare, Plan};
use outside::model::{play, Version};
use outside::subject::{Ending, Subject};
use outside::texts::OLD_FAIL;

fn player(binary: &str) -> Subject {
    Subject::new(Path::new(binary), Duration::from_secs(60)).unwrap()
}

fn reference() -> Subject {
    player(env!("CARGO_BIN_EXE_reference_player"))
}

/// A folder of its own for each test.
fn folder(name: &str) -> PathBuf {
    let path = Path::new(env!("CARGO_TARGET_TMPDIR")).join(name);
    let _ = fs::remove_dir_all(&path);
    fs::create_dir_all(&path).unwrap();
    path
}

fn plan(folder: &Path) -> Plan {
    Plan {
        version: Version::Present,
        seed: 3,
        texts: Some(2_000),
        time: None,
        spent: false,
        jobs: 2,
        shrinking: Duration::from_secs(20),
        folder: folder.to_path_buf(),
    }
}

fn files(folder: &Path) -> Vec<PathBuf> {
    fs::read_dir(folder).unwrap().map(|entry| entry.unwrap().path()).collect()
}

#[test]
fn the_model_equals_itself() {
    let folder = folder("equal");
    assert_eq!(compare(&reference(), &plan(&folder)), Ok(true));
    assert_eq!(files(&folder), Vec::<PathBuf>::new());
}

#[test]
fn planted_faults_are_found_and_shrunk() {
    for fault in [
        "inquire-before-reply-is-dropped",
        "any-fail-counts",
        "fail-carries-the-arbiters-clock",
        "line-may-have-97-bytes",
        "last-line-needs-no-end",
        "nested-sets-pass",
        "equal-sets-are-refused",
        "sets-must-be-equally-large",
        "a-set-may-hold-an-earlier-one",
        "a-set-may-lie-in-an-earlier-one",
        "nested-sets-are-neighbours",
        "sets-are-compared-with-the-first",
        "17-names-the-earlier-set",
        "17-goes-by-the-earlier-set",
        "17-names-the-last-set",
        "17-before-3",
        "17-before-2",
        "17-before-11",
    ] {
        let folder = folder(fault);
        let subject = reference().with("OUTSIDE_FAULT", fault);
        assert_eq!(compare(&subject, &plan(&folder)), Ok(false), "{fault}");
        let files = files(&folder);
        assert_eq!(files.len(), 2, "{files:?}");
        let is_small = |path: &&PathBuf| path.to_string_lossy().ends_with("-shrunk.txt");
        let small = fs::read(files.iter().find(is_small).unwrap()).unwrap();
        assert!(small.len() < 1_500, "{} bytes", small.len());
        let played = subject.play(&small, usize::MAX).unwrap();
        assert_ne!(played.output, play(&small));
    }
}

#[test]
fn the_version_before_differs_and_can_be_asked_for() {
    let folder = folder("earlier");
    let earlier = reference().with("OUTSIDE_FAULT", "earlier-rule");
    let with_earlier = Plan { version: Version::Earlier, ..plan(&folder) };
    assert_eq!(compare(&earlier, &with_earlier), Ok(true));
    assert_eq!(compare(&reference(), &with_earlier), Ok(false));
    assert_eq!(compare(&earlier, &plan(&folder)), Ok(false));
}

#[test]
fn one_text_is_played_by_both_versions() {
    let text = folder("both").join("old_fail.txt");
    fs::write(&text, OLD_FAIL).unwrap();
    let last_line = |words: &[&str]| {
        let mut command = Command::new(env!("CARGO_BIN_EXE_outside"));
        let output = command.arg("play").args(words).arg(&text).output().unwrap();
        assert!(output.status.success());
        String::from_utf8(output.stdout).unwrap().lines().last().unwrap().to_string()
    };
    assert_eq!(last_line(&[]), "step=23 code=0 inside=0 waiting=2 flying=4");
    assert_eq!(last_line(&["--earlier"]), "step=23 code=0 inside=0 waiting=2 flying=5");
}

#[test]
fn pieces_do_not_matter_to_the_reference() {
    let text = outside::texts::EXAMPLE.as_bytes();
    for piece in [1, 2, 7, 1_000] {
        let played = reference().play(text, piece).unwrap();
        assert_eq!((played.output, played.ending), (play(text), Ending::Exited(0)));
    }
}

#[test]
fn a_player_that_does_not_end_is_ended() {
    let sleeper = Subject::new(Path::new("/bin/sh"), Duration::from_millis(300)).unwrap();
    let played = sleeper.play(b"exec sleep 5\n", usize::MAX).unwrap();
    assert_eq!(played.ending, Ending::OutOfTime);
}

#[test]
fn a_player_that_prints_on_and_on_is_cut_off() {
    let played = player("/bin/sh").play(b"exec yes\n", usize::MAX).unwrap();
    assert_eq!(played.ending, Ending::Killed);
    assert!(played.output.len() < 1_000);
}

#[test]
fn a_missing_player_is_a_mistake_not_a_difference() {
    assert!(Subject::new(Path::new("/no/such/player"), Duration::ZERO).is_err());
}
