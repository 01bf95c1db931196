//! Runs the program under comparison.

use std::ffi::OsStr;
use std::fmt;
use std::io::{Read, Write};
use std::os::unix::ffi::OsStrExt;
use std::path::{Path, PathBuf};
use std::process::{Child, Command, ExitStatus, Stdio};
use std::sync::mpsc;
use std::thread;
use std::time::Duration;

/// A program that plays the text on its standard input, or answers the words
/// it is called with.
#[derive(Clone, Debug)]
pub struct Subject {
    binary: PathBuf,
    patience: Duration,
    environment: Vec<(String, String)>,
}

/// What came of playing one text.
#[derive(Clone, Debug, PartialEq, Eq)]
pub struct Played {
    /// All it printed.
    pub output: Vec<u8>,
    /// How it ended.
    pub ending: Ending,
}

/// What came of one call.
#[derive(Clone, Debug, PartialEq, Eq)]
pub struct Called {
    /// What it printed to standard output.
    pub output: Vec<u8>,
    /// What it printed to standard error.
    pub errors: Vec<u8>,
    /// How it ended.
    pub ending: Ending,
}

/// The most bytes of a call's output that are read: far more than any answer.
const LONGEST_ANSWER: u64 = 50_000;

/// How a program ended.
#[derive(Clone, Copy, Debug, PartialEq, Eq, PartialOrd, Ord)]
pub enum Ending {
    /// By itself, with this exit code.
    Exited(i32),
    /// By a signal.
    Killed,
    /// Not in time; it was ended.
    OutOfTime,
}

impl fmt::Display for Ending {
    fn fmt(&self, f: &mut fmt::Formatter<'_>) -> fmt::Result {
        match self {
            Ending::Exited(code) => write!(f, "exit code {code}"),
            Ending::Killed => write!(f, "killed by a signal"),
            Ending::OutOfTime => write!(f, "did not end in time"),
        }
    }
}

impl Ending {
    fn of(status: ExitStatus) -> Ending {
        status.code().map_or(Ending::Killed, Ending::Exited)
    }
}

impl Subject {
    /// The player in the given file, which is given so long for each text.
    pub fn new(binary: &Path, patience: Duration) -> Result<Subject, String> {
        let binary = binary.canonicalize().map_err(|error| format!("{}: {error}", binary.display()))?;
        Ok(Subject { binary, patience, environment: Vec::new() })
    }

    /// The same player with an environment variable set.
    pub fn with(mut self, name: &str, value: &str) -> Subject {
        self.environment.push((name.to_string(), value.to_string()));
        self
    }

    /// Its file.
    pub fn binary(&self) -> &Path {
        &self.binary
    }

    /// Plays a text, written to it in pieces of the given size.
    pub fn play(&self, text: &[u8], piece: usize) -> Result<Played, String> {
        let problem = |error| format!("{}: {error}", self.binary.display());
        let mut child = Command::new(&self.binary)
            .envs(self.environment.iter().cloned())
            .stdin(Stdio::piped())
            .stdout(Stdio::piped())
            .stderr(Stdio::null())
            .spawn()
            .map_err(problem)?;
        let (ended, end) = mpsc::channel();
        let input = child.stdin.take().expect("it was piped");
        let printed = child.stdout.take().expect("it was piped");
        // No right output is longer; a player that prints on is cut off.
        let lines = text.iter().filter(|&&byte| byte == b'\n').count();
        let printed = printed.take(100 * (lines as u64 + 2));
        thread::scope(|scope| {
            scope.spawn(move || write_pieces(input, text, piece));
            let reader = scope.spawn(move || all_of(printed, &ended));
            let in_time = end.recv_timeout(self.patience).is_ok();
            let ending = end_child(&mut child, in_time).map_err(problem)?;
            let output = reader.join().expect("the reader does not panic");
            let output = output.map_err(problem)?;
            Ok(Played { output, ending })
        })
    }

    /// Calls it with these words and nothing on its standard input.
    pub fn call(&self, words: &[Vec<u8>]) -> Result<Called, String> {
        self.exchange(words, b"", usize::MAX, LONGEST_ANSWER)
    }

    /// Calls it with these words and this on its standard input, written in
    /// pieces of the given size. So many bytes of its output are read; one that
    /// prints more is cut off.
    pub fn exchange(
        &self,
        words: &[Vec<u8>],
        input: &[u8],
        piece: usize,
        most: u64,
    ) -> Result<Called, String> {
        let problem = |error| format!("{}: {error}", self.binary.display());
        let mut child = Command::new(&self.binary)
            .args(words.iter().map(|word| OsStr::from_bytes(word)))
            .envs(self.environment.iter().cloned())
            .stdin(Stdio::piped())
            .stdout(Stdio::piped())
            .stderr(Stdio::piped())
            .spawn()
            .map_err(problem)?;
        let given = child.stdin.take().expect("it was piped");
        let output = child.stdout.take().expect("it was piped").take(most);
        let errors = child.stderr.take().expect("it was piped").take(most);
        let (ended, end) = mpsc::channel();
        thread::scope(|scope| {
            let ended_too = ended.clone();
            scope.spawn(move || write_pieces(given, input, piece));
            let output = scope.spawn(move || all_of(output, &ended));
            let errors = scope.spawn(move || all_of(errors, &ended_too));
            let in_time = (0..2).all(|_| end.recv_timeout(self.patience).is_ok());
            let ending = end_child(&mut child, in_time).map_err(problem)?;
            let output = output.join().expect("the reader does not panic").map_err(problem)?;
            let errors = errors.join().expect("the reader does not panic").map_err(problem)?;
            Ok(Called { output, errors, ending })
        })
    }
}

/// Writes a text in pieces. A program that stops early may close its input: no
/// fault.
fn write_pieces(mut input: impl Write, text: &[u8], piece: usize) {
    for piece in text.chunks(piece.max(1)) {
        if input.write_all(piece).is_err() {
            break;
        }
    }
}

/// Reads to the end, closes what was read from, and tells that it ended.
fn all_of(mut from: impl Read, ended: &mpsc::Sender<()>) -> std::io::Result<Vec<u8>> {
    let mut bytes = Vec::new();
    let read = from.read_to_end(&mut bytes);
    drop(from);
    let _ = ended.send(());
    read.map(|_| bytes)
}

/// Waits for a child that has closed its output; ends one out of time.
fn end_child(child: &mut Child, in_time: bool) -> std::io::Result<Ending> {
    if !in_time {
        child.kill()?;
        child.wait()?;
        return Ok(Ending::OutOfTime);
    }
    Ok(Ending::of(child.wait()?))
}
