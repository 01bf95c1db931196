//! Calls a program `state` many times and compares it with the reading.

use std::collections::BTreeMap;
use std::fs;
use std::path::{Path, PathBuf};
use std::sync::atomic::{AtomicBool, AtomicU64, Ordering};
use std::sync::Mutex;
use std::thread;
use std::time::Instant;

use crate::compare::{first_difference, lock, shown};
use crate::measure::Folder;
use crate::state::{Answer, Call, Word};
use crate::state_calls::{self, Trial};
use crate::subject::{Called, Ending, Subject};

/// What to compare.
#[derive(Clone, Debug)]
pub struct Plan {
    /// The seed of the random rounds.
    pub seed: u64,
    /// How many random rounds there are.
    pub rounds: u64,
    /// Whether the program is the script, which has an exit status.
    pub script: bool,
    /// Whether the run of a million events is among them.
    pub spent: bool,
    /// Whether runs that come to a misshapen state are among them.
    pub misshapen: bool,
    /// How many programs run at once.
    pub jobs: usize,
    /// Where a failing call is saved.
    pub folder: PathBuf,
}

/// With a script, one in so many of the fixed calls is made.
const SCRIPT_STEP: usize = 7;

/// The batches of calls by their place: the fixed ones, then random rounds.
struct Source<'a> {
    fixed: Vec<Trial>,
    plan: &'a Plan,
}

impl Source<'_> {
    fn new(plan: &Plan) -> Source<'_> {
        let mut fixed = Vec::new();
        if plan.script {
            fixed.extend(state_calls::fixed().into_iter().step_by(SCRIPT_STEP));
            fixed.extend(state_calls::unreadable());
        } else {
            fixed.extend(state_calls::fixed());
        }
        if plan.spent {
            fixed.extend(state_calls::spent());
        }
        Source { fixed, plan }
    }

    fn batches(&self) -> u64 {
        self.fixed.len() as u64 + self.plan.rounds
    }

    fn batch(&self, place: u64) -> Vec<Trial> {
        let mut batch = match self.fixed.get(place as usize) {
            Some(trial) => vec![trial.clone()],
            None => state_calls::round(self.plan.seed, place - self.fixed.len() as u64),
        };
        batch.retain(|trial| self.plan.misshapen || !trial.answer.meets_misshapen());
        batch
    }
}

/// What was seen while comparing.
#[derive(Default)]
struct Tally {
    calls: u64,
    lines: u64,
    kinds: BTreeMap<&'static str, [u64; 4]>,
    codes: BTreeMap<String, u64>,
    stops: BTreeMap<String, u64>,
}

/// A call that was answered otherwise than expected.
struct Difference {
    place: u64,
    trial: Trial,
    called: Called,
}

/// Compares until the plan is done or a difference is found. Gives whether
/// all was equal.
pub fn compare_state(subject: &Subject, plan: &Plan) -> Result<bool, String> {
    println!("seed {}", plan.seed);
    let started = Instant::now();
    let source = Source::new(plan);
    let next = AtomicU64::new(0);
    let stopped = AtomicBool::new(false);
    let tally = Mutex::new(Tally::default());
    let found: Mutex<Option<Difference>> = Mutex::new(None);
    let problem = Mutex::new(None);
    let folder = Folder::new("state")?;

    thread::scope(|scope| {
        for job in 0..plan.jobs.max(1) {
            let (source, next, stopped, tally) = (&source, &next, &stopped, &tally);
            let (found, problem, folder) = (&found, &problem, &folder);
            scope.spawn(move || loop {
                let place = next.fetch_add(1, Ordering::Relaxed);
                if place >= source.batches() || stopped.load(Ordering::Relaxed) {
                    break;
                }
                match one_batch(subject, source, place, &folder.file(&format!("saved {job}")), tally) {
                    Ok(None) => {}
                    Ok(Some(difference)) => {
                        stopped.store(true, Ordering::Relaxed);
                        // Of several found at once, the first is kept.
                        let mut found = lock(found);
                        if found.as_ref().is_none_or(|other| other.place > place) {
                            *found = Some(difference);
                        }
                    }
                    Err(error) => {
                        stopped.store(true, Ordering::Relaxed);
                        *lock(problem) = Some(error);
                    }
                }
            });
        }
    });

    if let Some(problem) = lock(&problem).take() {
        return Err(problem);
    }
    lock(&tally).print(started.elapsed().as_secs_f64());
    let difference = lock(&found).take();
    match difference {
        None => {
            println!("all answers are equal");
            Ok(true)
        }
        Some(difference) => {
            report(subject, plan, &difference)?;
            Ok(false)
        }
    }
}

/// Makes the calls of one batch, until one differs.
fn one_batch(
    subject: &Subject,
    source: &Source,
    place: u64,
    file: &Path,
    tally: &Mutex<Tally>,
) -> Result<Option<Difference>, String> {
    for trial in source.batch(place) {
        // Some inputs are written in small pieces.
        let piece = match place % 4 {
            0 if trial.call.input.len() < 3_000 => 3 + place as usize % 60,
            _ => usize::MAX,
        };
        let called = make_call(subject, &trial, piece, file)?;
        if !is_equal(&trial.answer, &called, source.plan.script) {
            return Ok(Some(Difference { place, trial, called }));
        }
        lock(tally).note(&trial);
    }
    Ok(None)
}

/// Makes one call. A file is written for each word that names one.
fn make_call(subject: &Subject, trial: &Trial, piece: usize, file: &Path) -> Result<Called, String> {
    let named = named(&trial.call, file);
    for (path, word) in named.iter().zip(&trial.call.words) {
        if let Word::File(bytes) = word {
            fs::write(path, bytes).map_err(|error| format!("{}: {error}", path.display()))?;
        }
    }
    let words: Vec<Vec<u8>> = named.iter().map(|word| word.as_os_str().as_encoded_bytes().to_vec()).collect();
    // No right answer is longer; a program that prints on is cut off.
    let most = trial.answer.printed().output.len() as u64 + 10_000;
    subject.exchange(&words, &trial.call.input, piece, most)
}

/// The words of a call, its files named after this one.
fn named(call: &Call, file: &Path) -> Vec<PathBuf> {
    let name = |(place, word): (usize, &Word)| match word {
        Word::Plain(word) => PathBuf::from(String::from_utf8_lossy(word).into_owned()),
        Word::File(_) => file.with_extension(place.to_string()),
    };
    call.words.iter().enumerate().map(name).collect()
}

/// How standard error words it is not compared, only whether there is any.
fn is_equal(answer: &Answer, called: &Called, script: bool) -> bool {
    let expected = answer.printed();
    let ending = match called.ending {
        Ending::Exited(status) if script => answer.may_end_with(status),
        ending => ending == Ending::Exited(0),
    };
    called.output == expected.output.as_bytes()
        && called.errors.is_empty() == expected.errors.is_empty()
        && ending
}

/// Saves and prints a difference.
fn report(subject: &Subject, plan: &Plan, difference: &Difference) -> Result<(), String> {
    let Difference { place, trial, called } = difference;
    println!("DIFFERENCE at batch {place} ({})", trial.kind);
    if trial.answer.meets_misshapen() {
        println!("  the run comes to a misshapen state; --no-misshapen leaves such runs out");
    }
    let base = plan.folder.join(format!("state-failing-{}-{place}", plan.seed));
    let put = |path: &Path, bytes: &[u8]| {
        fs::write(path, bytes).map_err(|error| format!("{}: {error}", path.display()))
    };
    let words = named(&trial.call, &base);
    for (path, word) in words.iter().zip(&trial.call.words) {
        if let Word::File(bytes) = word {
            put(path, bytes)?;
        }
    }
    let expected = trial.answer.printed();
    put(&base.with_extension("input"), &trial.call.input)?;
    put(&base.with_extension("expected"), expected.output.as_bytes())?;
    put(&base.with_extension("printed"), &called.output)?;
    let quoted = |word: &Path| format!("'{}'", word.display().to_string().replace('\'', "'\\''"));
    let words: Vec<String> = words.iter().map(|word| quoted(word)).collect();
    let program = subject.binary().display();
    println!("  again: {program} {} < {}", words.join(" "), base.with_extension("input").display());
    println!("  expected and printed: {}, .printed", base.with_extension("expected").display());
    let (line, ours, theirs) = first_difference(expected.output.as_bytes(), &called.output);
    if called.output != expected.output.as_bytes() {
        println!("  first differing line of standard output: {line}");
        println!("    reading: {}", shown(ours));
        println!("    program: {}", shown(theirs));
    }
    println!("  standard error and ending");
    println!("    reading: {}", if expected.errors.is_empty() { "nothing" } else { "something" });
    println!("    program: {}, {}", shown(&called.errors), called.ending);
    Ok(())
}

impl Tally {
    fn note(&mut self, trial: &Trial) {
        self.calls += 1;
        let column = match &trial.answer {
            Answer::Text(_) => 0,
            Answer::Lines(lines) => {
                self.note_lines(lines);
                1
            }
            Answer::Stop(line) => {
                self.note_stop(line.trim_end());
                2
            }
            Answer::Usage | Answer::Unreadable => 3,
        };
        self.kinds.entry(trial.kind).or_default()[column] += 1;
    }

    fn note_lines(&mut self, lines: &str) {
        for line in lines.lines() {
            self.lines += 1;
            match line.split(' ').find(|field| field.starts_with("code=")) {
                Some(code) => *self.codes.entry(code.to_string()).or_default() += 1,
                None => self.note_stop(line),
            }
        }
    }

    fn note_stop(&mut self, line: &str) {
        let code = line.split(' ').next().unwrap_or_default();
        *self.stops.entry(code.to_string()).or_default() += 1;
    }

    fn print(&self, seconds: f64) {
        let total = |column: usize| -> u64 { self.kinds.values().map(|counts| counts[column]).sum() };
        println!("{} calls were equal in {seconds:.1} s: {} with a saved text, {} with lines ({} of them), {} with a stop line alone, {} told on standard error",
            self.calls, total(0), total(1), self.lines, total(2), total(3));
        println!("{:>16} {:>7} {:>7} {:>7} {:>7}", "kind", "text", "lines", "stop", "errors");
        for (kind, [text, lines, stop, errors]) in &self.kinds {
            println!("{kind:>16} {text:>7} {lines:>7} {stop:>7} {errors:>7}");
        }
        let listed = |map: &BTreeMap<String, u64>| -> String {
            let items: Vec<String> = map.iter().map(|(key, count)| format!("{key} × {count}")).collect();
            items.join(", ")
        };
        println!("events: {}", listed(&self.codes));
        println!("stops: {}", listed(&self.stops));
    }
}

#[cfg(test)]
mod tests {
    use super::*;

    fn called(output: &str, errors: &str, code: i32) -> Called {
        Called { output: output.into(), errors: errors.into(), ending: Ending::Exited(code) }
    }

    #[test]
    fn all_that_is_printed_counts() {
        let stop = Answer::Stop("stop=14\n".to_string());
        assert!(is_equal(&stop, &called("stop=14\n", "", 0), false));
        assert!(is_equal(&stop, &called("stop=14\n", "", 0), true));
        assert!(is_equal(&stop, &called("stop=14\n", "", 1), true));
        assert!(!is_equal(&stop, &called("stop=14\n", "", 1), false));
        assert!(!is_equal(&stop, &called("stop=14\n", "", 2), true));
        assert!(!is_equal(&stop, &called("stop=14", "", 0), false));
        assert!(!is_equal(&stop, &called("stop=14\n", "no", 0), false));
        assert!(!is_equal(&Answer::Lines(String::new()), &called("", "", 1), true));
        assert!(is_equal(&Answer::Usage, &called("", "in other words\n", 0), false));
        assert!(is_equal(&Answer::Usage, &called("", "in other words\n", 2), true));
        assert!(!is_equal(&Answer::Usage, &called("", "", 0), false));
        let killed = Called { output: Vec::new(), errors: Vec::new(), ending: Ending::Killed };
        assert!(!is_equal(&Answer::Lines(String::new()), &killed, false));
    }
}
