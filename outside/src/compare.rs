//! Plays texts with the model and with another player, and compares.

use std::collections::BTreeMap;
use std::fs;
use std::path::{Path, PathBuf};
use std::sync::atomic::{AtomicBool, AtomicU64, Ordering};
use std::sync::Mutex;
use std::thread;
use std::time::{Duration, Instant};

use crate::census::Census;
use crate::model::{play_by, play_with, Version};
use crate::random::Random;
use crate::shrink::shrink;
use crate::subject::{Ending, Subject};
use crate::texts::{self, Text};

/// What to compare, and for how long.
#[derive(Clone, Debug)]
pub struct Plan {
    /// By which rules the model plays.
    pub version: Version,
    /// The seed of the random texts.
    pub seed: u64,
    /// How many texts to play at most.
    pub texts: Option<u64>,
    /// How long to play at most.
    pub time: Option<Duration>,
    /// Whether the text of more than a million events is among them.
    pub spent: bool,
    /// How many players run at once.
    pub jobs: usize,
    /// How long a failing text may be shrunk.
    pub shrinking: Duration,
    /// Where failing texts are saved.
    pub folder: PathBuf,
}

/// A text on which the two differ.
struct Difference {
    place: u64,
    text: Text,
    piece: usize,
}

/// What was seen while comparing.
#[derive(Default)]
struct Tally {
    texts: u64,
    bytes: u64,
    kinds: BTreeMap<&'static str, u64>,
    steps: BTreeMap<Vec<u8>, u64>,
    stops: BTreeMap<Vec<u8>, u64>,
    endings: BTreeMap<Ending, u64>,
    census: Census,
}

/// Compares until the plan is done or a difference is found. Gives whether
/// all was equal.
pub fn compare(subject: &Subject, plan: &Plan) -> Result<bool, String> {
    println!("seed {}", plan.seed);
    let started = Instant::now();
    let source = Source::new(plan);
    let next = AtomicU64::new(0);
    let stopped = AtomicBool::new(false);
    let tally = Mutex::new(Tally::default());
    let found = Mutex::new(None);
    let problem = Mutex::new(None);

    thread::scope(|scope| {
        for _ in 0..plan.jobs.max(1) {
            scope.spawn(|| loop {
                let place = next.fetch_add(1, Ordering::Relaxed);
                let over = plan.texts.is_some_and(|texts| place >= texts)
                    || plan.time.is_some_and(|time| started.elapsed() >= time);
                if over || stopped.load(Ordering::Relaxed) {
                    break;
                }
                match one_text(subject, &source, place, plan.version, &tally) {
                    Ok(None) => {}
                    Ok(Some(difference)) => {
                        stopped.store(true, Ordering::Relaxed);
                        // Of several found at once, the first text is kept.
                        let mut found = lock(&found);
                        if found.as_ref().is_none_or(|other: &Difference| other.place > place) {
                            *found = Some(difference);
                        }
                    }
                    Err(error) => {
                        stopped.store(true, Ordering::Relaxed);
                        *lock(&problem) = Some(error);
                    }
                }
            });
        }
    });

    if let Some(problem) = lock(&problem).take() {
        return Err(problem);
    }
    lock(&tally).print(started.elapsed());
    let difference = lock(&found).take();
    match difference {
        None => {
            println!("all outputs are equal");
            Ok(true)
        }
        Some(difference) => {
            report(subject, plan, &difference)?;
            Ok(false)
        }
    }
}

pub(crate) fn lock<T>(mutex: &Mutex<T>) -> std::sync::MutexGuard<'_, T> {
    mutex.lock().expect("no thread panics while it holds this")
}

/// The texts by their place: the fixed ones, the spent one, random ones.
struct Source {
    seed: u64,
    fixed: Vec<Text>,
}

impl Source {
    fn new(plan: &Plan) -> Source {
        let mut fixed = Vec::new();
        if plan.spent {
            // First, so that the other player's work goes on beside it.
            fixed.push(texts::spent());
        }
        fixed.extend(texts::fixed());
        Source { seed: plan.seed, fixed }
    }

    /// The text at a place, and the size of the pieces it is written in.
    fn text(&self, place: u64) -> (Text, usize) {
        let mut random = Random::for_place(self.seed, place);
        let fixed = usize::try_from(place).ok().and_then(|place| self.fixed.get(place));
        let text = fixed.cloned().unwrap_or_else(|| texts::random(&mut random));
        let piece = match random.below(4) {
            0 if text.bytes.len() < 3_000 => random.between(1, 7),
            0 | 1 if text.bytes.len() < 300_000 => random.between(50, 300),
            _ => usize::MAX,
        };
        (text, piece)
    }
}

/// Plays one text with both.
fn one_text(
    subject: &Subject,
    source: &Source,
    place: u64,
    version: Version,
    tally: &Mutex<Tally>,
) -> Result<Option<Difference>, String> {
    let (text, piece) = source.text(place);
    let mut census = Census::default();
    let expected = play_with(version, &text.bytes, |rig, event| census.apply(rig, event));
    let played = subject.play(&text.bytes, piece)?;
    lock(tally).note(&text, &expected, played.ending, &census);
    let ended = matches!(played.ending, Ending::Exited(_));
    if ended && played.output == expected {
        Ok(None)
    } else {
        Ok(Some(Difference { place, text, piece }))
    }
}

/// Saves, shrinks and prints a difference.
fn report(subject: &Subject, plan: &Plan, difference: &Difference) -> Result<(), String> {
    let Difference { place, text, piece } = difference;
    println!("DIFFERENCE at text {place} ({})", text.kind);
    let name = format!("failing-{}-{place}", plan.seed);
    save(&plan.folder.join(format!("{name}.txt")), &text.bytes)?;
    let both = Both { subject, version: plan.version, piece: *piece };
    both.print_difference(&text.bytes)?;

    let fails = |text: &[u8]| both.differ(text).unwrap_or(false);
    let start = both.shortened(&text.bytes)?;
    let small = shrink(&start, plan.shrinking, fails);
    println!("shrunk from {} to {} bytes", text.bytes.len(), small.len());
    save(&plan.folder.join(format!("{name}-shrunk.txt")), &small)?;
    both.print_difference(&small)
}

fn save(path: &Path, text: &[u8]) -> Result<(), String> {
    fs::write(path, text).map_err(|error| format!("{}: {error}", path.display()))?;
    println!("saved {}", path.display());
    Ok(())
}

/// The two players, and the size of the pieces a text is written in.
struct Both<'a> {
    subject: &'a Subject,
    version: Version,
    piece: usize,
}

impl Both<'_> {
    fn differ(&self, text: &[u8]) -> Result<bool, String> {
        let played = self.subject.play(text, self.piece)?;
        let ended = matches!(played.ending, Ending::Exited(_));
        Ok(!ended || played.output != play_by(self.version, text))
    }

    /// The text up to the line after which the outputs differ, if it still fails
    /// then: a quick first step for long texts.
    fn shortened(&self, text: &[u8]) -> Result<Vec<u8>, String> {
        let played = self.subject.play(text, self.piece)?;
        let same = first_difference(&play_by(self.version, text), &played.output).0;
        let lines: Vec<&[u8]> = text.split_inclusive(|&byte| byte == b'\n').collect();
        let head = lines.iter().take_while(|line| line.starts_with(b"s")).count();
        let short = lines[..lines.len().min(head + same)].concat();
        if self.differ(&short)? {
            Ok(short)
        } else {
            Ok(text.to_vec())
        }
    }

    fn print_difference(&self, text: &[u8]) -> Result<(), String> {
        let expected = play_by(self.version, text);
        let played = self.subject.play(text, self.piece)?;
        let (line, model, other) = first_difference(&expected, &played.output);
        println!("  first differing line of output: {line}");
        println!("  model:  {}", shown(model));
        println!("  player: {}   ({})", shown(other), played.ending);
        if text.len() <= 600 {
            println!("  text: {}", shown(text));
        }
        Ok(())
    }
}

/// The first line (from 1) in which two outputs differ, and both lines.
pub(crate) fn first_difference<'a>(a: &'a [u8], b: &'a [u8]) -> (usize, &'a [u8], &'a [u8]) {
    let mut a_lines = a.split_inclusive(|&byte| byte == b'\n');
    let mut b_lines = b.split_inclusive(|&byte| byte == b'\n');
    let mut number = 1;
    loop {
        match (a_lines.next(), b_lines.next()) {
            (Some(x), Some(y)) if x == y => number += 1,
            (x, y) => return (number, x.unwrap_or_default(), y.unwrap_or_default()),
        }
    }
}

/// Bytes made visible, at most some hundred of them.
pub(crate) fn shown(bytes: &[u8]) -> String {
    let most = 600;
    let cut = if bytes.len() > most { "…" } else { "" };
    format!("\"{}{cut}\"", bytes[..bytes.len().min(most)].escape_ascii())
}

impl Tally {
    fn note(&mut self, text: &Text, output: &[u8], ending: Ending, census: &Census) {
        self.texts += 1;
        self.bytes += text.bytes.len() as u64;
        *self.kinds.entry(text.kind).or_default() += 1;
        *self.endings.entry(ending).or_default() += 1;
        self.census.add(census);
        for line in output.split(|&byte| byte == b'\n') {
            let mut fields = line.split(|&byte| byte == b' ');
            let first = fields.next().unwrap_or_default();
            if first.starts_with(b"step=") {
                let code = fields.next().unwrap_or_default();
                count(&mut self.steps, code);
            } else if first.starts_with(b"stop=") {
                count(&mut self.stops, first);
            }
        }
    }

    fn print(&self, time: Duration) {
        let rate = self.texts as f64 / time.as_secs_f64();
        println!(
            "{} texts ({} bytes) in {:.1} s, {rate:.0} a second",
            self.texts,
            self.bytes,
            time.as_secs_f64()
        );
        println!("kinds: {}", listed(self.kinds.iter()));
        let visible = |map: &BTreeMap<Vec<u8>, u64>| {
            let named: Vec<(String, u64)> =
                map.iter().map(|(key, count)| (key.escape_ascii().to_string(), *count)).collect();
            listed(named.iter().map(|(key, count)| (key, count)))
        };
        println!("events: {}", visible(&self.steps));
        println!("stops: {}", visible(&self.stops));
        println!("endings: {}", listed(self.endings.iter()));
        print!("rules exercised:\n{}", self.census);
    }
}

fn count(map: &mut BTreeMap<Vec<u8>, u64>, key: &[u8]) {
    match map.get_mut(key) {
        Some(count) => *count += 1,
        None => {
            map.insert(key.to_vec(), 1);
        }
    }
}

fn listed<'a, K: std::fmt::Display + 'a>(items: impl Iterator<Item = (&'a K, &'a u64)>) -> String {
    let items: Vec<String> = items.map(|(key, count)| format!("{key} × {count}")).collect();
    items.join(", ")
}

#[cfg(test)]
mod tests {
    use super::*;

    #[test]
    fn the_first_differing_line_is_found() {
        assert_eq!(first_difference(b"a\nb\n", b"a\nc\n"), (2, &b"b\n"[..], &b"c\n"[..]));
        assert_eq!(first_difference(b"a\n", b"a\nc\n"), (2, &b""[..], &b"c\n"[..]));
        assert_eq!(first_difference(b"a\n", b"a"), (1, &b"a\n"[..], &b"a"[..]));
        assert_eq!(first_difference(b"a", b"a"), (2, &b""[..], &b""[..]));
    }

    #[test]
    fn bytes_are_made_visible() {
        assert_eq!(shown(b"a\n\0\xff"), "\"a\\n\\x00\\xff\"");
    }
}
