//! Times players and the model on the same long texts.

use std::fs::{self, File};
use std::io::{self, BufWriter, Write};
use std::path::{Path, PathBuf};
use std::process::{Command, Stdio};
use std::sync::atomic::{AtomicUsize, Ordering};
use std::thread;
use std::time::Duration;

use crate::random::Random;
use crate::rigs::Lists;
use crate::schedule::{write_text, Schedule};

/// How many folders this process has made.
static FOLDERS: AtomicUsize = AtomicUsize::new(0);

/// A folder for the texts and outputs, taken away at the end.
pub(crate) struct Folder(PathBuf);

impl Folder {
    pub(crate) fn new(name: &str) -> Result<Folder, String> {
        let (process, count) = (std::process::id(), FOLDERS.fetch_add(1, Ordering::Relaxed));
        let path = std::env::temp_dir().join(format!("outside-{name}-{process}-{count}"));
        fs::create_dir_all(&path).map_err(|error| format!("{}: {error}", path.display()))?;
        Ok(Folder(path))
    }

    pub(crate) fn file(&self, name: &str) -> PathBuf {
        self.0.join(name)
    }
}

impl Drop for Folder {
    fn drop(&mut self) {
        let _ = fs::remove_dir_all(&self.0);
    }
}

/// A program that plays the text on its standard input, in one thread.
#[derive(Clone, Debug)]
pub struct Program {
    /// What it is called in the lines printed.
    pub name: &'static str,
    /// Its file.
    pub file: PathBuf,
    /// The words it is called with.
    pub words: &'static [&'static str],
}

/// Measures a tenth of the events, then all of them, on each rig. The programs,
/// the last of which is the model, play in turn, backwards in every other round;
/// then each is compared with those after it. Gives whether all outputs were
/// equal.
pub fn measure(
    programs: &[Program],
    rigs: &[(String, Lists)],
    events: usize,
    rounds: usize,
    seed: u64,
) -> Result<bool, String> {
    let folder = Folder::new("measure")?;
    println!("seed {seed}, {rounds} rounds, files in {}", folder.0.display());
    for Program { name, file, .. } in programs {
        println!("{name:<6}  {}", file.display());
    }
    let text = folder.file("text");
    let mut all_equal = true;
    for (name, lists) in rigs {
        for count in [events / 10, events] {
            write_long_text(&text, lists, count, seed).map_err(|error| error.to_string())?;
            let mut rows: Vec<Row> = programs.iter().map(|program| Row::new(program, &folder)).collect();
            let mut equal = true;
            for round in 0..rounds.max(1) {
                for place in 0..rows.len() {
                    let place = if round % 2 == 0 { rows.len() - 1 - place } else { place };
                    let row = &mut rows[place];
                    row.times.push(time(row.program, &text, &row.output)? / count.max(1) as f64);
                }
                equal &= same(&rows).map_err(|error| error.to_string())?;
            }
            // Counting is slow: not for the long text.
            if count < events {
                for row in &mut rows {
                    row.count = instructions(row.program, &text).map(|number| number / count.max(1) as f64);
                }
            }
            let model = &rows[rows.len() - 1];
            let accepted = accepted(&model.output).map_err(|error| error.to_string())?;
            let outcome = if equal { "all outputs are equal" } else { "THE OUTPUTS DIFFER" };
            println!("{name}, {count} events, {accepted} accepted: {outcome}");
            show(&rows);
            all_equal &= equal;
        }
    }
    println!("ns: nanoseconds of processor time for each event; instructions: of each event");
    Ok(all_equal)
}

/// What is measured of a program on one text.
struct Row<'a> {
    program: &'a Program,
    output: PathBuf,
    /// Nanoseconds for an event, in each round.
    times: Vec<f64>,
    /// Instructions of an event, where they were counted.
    count: Option<f64>,
}

impl Row<'_> {
    fn new<'a>(program: &'a Program, folder: &Folder) -> Row<'a> {
        Row { program, output: folder.file(program.name), times: Vec::new(), count: None }
    }

    fn best(&self) -> f64 {
        self.times.iter().copied().fold(f64::INFINITY, f64::min)
    }
}

fn show(rows: &[Row]) {
    for row in rows {
        let [_, median, _] = quarters(row.times.clone());
        print!("  {:<6}  median {median:>7.1} ns  best {:>7.1} ns", row.program.name, row.best());
        println!("{}", row.count.map_or(String::new(), |count| format!("  {count:>7.1} instructions")));
    }
    for (place, row) in rows.iter().enumerate() {
        for other in &rows[place + 1..] {
            let ratios = row.times.iter().zip(&other.times).map(|(time, other)| time / other);
            let [low, median, high] = quarters(ratios.collect());
            let best = row.best() / other.best();
            print!("  {:<6} to {:<6}  median {median:.3}", row.program.name, other.program.name);
            print!(" (half of the rounds {low:.3} to {high:.3})  best {best:.3}");
            let counts = row.count.zip(other.count);
            println!("{}", counts.map_or(String::new(), |(a, b)| format!("  instructions {:.4}", a / b)));
        }
    }
}

/// The lower quartile, the median and the upper quartile.
fn quarters(mut numbers: Vec<f64>) -> [f64; 3] {
    numbers.sort_by(f64::total_cmp);
    let last = numbers.len() - 1;
    [1, 2, 3].map(|quarter| {
        let (place, part) = (last * quarter / 4, (last * quarter % 4) as f64 / 4.0);
        numbers[place] + part * (numbers[last.min(place + 1)] - numbers[place])
    })
}

fn write_long_text(path: &Path, lists: &Lists, events: usize, seed: u64) -> io::Result<()> {
    let mut file = BufWriter::new(File::create(path)?);
    write_text(lists, Schedule::busy(Random::new(seed)), events, &mut file)?;
    file.flush()
}

/// The processor time of a program from its start to its end, in nanoseconds.
fn time(program: &Program, text: &Path, output: &Path) -> Result<f64, String> {
    let problem = |error| format!("{}: {error}", program.file.display());
    let mut child = Command::new(&program.file)
        .args(program.words)
        .stdin(File::open(text).map_err(problem)?)
        .stdout(File::create(output).map_err(problem)?)
        .stderr(Stdio::null())
        .spawn()
        .map_err(problem)?;
    // Linux keeps the times of a child that has ended (mode Z) until `wait`.
    let about = |name| {
        let path = format!("/proc/{}/{name}", child.id());
        fs::read_to_string(&path).map_err(|error| format!("{path}: {error}"))
    };
    while !about("stat")?.contains(") Z ") {
        thread::sleep(Duration::from_millis(1));
    }
    let times = about("schedstat")?;
    let status = child.wait().map_err(problem)?;
    if !status.success() {
        return Err(format!("{} ended with {status}", program.file.display()));
    }
    let first = times.split(' ').next().and_then(|word| word.parse().ok());
    first.ok_or(format!("{times:?} is no schedstat"))
}

/// The instructions of a whole run, counted by valgrind where it is there.
fn instructions(program: &Program, text: &Path) -> Option<f64> {
    // From these sizes on, the C library fills and copies by an instruction
    // that valgrind counts once for each byte.
    let tunables = ["stosb", "movsb"].map(|name| format!("glibc.cpu.x86_rep_{name}_threshold=1000000000"));
    let run = Command::new("valgrind")
        .args(["--tool=cachegrind", "--cache-sim=no", "--cachegrind-out-file=/dev/null"])
        .arg(&program.file)
        .args(program.words)
        .env("GLIBC_TUNABLES", tunables.join(":"))
        .stdin(File::open(text).ok()?)
        .stdout(Stdio::null())
        .stderr(Stdio::piped())
        .output()
        .ok()?;
    let said = String::from_utf8(run.stderr).ok().filter(|_| run.status.success())?;
    let number = said.split_once("refs:")?.1.lines().next()?;
    number.trim().replace(',', "").parse().ok()
}

fn same(rows: &[Row]) -> io::Result<bool> {
    let first = fs::read(&rows[0].output)?;
    for row in &rows[1..] {
        if fs::read(&row.output)? != first {
            return Ok(false);
        }
    }
    Ok(true)
}

/// How many events were accepted, by the lines printed for them.
fn accepted(output: &Path) -> io::Result<usize> {
    Ok(String::from_utf8_lossy(&fs::read(output)?).matches(" code=0 ").count())
}

#[cfg(test)]
mod tests {
    use super::*;

    #[test]
    fn quarters_are_between_neighbours() {
        assert_eq!(quarters(vec![7.0]), [7.0; 3]);
        assert_eq!(quarters(vec![3.0, 1.0]), [1.5, 2.0, 2.5]);
        assert_eq!(quarters(vec![5.0, 1.0, 4.0, 2.0, 3.0]), [2.0, 3.0, 4.0]);
    }
}
