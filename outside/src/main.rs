//! The commands: compare, play, plan, state, generate and measure.

use std::fs;
use std::io::{self, BufWriter, Read, Write};
use std::path::{Path, PathBuf};
use std::process::ExitCode;
use std::time::{Duration, SystemTime};

use outside::compare::{compare, Plan};
use outside::measure::{measure, Program};
use outside::model::{play_by, Rig, Version};
use outside::options::Options;
use outside::plan;
use outside::plan_compare::compare_calls;
use outside::random::Random;
use outside::rigs::{self, Lists};
use outside::schedule::{write_text, Schedule};
use outside::state_compare::{self, compare_state};
use outside::subject::Subject;

const USAGE: &str = "\
outside compare PLAYER_BINARY [--seed S] [--texts N] [--seconds T] [--jobs J]
                              [--no-spent] [--timeout T] [--shrink-seconds T] [--folder F] [--earlier]
outside play FILE|- [--earlier]
outside plan PROGRAM [--script] [--seed S] [--timeout T]
outside state PROGRAM [--script] [--seed S] [--rounds R] [--jobs J] [--no-spent]
                      [--no-misshapen] [--timeout T] [--folder F]
outside generate --family grid:3|billiard:7|plane:5|levels:2,3,5|votes:3,2,3,2,3|full:31|arbiter:31
                 --events K [--seed S] [--swell]";

const MEASURE_USAGE: &str = "\
outside measure PLAYER_BINARY [OTHER_BINARY] [--events K] [--rounds R] [--seed S]
                              [--family F]";

fn main() -> ExitCode {
    let mut words = std::env::args().skip(1);
    let command = words.next().unwrap_or_default();
    let options = Options::new(words);
    let outcome = match command.as_str() {
        "compare" => compare_command(options),
        "play" => play_command(options),
        "plan" => plan_command(options),
        "state" => state_command(options),
        "generate" => generate_command(options),
        "measure" => measure_command(options),
        _ => Err(format!("usage:\n{USAGE}\n{MEASURE_USAGE}")),
    };
    match outcome {
        Ok(true) => ExitCode::SUCCESS,
        Ok(false) => ExitCode::from(1),
        Err(message) => {
            eprintln!("{message}");
            ExitCode::from(2)
        }
    }
}

fn seconds(number: u64) -> Duration {
    Duration::from_secs(number)
}

fn seed_of_the_moment() -> u64 {
    let since = SystemTime::now().duration_since(SystemTime::UNIX_EPOCH);
    since.map_or(1, |since| since.as_nanos() as u64) % 1_000_000_000
}

/// With `--earlier`, the rules are those of request 2.2.
fn version(options: &mut Options) -> Version {
    if options.flag("--earlier") {
        Version::Earlier
    } else {
        Version::Present
    }
}

fn compare_command(mut options: Options) -> Result<bool, String> {
    let seed = options.value("--seed")?.unwrap_or_else(seed_of_the_moment);
    let texts = options.value("--texts")?;
    let time = options.value("--seconds")?.map(seconds);
    let plan = Plan {
        version: version(&mut options),
        seed,
        texts: match (texts, time) {
            (None, None) => Some(5_000),
            _ => texts,
        },
        time,
        spent: !options.flag("--no-spent"),
        jobs: options.value("--jobs")?.unwrap_or(2),
        shrinking: seconds(options.value("--shrink-seconds")?.unwrap_or(60)),
        folder: options.value("--folder")?.unwrap_or_else(|| PathBuf::from(".")),
    };
    let patience = seconds(options.value("--timeout")?.unwrap_or(120));
    let binary = options.word("the player's file")?;
    options.finish()?;
    compare(&Subject::new(Path::new(&binary), patience)?, &plan)
}

fn play_command(mut options: Options) -> Result<bool, String> {
    let version = version(&mut options);
    let name = options.word("a file, or - for standard input")?;
    options.finish()?;
    let mut text = Vec::new();
    let read = if name == "-" {
        io::stdin().read_to_end(&mut text).map(|_| ())
    } else {
        fs::read(&name).map(|bytes| text = bytes)
    };
    read.map_err(|error| format!("{name}: {error}"))?;
    written(io::stdout().write_all(&play_by(version, &text)))
}

fn plan_command(mut options: Options) -> Result<bool, String> {
    let script = options.flag("--script");
    let seed = options.value("--seed")?.unwrap_or_else(seed_of_the_moment);
    let patience = seconds(options.value("--timeout")?.unwrap_or(60));
    let binary = options.word("the plan program's file")?;
    options.finish()?;
    compare_calls(&Subject::new(Path::new(&binary), patience)?, script, seed)
}

fn state_command(mut options: Options) -> Result<bool, String> {
    let script = options.flag("--script");
    let plan = state_compare::Plan {
        seed: options.value("--seed")?.unwrap_or_else(seed_of_the_moment),
        rounds: options.value("--rounds")?.unwrap_or(if script { 80 } else { 1_000 }),
        script,
        spent: !options.flag("--no-spent"),
        misshapen: !options.flag("--no-misshapen"),
        jobs: options.value("--jobs")?.unwrap_or(2),
        folder: options.value("--folder")?.unwrap_or_else(|| PathBuf::from(".")),
    };
    let patience = seconds(options.value("--timeout")?.unwrap_or(60));
    let binary = options.word("the state program's file")?;
    options.finish()?;
    compare_state(&Subject::new(Path::new(&binary), patience)?, &plan)
}

fn generate_command(mut options: Options) -> Result<bool, String> {
    let name: String = options.value("--family")?.ok_or("--family is missing")?;
    let events = options.value("--events")?.ok_or("--events is missing")?;
    let seed = options.value("--seed")?.unwrap_or(1);
    let swell = options.flag("--swell");
    options.finish()?;
    let lists = lists(&name)?;
    let random = Random::new(seed);
    let schedule = if swell { Schedule::swelling(random) } else { Schedule::busy(random) };
    let mut out = BufWriter::new(io::stdout().lock());
    written(write_text(&lists, schedule, events, &mut out).and_then(|()| out.flush()))
}

/// Without `--family`, the rigs on which request 2.4 is measured.
fn measure_command(mut options: Options) -> Result<bool, String> {
    let events = options.value("--events")?.unwrap_or(1_000_000);
    let rounds = options.value("--rounds")?.unwrap_or(9);
    let seed = options.value("--seed")?.unwrap_or(1);
    let names = match options.value("--family")? {
        Some(name) => vec![name],
        None => ["plane:5", "grid:5", "arbiter:31"].map(String::from).to_vec(),
    };
    let player = options.word("the player's file");
    let player = player.map_err(|problem| format!("{problem}, usage:\n{MEASURE_USAGE}"))?;
    let other = options.word("another player's file").ok();
    options.finish()?;
    let file = |name: String| fs::canonicalize(&name).map_err(|error| format!("{name}: {error}"));
    let mut programs = vec![Program { name: "player", file: file(player)?, words: &[] }];
    if let Some(other) = other {
        programs.push(Program { name: "other", file: file(other)?, words: &[] });
    }
    let own = std::env::current_exe().map_err(|error| error.to_string())?;
    programs.push(Program { name: "model", file: own, words: &["play", "-"] });
    let rigs = names.into_iter().map(|name| lists(&name).map(|lists| (name, lists)));
    measure(&programs, &rigs.collect::<Result<Vec<_>, _>>()?, events, rounds, seed)
}

/// Request sets by name: `grid:3`, `billiard:7`, `plane:5`, `levels:2,3,5`,
/// `votes:3,2,3,2,3`; also `full:31`, where every set has all sites, and
/// `arbiter:31`, where every set has site 1 alone. They are to be played, so
/// setup must pass them.
fn lists(name: &str) -> Result<Lists, String> {
    let lists = named(name).ok_or(format!("{name:?} is no family with a listed parameter"))?;
    match Rig::from_lists(&lists) {
        Ok(_) => Ok(lists),
        Err(refusal) => Err(format!("setup turns {name:?} down with {}", refusal.code())),
    }
}

fn named(name: &str) -> Option<Lists> {
    let (kind, parameters) = name.split_once(':')?;
    let parameters: Vec<u64> = parameters.split(',').map(|word| word.parse().ok()).collect::<Option<_>>()?;
    match (kind, &parameters[..]) {
        ("full", &[n @ 1..=31]) => Some(rigs::full(n as usize)),
        ("arbiter", &[n @ 1..=31]) => Some(rigs::one_arbiter(n as usize)),
        _ => plan::lists(kind.as_bytes(), &parameters)?.ok(),
    }
}

/// A reader that goes away early (as `head` does) is no fault of ours.
fn written(outcome: io::Result<()>) -> Result<bool, String> {
    match outcome {
        Err(error) if error.kind() != io::ErrorKind::BrokenPipe => Err(error.to_string()),
        _ => Ok(true),
    }
}
