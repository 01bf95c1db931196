//! The program that plays a text of events.

use std::io::Write;

use super::grammar::{event_line, set_line, sites_line, Event, Line, Lines};
use super::setup::{judge_count, judge_sets_by, set_of, Judgement};
use super::{Refusal, Rig, Site, Version};

/// Plays a text and gives all that is printed.
pub fn play(text: &[u8]) -> Vec<u8> {
    play_by(Version::Present, text)
}

/// The same by the rules of a version.
pub fn play_by(version: Version, text: &[u8]) -> Vec<u8> {
    play_with(version, text, Rig::apply)
}

/// The same with another step in place of [`Rig::apply`].
pub fn play_with(
    version: Version,
    text: &[u8],
    mut step: impl FnMut(&mut Rig, Event) -> Result<(), Refusal>,
) -> Vec<u8> {
    let mut output = Vec::new();
    if let Err(stop) = play_text(version, text, &mut step, &mut output) {
        writeln!(output, "{stop}").expect("a Vec takes all");
    }
    output
}

/// Plays a text with another judgement of its sets and gives all that is
/// printed, and the state after its last event if nothing stops it.
pub(crate) fn play_judged(text: &[u8], judge: impl Fn(&[u64]) -> Judgement) -> (Vec<u8>, Option<Rig>) {
    let mut lines = Lines::new(text);
    let mut output = Vec::new();
    let outcome = read_rig(&mut lines, judge).and_then(|mut rig| {
        play_events(&mut lines, &mut rig, &mut Rig::apply, &mut output)?;
        Ok(rig)
    });
    if let Err(stop) = &outcome {
        writeln!(output, "{stop}").expect("a Vec takes all");
    }
    (output, outcome.ok())
}

/// Plays a text and gives the state after its last event.
pub fn last_state(text: &[u8]) -> Result<Rig, Stop> {
    last_state_by(Version::Present, text)
}

/// The same by the rules of a version.
pub fn last_state_by(version: Version, text: &[u8]) -> Result<Rig, Stop> {
    play_text(version, text, &mut Rig::apply, &mut Vec::new())
}

/// Plays a whole text and gives the last state.
fn play_text(
    version: Version,
    text: &[u8],
    step: &mut impl FnMut(&mut Rig, Event) -> Result<(), Refusal>,
    output: &mut Vec<u8>,
) -> Result<Rig, Stop> {
    let mut lines = Lines::new(text);
    let mut rig = read_rig(&mut lines, |sets| judge_sets_by(version, sets))?.by(version);
    play_events(&mut lines, &mut rig, step, output)?;
    Ok(rig)
}

/// Goes on with a rig that may be in any state (request 2.2): lines of events
/// alone, places and lines counted from 1.
pub fn go_on(rig: &mut Rig, events: &[u8], output: &mut Vec<u8>) -> Result<(), Stop> {
    go_on_with(rig, events, Rig::apply_judged, output)
}

/// The same with another step in place of [`Rig::apply_judged`].
pub fn go_on_with(
    rig: &mut Rig,
    events: &[u8],
    mut step: impl FnMut(&mut Rig, Event) -> Result<(), Refusal>,
    output: &mut Vec<u8>,
) -> Result<(), Stop> {
    play_events(&mut Lines::new(events), rig, &mut step, output)
}

/// Why and at which line a run ends early.
#[derive(Clone, Copy, Debug, PartialEq, Eq)]
pub struct Stop {
    /// Why.
    pub refusal: Refusal,
    /// The line, from 1.
    pub line: usize,
}

impl std::fmt::Display for Stop {
    fn fmt(&self, f: &mut std::fmt::Formatter<'_>) -> std::fmt::Result {
        write!(f, "stop={} line={}", self.refusal.code(), self.line)
    }
}

/// A line that must be there, in the form that `parse` knows.
fn require<T>(lines: &mut Lines, parse: impl Fn(&[u8]) -> Option<T>) -> Result<T, Stop> {
    let parsed = match lines.next_line() {
        Line::Whole(line) => parse(line),
        Line::Broken | Line::Lacking => None,
    };
    parsed.ok_or(malformed(lines))
}

fn malformed(lines: &Lines) -> Stop {
    Stop { refusal: Refusal::Malformed, line: lines.number() }
}

/// Reads `sites=` and the sets. The count is judged before a later line is
/// read, the sets after the last of them.
fn read_rig(lines: &mut Lines, judge: impl Fn(&[u64]) -> Judgement) -> Result<Rig, Stop> {
    let n = usize::from(require(lines, sites_line)?);
    judge_count(n).map_err(|refusal| Stop { refusal, line: 1 })?;
    let lists: Vec<Vec<Site>> = (0..n).map(|_| require(lines, set_line)).collect::<Result<_, _>>()?;
    let sets: Vec<u64> = lists.iter().map(|list| set_of(list)).collect();
    // The set of site s stands on line s + 1.
    judge(&sets).map_err(|(refusal, site)| Stop { refusal, line: site + 1 })?;
    Ok(Rig::fresh(&lists))
}

/// Plays events until the input ends or a line is malformed.
fn play_events(
    lines: &mut Lines,
    rig: &mut Rig,
    step: &mut impl FnMut(&mut Rig, Event) -> Result<(), Refusal>,
    output: &mut Vec<u8>,
) -> Result<(), Stop> {
    for place in 1.. {
        let event = match lines.next_line() {
            Line::Lacking => break,
            Line::Broken => None,
            Line::Whole(line) => event_line(line),
        };
        let event = event.ok_or(malformed(lines))?;
        let code = step(rig, event).err().map_or(0, Refusal::code);
        print_step(output, place, code, rig);
    }
    Ok(())
}

fn print_step(output: &mut Vec<u8>, place: usize, code: u8, rig: &Rig) {
    let inside = rig.inside().unwrap_or(0);
    let waiting = rig.waiting();
    let flying = rig.under_way().len();
    writeln!(output, "step={place} code={code} inside={inside} waiting={waiting} flying={flying}")
        .expect("a Vec takes all");
}

#[cfg(test)]
mod tests {
    use super::*;

    fn played(text: &str) -> String {
        String::from_utf8(play(text.as_bytes())).unwrap()
    }

    const EXAMPLE: &str = "sites=2\nset=1\nset=1\nask=1\nmove=1,1\nmove=1,1\nask=2\nmove=2,1\n\
        move=1,1\nleave=1\nmove=1,2\nmove=1,2\nleave=2\nmove=2,1\nmove=1,1\nmove=1,1\n";

    const EXAMPLE_OUTPUT: &str = "\
step=1 code=0 inside=0 waiting=1 flying=1
step=2 code=0 inside=0 waiting=1 flying=1
step=3 code=0 inside=1 waiting=0 flying=0
step=4 code=0 inside=1 waiting=1 flying=1
step=5 code=0 inside=1 waiting=1 flying=2
step=6 code=0 inside=1 waiting=1 flying=1
step=7 code=0 inside=0 waiting=1 flying=3
step=8 code=0 inside=0 waiting=1 flying=2
step=9 code=0 inside=2 waiting=0 flying=1
step=10 code=0 inside=0 waiting=0 flying=2
step=11 code=0 inside=0 waiting=0 flying=1
step=12 code=0 inside=0 waiting=0 flying=0
step=13 code=7 inside=0 waiting=0 flying=0
";

    #[test]
    fn the_printed_example() {
        for version in [Version::Present, Version::Earlier] {
            assert_eq!(play_by(version, EXAMPLE.as_bytes()), EXAMPLE_OUTPUT.as_bytes());
        }
    }

    #[test]
    fn every_cut_of_the_example() {
        for cut in 0..=EXAMPLE.len() {
            let text = &EXAMPLE[..cut];
            let whole = text.matches('\n').count();
            let steps = whole.saturating_sub(3);
            let mut expected: String = EXAMPLE_OUTPUT.split_inclusive('\n').take(steps).collect();
            if !text.ends_with('\n') || whole < 3 {
                expected += &format!("stop=11 line={}\n", whole + 1);
            }
            assert_eq!(played(text), expected, "cut at {cut}");
        }
    }

    #[test]
    fn the_first_line() {
        assert_eq!(played(""), "stop=11 line=1\n");
        assert_eq!(played("\n"), "stop=11 line=1\n");
        assert_eq!(played("sites=\n"), "stop=11 line=1\n");
        assert_eq!(played("sites=1"), "stop=11 line=1\n");
        assert_eq!(played("sites=32"), "stop=11 line=1\n");
        assert_eq!(played("sites=01\nset=1\n"), "stop=11 line=1\n");
        assert_eq!(played("sites=1000\n"), "stop=11 line=1\n");
        assert_eq!(played("set=1\n"), "stop=11 line=1\n");
        assert_eq!(played("sites=0\n"), "stop=1 line=1\n");
        assert_eq!(played("sites=32\n"), "stop=1 line=1\n");
        assert_eq!(played("sites=999\nrubbish"), "stop=1 line=1\n");
        assert_eq!(played("sites=31\n"), "stop=11 line=2\n");
        assert_eq!(played("sites=1\nsites=1\n"), "stop=11 line=2\n");
    }

    #[test]
    fn the_sets() {
        assert_eq!(played("sites=1\nset=1\n"), "");
        assert_eq!(played("sites=1\nset=1"), "stop=11 line=2\n");
        assert_eq!(played("sites=1\nset=\n"), "stop=11 line=2\n");
        assert_eq!(played("sites=1\nset=0\n"), "stop=2 line=2\n");
        assert_eq!(played("sites=1\nset=0,1\n"), "stop=2 line=2\n");
        assert_eq!(played("sites=1\nset=2\n"), "stop=2 line=2\n");
        assert_eq!(played("sites=1\nset=1,64\n"), "stop=2 line=2\n");
        assert_eq!(played("sites=1\nset=1,65\n"), "stop=2 line=2\n");
        assert_eq!(played("sites=1\nset=1,999\n"), "stop=2 line=2\n");
        assert_eq!(played("sites=2\nset=1\n"), "stop=11 line=3\n");
        assert_eq!(played("sites=2\nset=1\nask=1\n"), "stop=11 line=3\n");
        assert_eq!(played("sites=2\nset=1\nset=2\n"), "stop=3 line=3\n");
        assert_eq!(played("sites=2\nset=2\nset=1\nrubbish\n"), "stop=3 line=3\n");
    }

    #[test]
    fn form_then_2_then_3() {
        assert_eq!(played("sites=3\nset=9\nset=1\nset=1,\n"), "stop=11 line=4\n");
        assert_eq!(played("sites=3\nset=9\nset=1\n"), "stop=11 line=4\n");
        assert_eq!(played("sites=3\nset=1\nset=2\nset=4\n"), "stop=2 line=4\n");
        assert_eq!(played("sites=3\nset=4\nset=2\nset=4\n"), "stop=2 line=2\n");
        assert_eq!(played("sites=3\nset=1,2\nset=2\nset=1\n"), "stop=3 line=4\n");
        assert_eq!(played("sites=3\nset=1\nset=2\nset=3\n"), "stop=3 line=3\n");
    }

    #[test]
    fn then_17() {
        assert_eq!(played("sites=2\nset=1,2\nset=1\n"), "stop=17 line=3\n");
        assert_eq!(played("sites=2\nset=1\nset=1,2\n"), "stop=17 line=3\n");
        assert_eq!(played("sites=2\nset=1\nset=1,2\nrubbish"), "stop=17 line=3\n");
        assert_eq!(played("sites=2\nset=1,2\nset=1,2\n"), "");
        assert_eq!(played("sites=3\nset=1,2\nset=1,2\nset=1\n"), "stop=17 line=4\n");
        assert_eq!(played("sites=3\nset=1,2\nset=1\nset=1\n"), "stop=17 line=3\n");
        assert_eq!(played("sites=3\nset=1,2\nset=1\nset=1,\n"), "stop=11 line=4\n");
        assert_eq!(played("sites=3\nset=1,2\nset=1\n"), "stop=11 line=4\n");
        assert_eq!(played("sites=3\nset=1,2\nset=1\nset=1,4\n"), "stop=2 line=4\n");
        assert_eq!(played("sites=3\nset=1,2\nset=1\nset=2,3\n"), "stop=3 line=4\n");
        let (nested, equal) = ("sites=2\nset=1\nset=1,2\nask=1\n", "sites=2\nset=2\nset=2\nask=1\n");
        let line = "step=1 code=0 inside=0 waiting=1 flying=1\n";
        assert_eq!(played(nested), "stop=17 line=3\n");
        assert_eq!(played(equal), line);
        assert_eq!(play_by(Version::Earlier, nested.as_bytes()), line.as_bytes());
    }

    #[test]
    fn the_events() {
        let one = "sites=1\nset=1\n";
        let stop = |events: &str| played(&format!("{one}{events}"));
        assert_eq!(stop("\n"), "stop=11 line=3\n");
        assert_eq!(stop("set=1\n"), "stop=11 line=3\n");
        assert_eq!(stop("ask=1\r\n"), "stop=11 line=3\n");
        assert_eq!(
            stop("ask=1\nask=01\nask=1\n"),
            "step=1 code=0 inside=0 waiting=1 flying=1\nstop=11 line=4\n"
        );
        assert_eq!(
            stop("ask=2\nmove=0,1\nleave=1\nleave"),
            "step=1 code=4 inside=0 waiting=0 flying=0\n\
             step=2 code=4 inside=0 waiting=0 flying=0\n\
             step=3 code=6 inside=0 waiting=0 flying=0\n\
             stop=11 line=6\n"
        );
    }

    /// A set line of the given length that is well formed but for its length.
    fn long_set(length: usize) -> String {
        let mut line = String::from("set=1");
        // Two bytes, then three, then four for each further number.
        let mut next = match (length - line.len()) % 4 {
            0 => 100,
            2 => 9,
            3 => 99,
            _ => 98,
        };
        if next == 98 {
            line += ",9";
            next = 99;
        }
        while line.len() < length {
            line += &format!(",{next}");
            next = if next < 100 { 100 } else { next + 1 };
        }
        assert_eq!(line.len(), length);
        line
    }

    #[test]
    fn a_line_has_at_most_96_bytes() {
        for length in 90..=96 {
            let text = format!("sites=1\n{}\n", long_set(length));
            assert_eq!(played(&text), "stop=2 line=2\n", "{length}");
        }
        for length in 97..=110 {
            let text = format!("sites=1\n{}\n", long_set(length));
            assert_eq!(played(&text), "stop=11 line=2\n", "{length}");
        }
    }

    #[test]
    fn a_full_set_of_31_fits_a_line() {
        let list: Vec<String> = (1..=31).map(|n| n.to_string()).collect();
        let set = format!("set={}\n", list.join(","));
        let text = format!("sites=31\n{}ask=31\n", set.repeat(31));
        assert_eq!(played(&text), "step=1 code=0 inside=0 waiting=1 flying=31\n");
    }
}
