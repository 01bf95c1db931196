//! The program `state` of request 2.2, as requests 2.3 and 2.6 leave it: saves
//! a run and goes on with a saved one.

use std::fmt::Display;

use crate::model::{go_on, last_state_by, Refusal, Rig, Version};
use crate::plan::Printed;
use crate::saved::{read_text_by, text_of};

/// How `state` is used.
pub const USAGE: &str = "usage: ./state save [SAVED] | play SAVED\n";

/// A word of a call.
#[derive(Clone, Debug, PartialEq, Eq, Hash)]
pub enum Word {
    /// The word itself.
    Plain(Vec<u8>),
    /// The name of a file with these bytes.
    File(Vec<u8>),
}

/// A call: its words and what is on standard input.
#[derive(Clone, Debug, PartialEq, Eq, Hash)]
pub struct Call {
    /// The words after the program's name.
    pub words: Vec<Word>,
    /// What stands on standard input.
    pub input: Vec<u8>,
}

/// What a call comes to.
#[derive(Clone, Debug, PartialEq, Eq)]
pub enum Answer {
    /// The state, as a saved text.
    Text(String),
    /// The player's lines, perhaps with a stop line behind them.
    Lines(String),
    /// A stop line and nothing else.
    Stop(String),
    /// The use was wrong.
    Usage,
    /// A file cannot be read: the script says so, the program is left open.
    Unreadable,
}

/// The word `text`.
pub fn plain(text: &str) -> Word {
    Word::Plain(text.as_bytes().to_vec())
}

/// What `state` answers.
pub fn answer(call: &Call) -> Answer {
    answer_by(Version::Present, call)
}

/// What that of a version answers.
pub fn answer_by(version: Version, call: &Call) -> Answer {
    match how(call) {
        How::Usage => Answer::Usage,
        How::Unreadable => Answer::Unreadable,
        How::Save(None) => match last_state_by(version, &call.input) {
            Ok(rig) => Answer::Text(text_of(&rig)),
            Err(stop) => stopped(stop),
        },
        How::Save(Some(saved)) => match read_text_by(version, saved) {
            Some(rig) => save_on(rig, &call.input),
            None => no_saved_text(),
        },
        How::Play(saved) => match read_text_by(version, saved) {
            Some(rig) => play_on(rig, &call.input),
            None => no_saved_text(),
        },
    }
}

/// What the words of a call ask for.
pub(crate) enum How<'a> {
    /// To save, from a fresh state or from a saved one.
    Save(Option<&'a [u8]>),
    /// To go on with a saved one.
    Play(&'a [u8]),
    /// Nothing that is known.
    Usage,
    /// One of both, with a file that cannot be read.
    Unreadable,
}

/// Understands the words.
pub(crate) fn how(call: &Call) -> How<'_> {
    let Some((Word::Plain(name), rest)) = call.words.split_first() else { return How::Usage };
    match (&name[..], rest) {
        (b"save", []) => How::Save(None),
        (b"save", [Word::File(saved)]) => How::Save(Some(saved)),
        (b"play", [Word::File(saved)]) => How::Play(saved),
        (b"save" | b"play", [Word::Plain(_)]) => How::Unreadable,
        _ => How::Usage,
    }
}

fn stopped(stop: impl Display) -> Answer {
    Answer::Stop(format!("{stop}\n"))
}

fn stopped_by(refusal: Refusal) -> Answer {
    stopped(format!("stop={}", refusal.code()))
}

/// The answer where the file is no saved text.
pub(crate) fn no_saved_text() -> Answer {
    stopped_by(Refusal::NoSavedText)
}

/// The text of the state after these events. Writing turns a misshapen state
/// down with 10.
pub(crate) fn save_on(mut rig: Rig, events: &[u8]) -> Answer {
    match go_on(&mut rig, events, &mut Vec::new()) {
        Err(stop) => stopped(stop),
        Ok(()) if rig.is_misshapen() => stopped_by(Refusal::Misshapen),
        Ok(()) => Answer::Text(text_of(&rig)),
    }
}

/// The lines of these events.
pub(crate) fn play_on(mut rig: Rig, events: &[u8]) -> Answer {
    let mut output = Vec::new();
    let outcome = go_on(&mut rig, events, &mut output);
    let mut lines = String::from_utf8(output).expect("the player prints ASCII");
    if let Err(stop) = outcome {
        lines += &format!("{stop}\n");
    }
    Answer::Lines(lines)
}

impl Answer {
    /// What is printed. The script's status for a stop is open: see
    /// [`Answer::may_end_with`].
    pub fn printed(&self) -> Printed {
        let (output, errors, status) = match self {
            Answer::Text(text) | Answer::Lines(text) | Answer::Stop(text) => (&text[..], "", 0),
            Answer::Usage => ("", USAGE, 2),
            Answer::Unreadable => ("", "cannot read that\n", 2),
        };
        Printed { output: output.to_string(), errors: errors.to_string(), status }
    }

    /// Whether it comes from a run that went through a misshapen state.
    pub fn meets_misshapen(&self) -> bool {
        match self {
            Answer::Lines(lines) => lines.contains(" code=10 "),
            Answer::Stop(line) => line == "stop=10\n",
            _ => false,
        }
    }

    /// Whether the script may have this exit status: 2 for wrong use and for a
    /// file that cannot be read, 0 or 1 where a stop line is printed, else 0.
    pub fn may_end_with(&self, status: i32) -> bool {
        match self {
            Answer::Usage | Answer::Unreadable => status == 2,
            Answer::Stop(_) => status == 0 || status == 1,
            Answer::Lines(lines) if lines.contains("stop=") => status == 0 || status == 1,
            Answer::Text(_) | Answer::Lines(_) => status == 0,
        }
    }
}

#[cfg(test)]
mod tests {
    use super::*;
    use crate::saved::tests::EXAMPLE_SAVED;
    use crate::texts::EXAMPLE;

    fn call(words: &[Word], input: &str) -> Answer {
        answer(&Call { words: words.to_vec(), input: input.as_bytes().to_vec() })
    }

    fn file(text: &str) -> Word {
        Word::File(text.as_bytes().to_vec())
    }

    /// The printed example's head with its first seven events, and the rest.
    fn parts() -> (String, String) {
        let lines: Vec<&str> = EXAMPLE.split_inclusive('\n').collect();
        (lines[..10].concat(), lines[10..].concat())
    }

    #[test]
    fn the_example_is_saved_and_gone_on_with() {
        let (first, rest) = parts();
        let saved = Answer::Text(EXAMPLE_SAVED.to_string());
        assert_eq!(call(&[plain("save")], &first), saved);
        assert_eq!(call(&[plain("save"), file(EXAMPLE_SAVED)], ""), saved);
        let lines = "step=1 code=0 inside=0 waiting=1 flying=2\n\
            step=2 code=0 inside=2 waiting=0 flying=1\n\
            step=3 code=0 inside=0 waiting=0 flying=2\n\
            step=4 code=0 inside=0 waiting=0 flying=1\n\
            step=5 code=0 inside=0 waiting=0 flying=0\n\
            step=6 code=7 inside=0 waiting=0 flying=0\n";
        let played = |input: &str| call(&[plain("play"), file(EXAMPLE_SAVED)], input);
        assert_eq!(played(&rest), Answer::Lines(lines.to_string()));
        assert_eq!(played(""), Answer::Lines(String::new()));
        let stop = format!("{}stop=11 line=2\n", lines.split_inclusive('\n').next().unwrap());
        assert_eq!(played("move=1,2\nset=1\nmove=1,2\n"), Answer::Lines(stop));
        let uncut = call(&[plain("save")], EXAMPLE);
        assert_eq!(call(&[plain("save"), file(EXAMPLE_SAVED)], &rest), uncut);
    }

    #[test]
    fn stops_stand_alone() {
        let stop = |line: &str| Answer::Stop(format!("{line}\n"));
        assert_eq!(call(&[plain("save")], "sites=2\nset=1\nset=2\n"), stop("stop=3 line=3"));
        assert_eq!(call(&[plain("save")], "sites=2\nset=1\nset=1,2\nask"), stop("stop=17 line=3"));
        assert_eq!(call(&[plain("save")], "sites=1\nset=1\nask=1\nask"), stop("stop=11 line=4"));
        assert_eq!(call(&[plain("save")], ""), stop("stop=11 line=1"));
        let from = |input: &str| call(&[plain("save"), file(EXAMPLE_SAVED)], input);
        assert_eq!(from("move=1,2\nsites=2\n"), stop("stop=11 line=2"));
        assert_eq!(from("move=1,2"), stop("stop=11 line=1"));
        for word in ["save", "play"] {
            assert_eq!(call(&[plain(word), file("")], "ask=1\n"), stop("stop=14"));
            assert_eq!(call(&[plain(word), file("")], "rubbish"), stop("stop=14"));
        }
    }

    #[test]
    fn a_saved_text_with_sets_inside_others_is_turned_down() {
        let saved = |sets: [&str; 2]| {
            let [held, other] = sets.map(|set| if set.contains(',') { "0,0" } else { "0" });
            let queued = if held == "0,0" || other == "0,0" { "0" } else { "" };
            format!(
                "sites=2\nset={}\nset={}\naccepted=0\n\
                 clock=0\nmode=0\nheld={held}\nheir={held}\ninquired={held}\n\
                 clock=0\nmode=0\nheld={other}\nheir={other}\ninquired={other}\n\
                 grant=0\nholder=0\nqueued=0,0\ngrant=0\nholder=0\nqueued={queued}\n",
                sets[0], sets[1]
            )
        };
        for (sets, read) in [(["1", "1"], true), (["1", "1,2"], false), (["1,2", "1"], false)] {
            let text = saved(sets);
            let stop = Answer::Stop("stop=14\n".to_string());
            let expected = if read { Answer::Text(text.clone()) } else { stop.clone() };
            assert_eq!(call(&[plain("save"), file(&text)], ""), expected, "{sets:?}");
            let line = Answer::Lines("step=1 code=7 inside=0 waiting=0 flying=0\n".to_string());
            let expected = if read { line } else { stop };
            assert_eq!(call(&[plain("play"), file(&text)], "move=1,1\n"), expected, "{sets:?}");
            // The version before reads all of them.
            let words = vec![plain("save"), file(&text)];
            let earlier = answer_by(Version::Earlier, &Call { words, input: Vec::new() });
            assert_eq!(earlier, Answer::Text(text));
        }
    }

    #[test]
    fn wrong_words_are_wrong_use() {
        for words in [
            vec![],
            vec![plain("play")],
            vec![plain("load")],
            vec![plain("Save")],
            vec![file("")],
            vec![plain("save"), file(""), file("")],
            vec![plain("play"), file(EXAMPLE_SAVED), plain("x")],
        ] {
            assert_eq!(call(&words, EXAMPLE), Answer::Usage, "{words:?}");
        }
        assert_eq!(call(&[plain("play"), plain("/no/such/file")], ""), Answer::Unreadable);
    }
}
