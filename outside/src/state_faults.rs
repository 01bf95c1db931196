//! Faults of a program `state`, planted on purpose, to see that its calls tell
//! them.

use crate::faults::delivered;
use crate::model::setup::{judge_meeting_sets, judge_sets, Judgement};
use crate::model::{
    go_on, go_on_with, last_state, play_judged, Body, Event, Message, Mode, Refusal, Rig, Version,
    LARGEST_NUMBER, LONGEST_LINE, MOST_SITES, MOST_UNDER_WAY,
};
use crate::plan::Printed;
use crate::saved::{read_form, read_text, text_of};
use crate::set_faults;
use crate::state::{answer, answer_by, how, no_saved_text, play_on, save_on, Answer, Call, How, Word};

/// Answers a call.
pub type Keeper = fn(&Call) -> Printed;

/// The planted faults, by the name under which they are asked for.
pub const FAULTS: [(&str, Keeper); 49] = [
    // A text is read that no state gives.
    ("zeros-may-lead", |call| with_saved(call, |text| each_number(text, without_zeros))),
    ("numbers-have-32-bits", |call| with_saved(call, |text| each_number(text, |digits| wrapped(digits, 32)))),
    ("numbers-have-64-bits", |call| with_saved(call, |text| each_number(text, |digits| wrapped(digits, 64)))),
    ("last-line-needs-no-end", |call| with_saved(call, ended)),
    ("zeros-behind-are-ignored", |call| with_saved(call, without_zero_bytes)),
    ("empty-lines-pass", |call| {
        with_saved(call, |text| each_line(text, |line| line.trim_start_matches('\n').to_string()))
    }),
    ("carriage-returns-pass", |call| {
        with_saved(call, |text| each_line(text, |line| line.replace("\r\n", "\n")))
    }),
    ("rest-may-have-zeros", |call| {
        with_saved(call, |text| each_line(text, |line| line.replace("mode=0,0,0", "mode=0")))
    }),
    ("fail-may-have-the-number-0", |call| with_saved(call, |text| each_line(text, fail_without_zero))),
    ("clock-has-no-limit", |call| with_saved(call, |text| each_line(text, limited_clock))),
    ("one-message-more-is-read", |call| with_saved(call, without_message_1025)),
    ("shape-is-not-tested", |call| with_reader(call, read_form)),
    ("sets-may-miss", |call| with_judge(call, may_miss)),
    ("nested-sets-are-read", |call| with_judge(call, judge_meeting_sets)),
    ("a-set-around-an-earlier-one-is-read", |call| with_judge(call, set_faults::inside_an_earlier)),
    ("a-set-inside-an-earlier-one-is-read", |call| with_judge(call, set_faults::around_an_earlier)),
    ("heir-may-lack-the-arbiter", |call| with_reader(call, |text| without_heirs(read_form(text)?))),
    ("ties-of-messages-are-not-tested", |call| with_reader(call, |text| without_messages(read_form(text)?))),
    // A text is turned down that a state gives.
    ("lines-have-96-bytes", |call| {
        with_reader(call, |text| read_text(text).filter(|_| lines_are_short(text)))
    }),
    ("texts-have-32768-bytes", |call| {
        with_reader(call, |text| read_text(text).filter(|_| text.len() <= 32_768))
    }),
    ("reply-comes-from-an-asker", |call| with_reader(call, |text| read_text(text).filter(replies_are_tied))),
    ("heir-needs-a-number-held", |call| with_reader(call, |text| read_text(text).filter(heirs_are_held))),
    ("one-inside-at-most", |call| with_reader(call, |text| read_text(text).filter(one_inside))),
    ("holder-needs-a-grant", |call| with_reader(call, |text| read_text(text).filter(holders_have_grants))),
    ("fail-needs-a-number", |call| with_reader(call, |text| read_text(text).filter(fails_are_numbered))),
    ("equal-sets-are-not-read", |call| with_reader(call, |text| read_text(text).filter(sets_are_unlike))),
    // Another state is read or written.
    ("accepted-is-not-kept", |call| {
        with_read(call, |text| each_line(text, |line| key_or(line, "accepted", "accepted=0\n")))
    }),
    ("failed-mark-is-not-kept", |call| with_read(call, |text| each_line(text, mode_without_mark))),
    ("last-message-is-not-kept", |call| with_read(call, without_last_message)),
    ("last-message-is-not-written", |call| with_written(call, without_last_message)),
    ("inquired-stands-before-heir", |call| {
        with_written(&with_file(call, heir_and_inquired), heir_and_inquired)
    }),
    ("fail-number-is-not-kept", |call| with_read(call, |text| each_line(text, fail_in_short))),
    ("fail-number-is-not-written", |call| with_written(call, |text| each_line(text, fail_in_short))),
    // What is played and printed.
    ("earlier-rule", |call| answer_by(Version::Earlier, call).printed()),
    ("fail-without-number-is-dropped", |call| with_fails(call, |seq, _| seq.or(Some(u32::MAX)))),
    ("any-fail-counts", |call| with_fails(call, |_, own| Some(own))),
    ("fail-with-a-later-number-counts", |call| with_fails(call, |seq, own| seq.map(|seq| seq.min(own)))),
    ("places-go-on", places_go_on),
    ("lines-count-the-head", lines_count_the_head),
    // The test for 10 left out, in events and in writing.
    ("misshapen-is-played-on", |call| with_step(call, Rig::apply, |_| true)),
    ("sites-and-sets-are-passed-over", sites_and_sets_pass),
    ("last-event-needs-no-end", |call| with_events(call, ended)),
    ("a-stop-prints-the-text-too", stop_prints_text),
    ("a-late-stop-prints-the-text", late_stop_prints_text),
    ("stop-14-says-a-line", |call| changed(call, "stop=14\n", "stop=14 line=1\n")),
    ("nested-sets-are-saved", nested_sets_are_saved),
    ("nested-sets-give-17-for-14", nested_sets_give_17),
    ("usage-to-standard-output", |call| {
        let Printed { output, errors, status } = answer(call).printed();
        Printed { output: output + &errors, errors: String::new(), status }
    }),
    ("more-words-are-ignored", |call| {
        let words = call.words.iter().take(2).cloned().collect();
        answer(&Call { words, input: call.input.clone() }).printed()
    }),
];

/// Answers a call with a planted fault; nothing if there is no such fault.
pub fn answer_with_fault(name: &str, call: &Call) -> Option<Printed> {
    let (_, keeper) = FAULTS.iter().find(|(known, _)| *known == name)?;
    Some(keeper(call))
}

/// The call with its file changed.
fn with_file(call: &Call, change: impl Fn(&[u8]) -> Vec<u8>) -> Call {
    let word = |word: &Word| match word {
        Word::File(bytes) => Word::File(change(bytes)),
        Word::Plain(_) => word.clone(),
    };
    Call { words: call.words.iter().map(word).collect(), input: call.input.clone() }
}

/// The file changed before it is read.
fn with_saved(call: &Call, change: impl Fn(&[u8]) -> Vec<u8>) -> Printed {
    answer(&with_file(call, change)).printed()
}

/// The file changed before it is read, if it is a saved text.
fn with_read(call: &Call, change: impl Fn(&[u8]) -> Vec<u8>) -> Printed {
    with_saved(call, |text| if read_text(text).is_some() { change(text) } else { text.to_vec() })
}

/// Another reader of saved texts.
fn with_reader(call: &Call, read: impl Fn(&[u8]) -> Option<Rig>) -> Printed {
    match how(call) {
        How::Save(Some(saved)) => read(saved).map_or_else(no_saved_text, |rig| save_on(rig, &call.input)),
        How::Play(saved) => read(saved).map_or_else(no_saved_text, |rig| play_on(rig, &call.input)),
        _ => answer(call),
    }
    .printed()
}

/// Another judgement of the sets of a saved text.
fn with_judge(call: &Call, judge: fn(&[u64]) -> Judgement) -> Printed {
    let passes = |rig: &Rig| rig.sets_pass_by(judge) && rig.all_but_sets_pass();
    with_reader(call, |text| read_form(text).filter(passes))
}

fn may_miss(sets: &[u64]) -> Judgement {
    match judge_sets(sets) {
        Err((Refusal::SetsMiss, _)) => Ok(()),
        judgement => judgement,
    }
}

/// A text of events on sets inside others is played and saved.
fn nested_sets_are_saved(call: &Call) -> Printed {
    match how(call) {
        How::Save(None) => match play_judged(&call.input, judge_meeting_sets) {
            (_, Some(rig)) => Answer::Text(text_of(&rig)),
            (_, None) => answer(call),
        },
        _ => answer(call),
    }
    .printed()
}

fn nested_sets_give_17(call: &Call) -> Printed {
    match how(call) {
        How::Play(saved) | How::Save(Some(saved)) if is_nested(saved) => {
            Answer::Stop("stop=17\n".to_string()).printed()
        }
        _ => answer(call).printed(),
    }
}

/// Whether a text is well shaped but for sets inside others.
fn is_nested(text: &[u8]) -> bool {
    let is_nested = |rig: &Rig| rig.sets_pass_by(judge_meeting_sets) && !rig.sets_pass_by(judge_sets);
    read_form(text).is_some_and(|rig| is_nested(&rig) && rig.all_but_sets_pass())
}

/// What is written changed.
fn with_written(call: &Call, change: impl Fn(&[u8]) -> Vec<u8>) -> Printed {
    match answer(call) {
        Answer::Text(text) => Answer::Text(ascii(change(text.as_bytes()))),
        other => other,
    }
    .printed()
}

/// The lines of events changed where a file is gone on with.
fn with_events(call: &Call, change: impl Fn(&[u8]) -> Vec<u8>) -> Printed {
    match how(call) {
        How::Save(Some(_)) | How::Play(_) => {
            answer(&Call { words: call.words.clone(), input: change(&call.input) }).printed()
        }
        _ => answer(call).printed(),
    }
}

fn changed(call: &Call, output: &str, other: &str) -> Printed {
    let mut printed = answer(call).printed();
    if printed.output == output {
        printed.output = other.to_string();
    }
    printed
}

fn ascii(text: Vec<u8>) -> String {
    String::from_utf8_lossy(&text).into_owned()
}

fn each_line(text: &[u8], change: impl Fn(&str) -> String) -> Vec<u8> {
    let changed = |line: &[u8]| match std::str::from_utf8(line) {
        Ok(line) => change(line).into_bytes(),
        Err(_) => line.to_vec(),
    };
    text.split_inclusive(|&byte| byte == b'\n').flat_map(changed).collect()
}

fn each_number(text: &[u8], change: impl Fn(&str) -> String) -> Vec<u8> {
    let mut new = Vec::new();
    let mut end = 0;
    for range in crate::damage::numbers(text) {
        new.extend(&text[end..range.start]);
        new.extend(change(std::str::from_utf8(&text[range.clone()]).expect("digits")).bytes());
        end = range.end;
    }
    new.extend(&text[end..]);
    new
}

fn without_zeros(digits: &str) -> String {
    let rest = digits.trim_start_matches('0');
    if rest.is_empty() { "0" } else { rest }.to_string()
}

/// The last so many bits of a long number.
fn wrapped(digits: &str, bits: u32) -> String {
    match digits.parse::<u128>() {
        Ok(number) if !digits.starts_with('0') => (number % (1 << bits)).to_string(),
        _ => digits.to_string(),
    }
}

fn ended(text: &[u8]) -> Vec<u8> {
    let end: &[u8] = if text.is_empty() || text.ends_with(b"\n") { b"" } else { b"\n" };
    [text, end].concat()
}

fn without_zero_bytes(text: &[u8]) -> Vec<u8> {
    let length = text.iter().rposition(|&byte| byte != 0).map_or(0, |last| last + 1);
    text[..length].to_vec()
}

/// The line of a fail without its number.
fn fail_in_short(line: &str) -> String {
    match line.rsplit_once(',') {
        Some((rest, _)) if rest.starts_with("message=5,") && rest.matches(',').count() == 2 => {
            format!("{rest}\n")
        }
        _ => line.to_string(),
    }
}

/// The same if the number is 0.
fn fail_without_zero(line: &str) -> String {
    if line.ends_with(",0\n") {
        fail_in_short(line)
    } else {
        line.to_string()
    }
}

fn limited_clock(line: &str) -> String {
    let number = line.strip_prefix("clock=").and_then(|value| value.trim_end().parse::<u32>().ok());
    match number {
        Some(number) if number > LARGEST_NUMBER => format!("clock={LARGEST_NUMBER}\n"),
        _ => line.to_string(),
    }
}

fn message_count(text: &[u8]) -> usize {
    text.split(|&byte| byte == b'\n').filter(|line| line.starts_with(b"message=")).count()
}

fn without_message_1025(text: &[u8]) -> Vec<u8> {
    if message_count(text) == MOST_UNDER_WAY + 1 {
        without_last_message(text)
    } else {
        text.to_vec()
    }
}

fn without_last_message(text: &[u8]) -> Vec<u8> {
    let mut lines: Vec<&[u8]> = text.split_inclusive(|&byte| byte == b'\n').collect();
    if lines.last().is_some_and(|line| line.starts_with(b"message=")) {
        lines.pop();
    }
    lines.concat()
}

/// The rig without the heirs that are not tied to the arbiter, if that makes
/// it well shaped.
fn without_heirs(mut rig: Rig) -> Option<Rig> {
    let members: Vec<Vec<u16>> = rig.sites().map(|site| rig.members(site).to_vec()).collect();
    for site in rig.sites() {
        for (arbiter, tie) in (0..).zip(&mut rig.desk_mut(site).ties) {
            let tied =
                |heir: u16| members.get(usize::from(heir) - 1).is_some_and(|set| set.contains(&arbiter));
            tie.heir = tie.heir.filter(|&heir| tied(heir));
        }
    }
    Some(rig).filter(|rig| !rig.is_misshapen())
}

/// The rig, if it would be well shaped without its messages.
fn without_messages(rig: Rig) -> Option<Rig> {
    let mut bare = rig.clone();
    bare.under_way_mut().clear();
    Some(rig).filter(|_| !bare.is_misshapen())
}

fn lines_are_short(text: &[u8]) -> bool {
    text.split(|&byte| byte == b'\n').all(|line| line.len() <= LONGEST_LINE)
}

fn replies_are_tied(rig: &Rig) -> bool {
    rig.under_way().iter().all(|message| match message.body {
        Body::Reply { arbiter, .. } => {
            message.from == arbiter || rig.members(message.from).contains(&arbiter)
        }
        _ => true,
    })
}

fn heirs_are_held(rig: &Rig) -> bool {
    rig.sites().all(|site| rig.desk(site).ties.iter().all(|tie| tie.heir.is_none() || tie.held.is_some()))
}

fn fails_are_numbered(rig: &Rig) -> bool {
    rig.under_way().iter().all(|message| message.body != Body::Fail { seq: None })
}

fn sets_are_unlike(rig: &Rig) -> bool {
    rig.sites().all(|site| (1..site).all(|other| rig.members(other) != rig.members(site)))
}

fn one_inside(rig: &Rig) -> bool {
    rig.sites().filter(|&site| rig.desk(site).mode == Mode::Inside).count() <= 1
}

fn holders_have_grants(rig: &Rig) -> bool {
    rig.sites().all(|site| rig.desk(site).arbiter.holder.is_none() || rig.desk(site).arbiter.grant > 0)
}

fn key_or(line: &str, key: &str, other: &str) -> String {
    let has = line.split_once('=').is_some_and(|(found, _)| found == key);
    if has { other } else { line }.to_string()
}

fn mode_without_mark(line: &str) -> String {
    match line.strip_suffix(",1\n") {
        Some(rest) if rest.starts_with("mode=1,") => format!("{rest},0\n"),
        _ => line.to_string(),
    }
}

/// The lines `heir=` and `inquired=` exchanged.
fn heir_and_inquired(text: &[u8]) -> Vec<u8> {
    let mut lines: Vec<&[u8]> = text.split_inclusive(|&byte| byte == b'\n').collect();
    for place in 1..lines.len() {
        let first = lines[place - 1].split(|&byte| byte == b'=').next();
        let second = lines[place].split(|&byte| byte == b'=').next();
        if let (Some(b"heir"), Some(b"inquired")) | (Some(b"inquired"), Some(b"heir")) = (first, second) {
            lines.swap(place - 1, place);
        }
    }
    lines.concat()
}

/// Places counted on from the accepted events.
fn places_go_on(call: &Call) -> Printed {
    let mut printed = answer(call).printed();
    if let How::Play(saved) = how(call) {
        let accepted = read_text(saved).map_or(0, |rig| rig.accepted());
        let counted = |line: &str| match line.strip_prefix("step=").and_then(|rest| rest.split_once(' ')) {
            Some((place, rest)) => {
                let place: u32 = place.parse().expect("a place");
                format!("step={} {rest}", place + accepted)
            }
            None => line.to_string(),
        };
        printed.output = printed.output.split_inclusive('\n').map(counted).collect();
    }
    printed
}

/// Lines counted as if `sites=` and the sets stood before them.
fn lines_count_the_head(call: &Call) -> Printed {
    let mut printed = answer(call).printed();
    if let How::Play(saved) | How::Save(Some(saved)) = how(call) {
        let head = read_text(saved).map_or(0, |rig| usize::from(rig.size()) + 1);
        if let Some((before, line)) = printed.output.rsplit_once("line=") {
            let line: usize = line.trim_end().parse().expect("a line");
            printed.output = format!("{before}line={}\n", line + head);
        }
    }
    printed
}

/// Another step where a file is gone on with, and another judgement of what
/// may be written.
fn with_step(
    call: &Call,
    step: impl FnMut(&mut Rig, Event) -> Result<(), Refusal>,
    writes: fn(&Rig) -> bool,
) -> Printed {
    let (How::Play(saved) | How::Save(Some(saved))) = how(call) else { return answer(call).printed() };
    let Some(mut rig) = read_text(saved) else { return no_saved_text().printed() };
    let mut output = Vec::new();
    let stop = go_on_with(&mut rig, &call.input, step, &mut output).err();
    let stop = stop.map(|stop| format!("{stop}\n"));
    match (how(call), stop) {
        (How::Play(_), stop) => Answer::Lines(ascii(output) + &stop.unwrap_or_default()),
        (_, Some(stop)) => Answer::Stop(stop),
        (_, None) if writes(&rig) => Answer::Text(text_of(&rig)),
        (_, None) => Answer::Stop("stop=10\n".to_string()),
    }
    .printed()
}

/// A fail to a waiting site taken for one with another number, told from its
/// own and from that of the site.
fn with_fails(call: &Call, number: fn(Option<u32>, u32) -> Option<u32>) -> Printed {
    let step = |rig: &mut Rig, event| {
        let mut changed = rig.clone();
        if let Some((place, Message { to, body: Body::Fail { seq }, .. })) = delivered(rig, event) {
            if let Mode::Waiting { seq: own, .. } = rig.desk(to).mode {
                changed.under_way_mut()[place].body = Body::Fail { seq: number(seq, own) };
            }
        }
        if rig.is_misshapen() {
            return Err(Refusal::Misshapen);
        }
        changed.apply(event).map(|()| *rig = changed)
    };
    with_step(call, step, |rig| !rig.is_misshapen())
}

/// Lines `sites=` and `set=` left out of the events.
fn sites_and_sets_pass(call: &Call) -> Printed {
    with_events(call, |events| {
        each_line(events, |line| {
            let is_head = line.starts_with("sites=") || line.starts_with("set=");
            if is_head { "" } else { line }.to_string()
        })
    })
}

/// The state before a malformed line printed, then the stop line.
fn stop_prints_text(call: &Call) -> Printed {
    let mut printed = answer(call).printed();
    if let How::Save(Some(saved)) = how(call) {
        if let (true, Some(mut rig)) = (printed.output.starts_with("stop=11"), read_text(saved)) {
            let _ = go_on(&mut rig, &call.input, &mut Vec::new());
            printed.output = text_of(&rig) + &printed.output;
        }
    }
    printed
}

/// A text that stops at a late line prints the state before it.
fn late_stop_prints_text(call: &Call) -> Printed {
    let mut printed = answer(call).printed();
    if let (How::Save(None), true) = (how(call), printed.output.starts_with("stop=11")) {
        let line: usize =
            printed.output.trim_end().rsplit('=').next().and_then(|line| line.parse().ok()).unwrap_or(0);
        if line > MOST_SITES + 1 {
            let lines = call.input.split_inclusive(|&byte| byte == b'\n').take(line - 1);
            if let Ok(rig) = last_state(&lines.collect::<Vec<_>>().concat()) {
                printed.output = text_of(&rig);
            }
        }
    }
    printed
}

#[cfg(test)]
mod tests {
    use super::*;
    use crate::state_calls;

    #[test]
    fn the_calls_tell_every_fault() {
        let mut trials = state_calls::fixed();
        trials.extend((0..120).flat_map(|place| state_calls::round(1, place)));
        let is_large = |word: &Word| matches!(word, Word::File(bytes) if bytes.len() > 100_000);
        trials.retain(|trial| !trial.call.words.iter().any(is_large) && trial.call.input.len() < 100_000);
        for (name, keeper) in FAULTS {
            let tells = |trial: &&state_calls::Trial| keeper(&trial.call) != trial.answer.printed();
            let told = trials.iter().filter(tells).count();
            println!("{name}: told by {told} of {}", trials.len());
            assert!(told > 0, "{name}");
            assert!(told < trials.len(), "{name}");
        }
    }
}
