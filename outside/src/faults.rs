//! Faults planted on purpose, to see that the comparer finds them.
//!
//! The first four are those of the paper's section "Faults a desk would show".
//! All are made from outside: the model itself stays free of them.

use crate::model::{
    play, play_by, Arbiter, Body, Change, Event, Message, Mode, Refusal, Rig, Site, Version, MOST_ACCEPTED,
    MOST_UNDER_WAY,
};
use crate::set_faults;

/// Plays a text.
pub type Player = fn(&[u8]) -> Vec<u8>;

/// The planted faults, by the name under which they are asked for.
pub fn faults() -> impl Iterator<Item = (&'static str, Player)> {
    FAULTS.into_iter().chain(set_faults::FAULTS)
}

/// The faults that have nothing to do with sets inside others.
const FAULTS: [(&str, Player); 19] = [
    ("early-release-is-stray", |text| play_with(text, stray_early_release)),
    ("any-transfer-counts", |text| play_with(text, any_transfer)),
    ("inquire-before-reply-is-dropped", |text| play_with(text, dropped_inquire)),
    ("reply-clears-failed", |text| play_with(text, reply_clears_failed)),
    ("any-inquire-counts", |text| play_with(text, any_inquire)),
    ("former-head-is-not-told", |text| play_with(text, former_head_not_told)),
    ("fail-carries-the-arbiters-clock", |text| play_with(text, arbiters_clock)),
    ("fail-carries-the-receivers-clock", |text| play_with(text, receivers_clock)),
    ("former-head-gets-the-new-heads-number", |text| play_with(text, new_heads_number)),
    ("any-fail-counts", |text| play_with(text, any_fail)),
    ("earlier-rule", |text| play_by(Version::Earlier, text)),
    ("full-list-is-one-too-short", |text| play_with(text, short_list)),
    ("spent-one-too-soon", |text| play_with(text, spent_too_soon)),
    ("nine-before-seven", |text| play_with(text, nine_before_seven)),
    ("last-line-needs-no-end", |text| played_if(text, ends_whole, end_last_line)),
    ("carriage-returns-pass", |text| played_if(text, |_| false, drop_carriage_returns)),
    ("line-may-have-97-bytes", |text| played_if(text, |_| false, shorten_97)),
    ("empty-lines-pass", |text| played_if(text, |_| false, drop_empty_lines)),
    ("outside-sites-come-after-missing", three_before_two),
];

/// Plays a text with a planted fault; nothing if there is no such fault.
pub fn play_with_fault(name: &str, text: &[u8]) -> Option<Vec<u8>> {
    let (_, player) = faults().find(|(known, _)| *known == name)?;
    Some(player(text))
}

/// Plays a text with another step.
fn play_with(text: &[u8], step: fn(&mut Rig, Event) -> Result<(), Refusal>) -> Vec<u8> {
    crate::model::play_with(Version::Present, text, step)
}

/// The message an event would deliver, with its place.
pub(crate) fn delivered(rig: &Rig, event: Event) -> Option<(usize, Message)> {
    let Event::Move(from, to) = event else {
        return None;
    };
    let place = rig.first(from, to)?;
    Some((place, rig.under_way()[place]))
}

/// Makes the message to be delivered one that does nothing.
fn make_void(rig: &mut Rig, place: usize) {
    rig.under_way_mut()[place].body = Body::Transfer { heir: 1, grant: u32::MAX };
}

fn is_early(arbiter: &Arbiter, from: Site, body: Body) -> bool {
    match body {
        Body::Release { heir: None, grant } => grant == arbiter.grant + 1 && arbiter.queued(from).is_some(),
        _ => false,
    }
}

fn stray_early_release(rig: &mut Rig, event: Event) -> Result<(), Refusal> {
    if let Some((place, message)) = delivered(rig, event) {
        if is_early(&rig.desk(message.to).arbiter, message.from, message.body) {
            make_void(rig, place);
        }
    }
    rig.apply(event)
}

fn any_transfer(rig: &mut Rig, event: Event) -> Result<(), Refusal> {
    if let Some((place, message)) = delivered(rig, event) {
        let held = rig.desk(message.to).tie(message.from).held;
        if let (Body::Transfer { heir, .. }, Some(grant)) = (message.body, held) {
            rig.under_way_mut()[place].body = Body::Transfer { heir, grant };
        }
    }
    rig.apply(event)
}

fn any_inquire(rig: &mut Rig, event: Event) -> Result<(), Refusal> {
    if let Some((place, message)) = delivered(rig, event) {
        let held = rig.desk(message.to).tie(message.from).held;
        if let (Body::Inquire { .. }, Some(grant)) = (message.body, held) {
            rig.under_way_mut()[place].body = Body::Inquire { grant };
        }
    }
    rig.apply(event)
}

fn former_head_not_told(rig: &mut Rig, event: Event) -> Result<(), Refusal> {
    let is_request =
        delivered(rig, event).is_some_and(|(_, message)| matches!(message.body, Body::Request { .. }));
    let mut change = rig.plan(event)?;
    if is_request && change.sent.len() == 3 {
        change.sent.remove(0);
    }
    rig.commit(change);
    Ok(())
}

/// Gives the fails of an event other numbers.
fn with_numbers(
    rig: &mut Rig,
    event: Event,
    number: impl Fn(&Rig, &Change, Site) -> Option<u32>,
) -> Result<(), Refusal> {
    let mut change = rig.plan(event)?;
    for place in 0..change.sent.len() {
        let Message { to, body, .. } = change.sent[place];
        if let (Body::Fail { .. }, Some(number)) = (body, number(rig, &change, to)) {
            change.sent[place].body = Body::Fail { seq: Some(number) };
        }
    }
    rig.commit(change);
    Ok(())
}

fn arbiters_clock(rig: &mut Rig, event: Event) -> Result<(), Refusal> {
    with_numbers(rig, event, |_, change, _| Some(change.desk.clock))
}

fn receivers_clock(rig: &mut Rig, event: Event) -> Result<(), Refusal> {
    with_numbers(rig, event, |rig, _, to| Some(rig.desk(to).clock))
}

fn new_heads_number(rig: &mut Rig, event: Event) -> Result<(), Refusal> {
    with_numbers(rig, event, |_, change, _| match change.sent[..] {
        [_, _, _] => change.desk.arbiter.head().map(|head| head.seq),
        _ => None,
    })
}

fn any_fail(rig: &mut Rig, event: Event) -> Result<(), Refusal> {
    if let Some((place, Message { body: Body::Fail { .. }, .. })) = delivered(rig, event) {
        rig.under_way_mut()[place].body = Body::Fail { seq: None };
    }
    rig.apply(event)
}

fn dropped_inquire(rig: &mut Rig, event: Event) -> Result<(), Refusal> {
    if let Some((place, message)) = delivered(rig, event) {
        let held = rig.desk(message.to).tie(message.from).held;
        if matches!(message.body, Body::Inquire { .. }) && held.is_none() {
            make_void(rig, place);
        }
    }
    rig.apply(event)
}

fn reply_clears_failed(rig: &mut Rig, event: Event) -> Result<(), Refusal> {
    let message = delivered(rig, event);
    rig.apply(event)?;
    if let Some((_, message)) = message {
        if let (Body::Reply { .. }, Mode::Waiting { failed, .. }) =
            (message.body, &mut rig.desk_mut(message.to).mode)
        {
            *failed = false;
        }
    }
    Ok(())
}

fn short_list(rig: &mut Rig, event: Event) -> Result<(), Refusal> {
    let change = rig.plan(event)?;
    let length = rig.under_way().len() + change.sent.len() - change.taken_count();
    if length >= MOST_UNDER_WAY {
        return Err(Refusal::ListFull);
    }
    rig.commit(change);
    Ok(())
}

fn spent_too_soon(rig: &mut Rig, event: Event) -> Result<(), Refusal> {
    let change = rig.plan(event)?;
    if rig.accepted() == MOST_ACCEPTED - 1 {
        return Err(Refusal::Spent);
    }
    rig.commit(change);
    Ok(())
}

fn nine_before_seven(rig: &mut Rig, event: Event) -> Result<(), Refusal> {
    match rig.apply(event) {
        Err(Refusal::NothingUnderWay) if rig.accepted() == MOST_ACCEPTED => Err(Refusal::Spent),
        outcome => outcome,
    }
}

/// Plays the text as it is if that is in order, otherwise a changed one.
fn played_if(text: &[u8], in_order: impl Fn(&[u8]) -> bool, change: impl Fn(&[u8]) -> Vec<u8>) -> Vec<u8> {
    if in_order(text) {
        play(text)
    } else {
        play(&change(text))
    }
}

fn ends_whole(text: &[u8]) -> bool {
    text.is_empty() || text.ends_with(b"\n")
}

fn end_last_line(text: &[u8]) -> Vec<u8> {
    [text, b"\n"].concat()
}

fn drop_carriage_returns(text: &[u8]) -> Vec<u8> {
    text.iter().copied().filter(|&byte| byte != b'\r').collect()
}

/// Takes the last number off a line of 97 bytes.
fn shorten_97(text: &[u8]) -> Vec<u8> {
    text.split_inclusive(|&byte| byte == b'\n')
        .flat_map(|line| match line.iter().rposition(|&byte| byte == b',') {
            Some(comma) if line.len() == 98 => [&line[..comma], b"\n"].concat(),
            _ => line.to_vec(),
        })
        .collect()
}

fn drop_empty_lines(text: &[u8]) -> Vec<u8> {
    text.split_inclusive(|&byte| byte == b'\n').filter(|line| *line != b"\n").collect::<Vec<_>>().concat()
}

/// Judges meeting before it judges what the sets name.
fn three_before_two(text: &[u8]) -> Vec<u8> {
    use crate::model::grammar::{set_line, sites_line};
    let output = play(text);
    if !output.starts_with(b"stop=2 ") {
        return output;
    }
    let mut lines = text.split(|&byte| byte == b'\n');
    let n = lines.next().and_then(sites_line).map_or(0, usize::from);
    let lists: Vec<Vec<Site>> = lines.take(n).filter_map(set_line).collect();
    for a in 0..lists.len() {
        for b in 0..a {
            if !lists[a].iter().any(|site| lists[b].contains(site)) {
                return format!("stop=3 line={}\n", a + 2).into_bytes();
            }
        }
    }
    output
}

#[cfg(test)]
mod tests {
    use super::*;
    use crate::random::Random;
    use crate::texts;

    /// Every planted fault shows in the fixed texts, the spent one, or the
    /// first few thousand random ones.
    #[test]
    fn the_texts_tell_every_fault() {
        let mut left: Vec<_> = faults().collect();
        let mut try_text = |text: &[u8]| {
            let right = play(text);
            left.retain(|(_, player)| player(text) == right);
            left.len()
        };
        for text in texts::fixed() {
            try_text(&text.bytes);
        }
        try_text(&texts::spent().bytes);
        for place in 0..3_000 {
            let text = texts::random(&mut Random::for_place(1, place));
            if try_text(&text.bytes) == 0 {
                break;
            }
        }
        let names: Vec<&str> = left.iter().map(|(name, _)| *name).collect();
        assert_eq!(names, Vec::<&str>::new());
    }

    /// The random texts alone tell the faults in judging sets inside others.
    #[test]
    fn random_texts_tell_the_faults_of_sets() {
        let mut left: Vec<_> = set_faults::FAULTS.to_vec();
        for place in 0..3_000 {
            let text = texts::random(&mut Random::for_place(2, place));
            let right = play(&text.bytes);
            left.retain(|(_, player)| player(&text.bytes) == right);
        }
        let names: Vec<&str> = left.iter().map(|(name, _)| *name).collect();
        assert_eq!(names, Vec::<&str>::new());
    }
}
