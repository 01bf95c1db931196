//! Faults of a player in judging sets inside others (request 2.6), planted on
//! purpose.

use crate::faults::Player;
use crate::model::grammar::{set_line, sites_line};
use crate::model::setup::{is_inside, judge_meeting_sets, judge_sets, set_of, Judgement};
use crate::model::{play, play_judged, Refusal};

/// The planted faults, by the name under which they are asked for.
pub const FAULTS: [(&str, Player); 13] = [
    ("nested-sets-pass", |text| judged(text, judge_meeting_sets)),
    ("equal-sets-are-refused", |text| judged(text, |sets| after_3(sets, is_inside_or_equal))),
    ("sets-must-be-equally-large", |text| {
        judged(text, |sets| after_3(sets, |earlier, set| earlier.count_ones() != set.count_ones()))
    }),
    ("a-set-may-hold-an-earlier-one", |text| judged(text, inside_an_earlier)),
    ("a-set-may-lie-in-an-earlier-one", |text| judged(text, around_an_earlier)),
    ("nested-sets-are-neighbours", |text| judged(text, neighbours)),
    ("sets-are-compared-with-the-first", |text| judged(text, with_the_first)),
    ("17-names-the-earlier-set", |text| judged(text, names_the_earlier)),
    ("17-goes-by-the-earlier-set", |text| judged(text, by_the_earlier)),
    ("17-names-the-last-set", |text| judged(text, names_the_last)),
    ("17-before-3", |text| judged(text, |sets| before(sets, Refusal::SetsMiss))),
    ("17-before-2", |text| judged(text, |sets| before(sets, Refusal::FaultySet))),
    ("17-before-11", before_11),
];

/// Plays a text with another judgement of its sets.
fn judged(text: &[u8], judge: fn(&[u64]) -> Judgement) -> Vec<u8> {
    play_judged(text, judge).0
}

fn are_nested(one: u64, other: u64) -> bool {
    is_inside(one, other) || is_inside(other, one)
}

fn is_inside_or_equal(one: u64, other: u64) -> bool {
    are_nested(one, other) || one == other
}

/// 17 for the first set that has one before it to which it stands so.
fn first(sets: &[u64], wrong: impl Fn(u64, u64) -> bool) -> Judgement {
    let place = (0..sets.len()).find(|&late| sets[..late].iter().any(|&earlier| wrong(earlier, sets[late])));
    named(place)
}

fn named(place: Option<usize>) -> Judgement {
    place.map_or(Ok(()), |place| Err((Refusal::NestedSets, place + 1)))
}

fn after_3(sets: &[u64], wrong: impl Fn(u64, u64) -> bool) -> Judgement {
    judge_meeting_sets(sets)?;
    first(sets, wrong)
}

/// Only a set inside an earlier one is refused.
pub(crate) fn inside_an_earlier(sets: &[u64]) -> Judgement {
    after_3(sets, |earlier, set| is_inside(set, earlier))
}

/// Only a set around an earlier one is refused.
pub(crate) fn around_an_earlier(sets: &[u64]) -> Judgement {
    after_3(sets, is_inside)
}

fn neighbours(sets: &[u64]) -> Judgement {
    judge_meeting_sets(sets)?;
    named((1..sets.len()).find(|&late| are_nested(sets[late - 1], sets[late])))
}

fn with_the_first(sets: &[u64]) -> Judgement {
    judge_meeting_sets(sets)?;
    named((1..sets.len()).find(|&late| are_nested(sets[0], sets[late])))
}

/// The right pair, but the earlier set of it is named.
fn names_the_earlier(sets: &[u64]) -> Judgement {
    let Err((Refusal::NestedSets, late)) = judge_sets(sets) else { return judge_sets(sets) };
    named((0..late).find(|&early| are_nested(sets[early], sets[late - 1])))
}

/// The pair with the earliest set is told, not that with the earliest later
/// one.
fn by_the_earlier(sets: &[u64]) -> Judgement {
    judge_meeting_sets(sets)?;
    let later = |early: usize| (early + 1..sets.len()).find(|&late| are_nested(sets[early], sets[late]));
    named((0..sets.len()).find_map(later))
}

fn names_the_last(sets: &[u64]) -> Judgement {
    judge_meeting_sets(sets)?;
    let is_nested = |&late: &usize| sets[..late].iter().any(|&earlier| are_nested(earlier, sets[late]));
    named((0..sets.len()).rev().find(is_nested))
}

/// 17 is judged before this refusal.
fn before(sets: &[u64], other: Refusal) -> Judgement {
    match judge_sets(sets) {
        Err((refusal, site)) if refusal == other => first(sets, are_nested).and(Err((refusal, site))),
        judgement => judgement,
    }
}

/// 17 is told before a later set is read, which is malformed or lacking.
fn before_11(text: &[u8]) -> Vec<u8> {
    let output = play(text);
    if !output.starts_with(b"stop=11 ") {
        return output;
    }
    let mut lines = text.split(|&byte| byte == b'\n');
    let n = lines.next().and_then(sites_line).map_or(0, usize::from);
    let sets: Vec<u64> = lines.take(n).map_while(set_line).map(|list| set_of(&list)).collect();
    match first(&sets, are_nested) {
        Err((refusal, site)) if sets.len() < n => {
            format!("stop={} line={}\n", refusal.code(), site + 1).into_bytes()
        }
        _ => output,
    }
}
