//! The calls of `plan` with votes. Those that all families have, `calls` makes.

use crate::calls::{put, put_numbers, NO_NUMBERS};
use crate::model::votes::MOST_VOTES;
use crate::model::MOST_SITES;
use crate::plan::Words;
use crate::random::Random;
use crate::rigs::any_votes;

/// So many calls have random votes.
const RANDOM: u64 = 1_000;

/// Adds the calls.
pub fn put_all(calls: &mut Vec<Words>, seed: u64) {
    every_list(calls);
    counts(calls);
    (0..=110).for_each(|vote| put_numbers(calls, "votes", &[vote]));
    two_desks(calls);
    one_desk_unlike_the_others(calls);
    no_numbers(calls);
    for place in 0..RANDOM {
        put_numbers(calls, "votes", &random_votes(&mut Random::for_place(seed, place)));
    }
}

/// Every list of few desks with few votes.
fn every_list(calls: &mut Vec<Words>) {
    for (desks, most) in [(1, 3), (2, 3), (3, 3), (4, 3), (5, 3), (6, 1), (7, 1), (8, 1)] {
        put_lists(calls, desks, most, &mut Vec::new());
    }
}

fn put_lists(calls: &mut Vec<Words>, desks: usize, most: u64, start: &mut Vec<u64>) {
    if start.len() == desks {
        return put_numbers(calls, "votes", start);
    }
    for vote in 0..=most {
        start.push(vote);
        put_lists(calls, desks, most, start);
        start.pop();
    }
}

/// Every number of desks, and numbers that a narrower count would take for a
/// small one.
fn counts(calls: &mut Vec<Words>) {
    for count in (0..=40).chain(62..=66).chain([128, 255, 256, 257, 287, 288, 512 + 3]) {
        for vote in [0, 1, MOST_VOTES, MOST_VOTES + 1] {
            put_numbers(calls, "votes", &vec![vote; count]);
        }
    }
    put_numbers(calls, "votes", &vec![1; (1 << 16) + 3]);
}

fn two_desks(calls: &mut Vec<Words>) {
    let votes = [0, 1, 49, 50, 51, 99, 100, 101, 127, 128, 255, 256, 257, (1 << 16) + 1];
    for one in votes {
        for other in votes {
            put_numbers(calls, "votes", &[one, other]);
        }
    }
}

/// At each place the one desk with a vote, with none, with half of all votes,
/// or with too many.
fn one_desk_unlike_the_others(calls: &mut Vec<Words>) {
    for count in [MOST_SITES, MOST_SITES + 1] {
        for place in 0..count {
            let others = count as u64 - 1;
            for (vote, beside) in [(1, 0), (0, 1), (others, 1), (others + 1, 1), (MOST_VOTES + 1, 1)] {
                let mut votes = vec![beside; count];
                votes[place] = vote;
                put_numbers(calls, "votes", &votes);
            }
        }
    }
}

/// A word that is no number at each place of many, beside good and refused
/// votes.
fn no_numbers(calls: &mut Vec<Words>) {
    let mut spoilt = |count: usize, place: usize, word: &str, beside: &str| {
        let mut words = vec![beside; count];
        words[place] = word;
        put(calls, "votes", &words);
    };
    for count in [MOST_SITES, 40] {
        for place in 0..count {
            spoilt(count, place, "x", "1");
            spoilt(count, place, "01", "101");
        }
    }
    for word in NO_NUMBERS.into_iter().chain(["1x", "-1", "+1", "grid", "votes"]) {
        spoilt(1, 0, word, "1");
        spoilt(2, 1, word, "1");
        spoilt(MOST_SITES + 1, MOST_SITES, word, "0");
        spoilt(300, 299, word, "1");
    }
}

/// Votes from which a family is made; once in ten, one of them is too many.
fn random_votes(random: &mut Random) -> Vec<u64> {
    let mut votes = any_votes(random);
    if random.once_in(10) {
        let place = random.below(votes.len());
        votes[place] = random.pick(&[101, 102, 200, 256, 300, 1 << 32, u64::MAX]);
    }
    votes
}

#[cfg(test)]
mod tests {
    use super::*;
    use crate::plan::{answer, Answer};

    fn all() -> Vec<Words> {
        let mut calls = Vec::new();
        put_all(&mut calls, 1);
        calls
    }

    #[test]
    fn there_are_sets_codes_and_wrong_uses() {
        let (mut sets, mut counts, mut votes, mut usages) = (0, 0, 0, 0);
        for call in all() {
            assert_eq!(call[0], b"votes");
            match answer(&call) {
                Answer::Sets(lists) => {
                    assert_eq!(lists.len(), call.len() - 1);
                    sets += 1;
                }
                Answer::Code(refusal) => match refusal.code() {
                    1 => counts += 1,
                    16 => votes += 1,
                    code => panic!("{code}"),
                },
                Answer::Usage => usages += 1,
            }
        }
        let all = [sets, counts, votes, usages];
        assert!(all.iter().all(|&count| count > 100), "{all:?}");
    }

    #[test]
    fn another_seed_gives_other_votes() {
        let mut other = Vec::new();
        put_all(&mut other, 2);
        assert_eq!(other.len(), all().len());
        assert_ne!(other, all());
    }
}
