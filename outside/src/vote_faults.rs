//! Faults of a program `plan` with votes, planted on purpose.

use crate::model::{votes, Refusal, Site, MOST_SITES};
use crate::plan::{answer, Answer, Printed};
use crate::plan_faults::Planner;
use crate::rigs::{full, Lists};

/// The planted faults, by the name under which they are asked for.
pub const FAULTS: [(&str, Planner); 19] = [
    ("half-is-enough", |words| with_bound(words, |taken, sum| 2 * taken >= sum)),
    ("half-is-rounded-up", |words| with_bound(words, |taken, sum| taken > sum.div_ceil(2))),
    ("sums-have-8-bits", |words| with_bound(words, |taken, sum| taken as u8 > sum as u8 / 2)),
    ("runs-start-late", |words| {
        with_runs(words, |votes, n| taken(votes, round(votes, n % votes.len() + 1), is_more_than_half))
    }),
    ("runs-stop-late", |words| {
        with_runs(words, |votes, n| {
            let right = taken(votes, round(votes, n), is_more_than_half);
            round(votes, n).take(right.len() + 1).collect()
        })
    }),
    ("runs-end-at-the-last-site", |words| {
        with_runs(words, |votes, n| taken(votes, n..=votes.len(), is_more_than_half))
    }),
    ("runs-leave-the-last-site-out", |words| {
        with_runs(words, |votes, n| {
            let others = round(votes, n).filter(|&site| site == n || site < votes.len());
            taken(votes, others, is_more_than_half)
        })
    }),
    ("runs-go-down", |words| {
        with_runs(words, |votes, n| {
            taken(votes, (1..=n).rev().chain((n + 1..=votes.len()).rev()), is_more_than_half)
        })
    }),
    ("desks-without-votes-are-skipped", |words| {
        with_runs(words, |votes, n| {
            taken(votes, round(votes, n).filter(|site| votes[site - 1] > 0), is_more_than_half)
        })
    }),
    ("votes-judged-before-their-number", |words| {
        with_votes(words, |votes| votes::judge(votes).and_then(|()| votes::lists(votes)))
    }),
    ("vote-100-is-refused", |words| refusing(words, 100)),
    ("a-vote-of-0-is-refused", |words| refusing(words, 0)),
    ("vote-101-passes", |words| with_each_vote(words, |vote| if vote == 101 { 100 } else { vote })),
    ("votes-have-8-bits", |words| with_each_vote(words, |vote| u64::from(vote as u8))),
    ("all-votes-0-pass", |words| {
        with_votes(words, |votes| match votes.len() {
            n @ 1..=MOST_SITES if votes.iter().all(|&vote| vote == 0) => Ok(full(n)),
            _ => votes::lists(votes),
        })
    }),
    ("the-number-of-votes-has-8-bits", |words| {
        with_votes(words, |votes| votes::lists(&votes[..usize::from(votes.len() as u8)]))
    }),
    ("votes-give-12", |words| with_votes(words, |votes| votes::lists(votes).or(Err(Refusal::Parameter)))),
    ("words-past-31-votes-are-not-judged", |words| {
        let many = is_votes(words) && words.len() > 1 + MOST_SITES;
        let answer = if many { Answer::Code(Refusal::SiteCount) } else { answer(words) };
        answer.printed()
    }),
    ("votes-is-no-family", |words| {
        let answer = if is_votes(words) { Answer::Usage } else { answer(words) };
        answer.printed()
    }),
];

fn is_votes(words: &[Vec<u8>]) -> bool {
    words.first().is_some_and(|name| name == b"votes")
}

/// The votes, where the use is right and all have 64 bits.
fn votes_of(words: &[Vec<u8>]) -> Option<Vec<u64>> {
    if !is_votes(words) || answer(words) == Answer::Usage {
        return None;
    }
    words[1..].iter().map(|word| std::str::from_utf8(word).ok()?.parse().ok()).collect()
}

/// The sets made of votes in another way.
fn with_votes(words: &[Vec<u8>], lists: impl Fn(&[u64]) -> Result<Lists, Refusal>) -> Printed {
    match votes_of(words) {
        None => answer(words).printed(),
        Some(votes) => lists(&votes).map_or_else(Answer::Code, Answer::Sets).printed(),
    }
}

fn with_each_vote(words: &[Vec<u8>], change: impl Fn(u64) -> u64) -> Printed {
    with_votes(words, |votes| {
        let votes: Vec<u64> = votes.iter().map(|&vote| change(vote)).collect();
        votes::lists(&votes)
    })
}

/// One vote that is right is turned down too.
fn refusing(words: &[Vec<u8>], refused: u64) -> Printed {
    with_votes(words, |votes| match votes::lists(votes) {
        Ok(_) if votes.contains(&refused) => Err(Refusal::Votes),
        lists => lists,
    })
}

/// Runs that stop by another bound.
fn with_bound(words: &[Vec<u8>], enough: impl Fn(u64, u64) -> bool) -> Printed {
    with_runs(words, |votes, n| taken(votes, round(votes, n), &enough))
}

/// Other runs; the refusals are right.
fn with_runs(words: &[Vec<u8>], run: impl Fn(&[u64], usize) -> Vec<usize>) -> Printed {
    with_votes(words, |votes| {
        votes::lists(votes)?;
        Ok((1..=votes.len()).map(|n| ascending(run(votes, n))).collect())
    })
}

fn ascending(mut run: Vec<usize>) -> Vec<Site> {
    run.sort_unstable();
    run.into_iter().map(|site| site as Site).collect()
}

/// All sites from `n` on, after the last again 1.
fn round(votes: &[u64], n: usize) -> impl Iterator<Item = usize> {
    (n..=votes.len()).chain(1..n)
}

fn is_more_than_half(taken: u64, sum: u64) -> bool {
    2 * taken > sum
}

/// The sites of a round up to the one with which the votes taken are enough.
fn taken(votes: &[u64], round: impl Iterator<Item = usize>, enough: impl Fn(u64, u64) -> bool) -> Vec<usize> {
    let sum = votes.iter().sum();
    let mut count = 0;
    let mut run = Vec::new();
    for site in round {
        run.push(site);
        count += votes[site - 1];
        if enough(count, sum) {
            break;
        }
    }
    run
}

#[cfg(test)]
mod tests {
    use super::*;

    /// Without a fault the runs are those of the reading.
    #[test]
    fn right_runs_are_no_fault() {
        let mut calls = Vec::new();
        crate::vote_calls::put_all(&mut calls, 1);
        for call in calls {
            assert_eq!(with_bound(&call, is_more_than_half), answer(&call).printed());
        }
    }
}
