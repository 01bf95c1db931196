//! The family of request 2.5: sets from the votes of the desks.

use super::setup::{judge_count, set_of};
use super::{Refusal, Site, MOST_SITES};

/// "N votes, each 0 to 100"
pub const MOST_VOTES: u64 = 100;

/// The sets as lists, site 1 first, from the votes of all sites; a refusal for
/// their number or for the votes.
pub fn lists(votes: &[u64]) -> Result<Vec<Vec<Site>>, Refusal> {
    judge_count(votes.len())?;
    judge(votes)?;
    // No more than 31 sites pass.
    let sites = 1..=votes.len() as Site;
    Ok(sites.map(|n| ascending(run(votes, n))).collect())
}

/// "16 for a vote above 100 or all votes 0"
pub fn judge(votes: &[u64]) -> Result<(), Refusal> {
    let above = votes.iter().any(|&vote| vote > MOST_VOTES);
    if above || votes.iter().all(|&vote| vote == 0) {
        return Err(Refusal::Votes);
    }
    Ok(())
}

/// "Site n takes sites n, n + 1 and so on, after N again 1, stopping as soon as
/// the votes taken exceed half of the sum." The sites in the order taken, also
/// those without votes.
fn run(votes: &[u64], n: Site) -> Vec<Site> {
    let sum: u64 = votes.iter().sum();
    let mut taken = 0;
    let mut run = Vec::new();
    for site in (n..=votes.len() as Site).chain(1..n) {
        run.push(site);
        taken += votes[usize::from(site) - 1];
        if 2 * taken > sum {
            break;
        }
    }
    run
}

fn ascending(mut run: Vec<Site>) -> Vec<Site> {
    run.sort_unstable();
    run
}

/// Fills a buffer of sets from a buffer of votes "as long as that of sets;
/// entries past N are not read". Sets past N become empty. "Turned away: 16
/// [...] after 13 (for either buffer) and 1." If refused, the sets are left
/// alone.
pub fn fill(n: usize, votes: &[u64], sets: &mut [u64]) -> Result<(), Refusal> {
    if votes.len() != MOST_SITES || sets.len() != MOST_SITES {
        return Err(Refusal::Buffer);
    }
    judge_count(n)?;
    let lists = lists(&votes[..n])?;
    sets.fill(0);
    for (entry, list) in sets.iter_mut().zip(&lists) {
        *entry = set_of(list);
    }
    Ok(())
}

#[cfg(test)]
mod tests {
    use super::super::setup;
    use super::*;
    use crate::random::Random;
    use crate::rigs::any_votes;

    #[test]
    fn equal_votes() {
        // More than 2 1/2 of 5: three sites.
        let worked = [[1, 2, 3], [2, 3, 4], [3, 4, 5], [1, 4, 5], [1, 2, 5]];
        assert_eq!(lists(&[1; 5]).unwrap(), worked);
        // Half of 4 is met exactly by two sites, so a third is taken.
        assert_eq!(lists(&[1; 4]).unwrap(), [[1, 2, 3], [2, 3, 4], [1, 3, 4], [1, 2, 4]]);
        assert_eq!(lists(&[50; 2]).unwrap(), [[1, 2], [1, 2]]);
    }

    #[test]
    fn a_main_desk() {
        // More than 4 of 8: site 1 alone has 5, the others have 3 together.
        let worked: [&[Site]; 4] = [&[1], &[1, 2, 3, 4], &[1, 3, 4], &[1, 4]];
        assert_eq!(lists(&[5, 1, 1, 1]).unwrap(), worked);
        // More than 3 of 6: site 1 has half, and so have the others together.
        let worked: [&[Site]; 4] = [&[1, 2], &[1, 2, 3, 4], &[1, 3, 4], &[1, 4]];
        assert_eq!(lists(&[3, 1, 1, 1]).unwrap(), worked);
        // More than 2 1/2 of 5: the main desk is in the middle.
        let worked: [&[Site]; 3] = [&[1, 2], &[2], &[1, 2, 3]];
        assert_eq!(lists(&[1, 3, 1]).unwrap(), worked);
    }

    #[test]
    fn desks_without_votes_are_taken_on_the_way() {
        // More than 1 1/2 of 3. Site 3 goes by 4, 5 and 1 with one vote to 2.
        let worked: [&[Site]; 5] = [&[1, 2], &[2], &[1, 2, 3, 4, 5], &[1, 2, 4, 5], &[1, 2, 5]];
        assert_eq!(lists(&[0, 2, 0, 1, 0]).unwrap(), worked);
        // One desk has all votes.
        let worked: [&[Site]; 3] = [&[1, 2, 3], &[2, 3], &[3]];
        assert_eq!(lists(&[0, 0, 1]).unwrap(), worked);
    }

    #[test]
    fn one_desk() {
        for vote in [1, 7, 100] {
            assert_eq!(lists(&[vote]).unwrap(), [[1]]);
        }
    }

    /// Half of 3,100 is 1,550: fifteen sites have 1,500, sixteen 1,600.
    #[test]
    fn thirty_one_desks_of_100() {
        let lists = lists(&[100; 31]).unwrap();
        assert_eq!(lists[0], (1..=16).collect::<Vec<Site>>());
        assert_eq!(lists[15], (16..=31).collect::<Vec<Site>>());
        assert_eq!(lists[16], (1..=1).chain(17..=31).collect::<Vec<Site>>());
        assert_eq!(lists[30], (1..=15).chain(31..=31).collect::<Vec<Site>>());
    }

    #[test]
    fn refusals_of_votes() {
        for votes in [&[101][..], &[100, 101], &[101, 0], &[0], &[0; 3], &[0; 31], &[u64::MAX, 1]] {
            assert_eq!(lists(votes), Err(Refusal::Votes), "{votes:?}");
        }
        for votes in [&[][..], &[1; 32], &[0; 32], &[101; 32]] {
            assert_eq!(lists(votes), Err(Refusal::SiteCount), "{votes:?}");
        }
        assert_eq!(Refusal::Votes.code(), 16);
    }

    #[test]
    fn buffers_are_judged_first_and_left_alone_if_refused() {
        let mut sets = [7; 32];
        let votes = [101; 32];
        for (n, of_votes, of_sets, code) in [
            (0, 30, 31, 13),
            (0, 32, 31, 13),
            (0, 31, 30, 13),
            (0, 31, 32, 13),
            (0, 0, 0, 13),
            (32, 32, 32, 13),
            (0, 31, 31, 1),
            (32, 31, 31, 1),
            (usize::MAX, 31, 31, 1),
            (1, 31, 31, 16),
            (31, 31, 31, 16),
        ] {
            let refused = fill(n, &votes[..of_votes], &mut sets[..of_sets]).unwrap_err();
            assert_eq!(refused.code(), code, "{n} sites, {of_votes} votes, {of_sets} sets");
        }
        assert_eq!(fill(31, &[0; 31], &mut sets[..31]), Err(Refusal::Votes));
        assert_eq!(sets, [7; 32]);
    }

    #[test]
    fn entries_past_the_sites_are_not_read() {
        let mut sets = [u64::MAX; MOST_SITES];
        let mut votes = [u64::MAX; MOST_SITES];
        votes[..4].copy_from_slice(&[5, 1, 1, 1]);
        assert_eq!(fill(4, &votes, &mut sets), Ok(()));
        assert_eq!(sets[..4], [0b0001, 0b1111, 0b1101, 0b1001]);
        assert_eq!(sets[4..], [0; 27]);
        // All votes of the one site are 0, whatever follows.
        votes[0] = 0;
        votes[1..].fill(1);
        assert_eq!(fill(1, &votes, &mut sets), Err(Refusal::Votes));
    }

    /// "that two sets meet and that no shorter run from n would do"
    #[test]
    fn every_two_sets_meet_and_no_shorter_run_would_do() {
        let mut random = Random::new(5);
        for _ in 0..3_000 {
            let votes = any_votes(&mut random);
            let n = votes.len();
            let lists = lists(&votes).unwrap();
            let sets: Vec<u64> = lists.iter().map(|list| set_of(list)).collect();
            assert_eq!(setup::judge_meeting_sets(&sets), Ok(()), "{votes:?}");
            let sum: u64 = votes.iter().sum();
            let of_run =
                |start: usize, length: usize| -> u64 { votes.iter().cycle().skip(start).take(length).sum() };
            for (start, &set) in sets.iter().enumerate() {
                let enough = |&length: &usize| of_run(start, length) > sum - of_run(start, length);
                let least = (0..=n).find(enough).unwrap();
                let members = (start..start + least).map(|place| 1 << (place % n));
                assert_eq!(set, members.sum::<u64>(), "{votes:?}, site {}", start + 1);
            }
        }
    }

    /// "A voting family with such a pair is made as before, but setup rejects
    /// it." A run ends no earlier than the one from the site before; if it is
    /// shorter, it ends with it and lies inside it. So setup passes the sets
    /// just if all of them are equally large.
    #[test]
    fn setup_passes_runs_that_are_equally_long() {
        let mut random = Random::new(6);
        let (mut passed, mut nested) = (0, 0);
        for _ in 0..3_000 {
            let votes = any_votes(&mut random);
            let mut buffer = [7; MOST_SITES];
            let mut sets = [u64::MAX; MOST_SITES];
            buffer[..votes.len()].copy_from_slice(&votes);
            fill(votes.len(), &buffer, &mut sets).unwrap();
            let lists = lists(&votes).unwrap();
            let expected = if lists.iter().all(|list| list.len() == lists[0].len()) {
                passed += 1;
                Ok(())
            } else {
                nested += 1;
                Err(Refusal::NestedSets)
            };
            assert_eq!(setup::judge(votes.len(), &sets), expected, "{votes:?}");
            assert_eq!(setup::judge_meeting(votes.len(), &sets), Ok(()), "{votes:?}");
        }
        assert!(passed > 300 && nested > 300, "{passed} passed, {nested} nested");
    }
}
