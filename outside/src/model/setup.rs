//! Request sets and when setup turns them down.

use super::{Refusal, Site, Version, MOST_SITES};

/// The entry's bit that stands for `site`.
pub fn bit(site: Site) -> u64 {
    1 << (site - 1)
}

/// The members of a set, ascending.
pub fn members(set: u64) -> Vec<Site> {
    (1..=64).filter(|&site| set & bit(site) != 0).collect()
}

/// The set of the sites in a list.
///
/// A list may name numbers for which an entry has no bit. They are put down
/// as site 64, which is as little a site of any rig as they are.
pub fn set_of(list: &[Site]) -> u64 {
    list.iter()
        .map(|&site| bit(if (1..=64).contains(&site) { site } else { 64 }))
        .fold(0, |set, one| set | one)
}

/// Judges the number of sites alone (code 1).
pub fn judge_count(n: usize) -> Result<(), Refusal> {
    if (1..=MOST_SITES).contains(&n) {
        Ok(())
    } else {
        Err(Refusal::SiteCount)
    }
}

/// Whether the first set is strictly contained in the second.
pub fn is_inside(inner: u64, outer: u64) -> bool {
    inner & !outer == 0 && inner != outer
}

/// A judgement of sets. With the refusal goes the site whose set is at fault.
pub type Judgement = Result<(), (Refusal, usize)>;

/// Judges the sets of the sites 1, 2 and so on by what they name and whether
/// they meet (codes 2 and 3). At fault is the first faulty one, or the first
/// that misses an earlier one.
pub fn judge_meeting_sets(sets: &[u64]) -> Judgement {
    let outside = u64::MAX << sets.len();
    if let Some(place) = sets.iter().position(|&set| set == 0 || set & outside != 0) {
        return Err((Refusal::FaultySet, place + 1));
    }
    let misses_an_earlier = |place: usize| sets[..place].iter().any(|set| set & sets[place] == 0);
    match (0..sets.len()).find(|&place| misses_an_earlier(place)) {
        Some(place) => Err((Refusal::SetsMiss, place + 1)),
        None => Ok(()),
    }
}

/// The same, and "straight after 3" code 17 of request 2.6. At fault is "the
/// first set that strictly contains an earlier one or is strictly contained in
/// one".
pub fn judge_sets(sets: &[u64]) -> Judgement {
    judge_meeting_sets(sets)?;
    let is_nested = |place: usize| {
        let set = sets[place];
        sets[..place].iter().any(|&earlier| is_inside(earlier, set) || is_inside(set, earlier))
    };
    match (0..sets.len()).find(|&place| is_nested(place)) {
        Some(place) => Err((Refusal::NestedSets, place + 1)),
        None => Ok(()),
    }
}

/// The judgement of sets in a version: that before knows no code 17.
pub fn judge_sets_by(version: Version, sets: &[u64]) -> Judgement {
    match version {
        Version::Earlier => judge_meeting_sets(sets),
        Version::Present => judge_sets(sets),
    }
}

/// The whole judgement of setup over a buffer of sets: 13, 1, 2, 3, 17.
pub fn judge(n: usize, buffer: &[u64]) -> Result<(), Refusal> {
    judge_buffer(n, buffer, judge_sets)
}

/// Document 01's judgement of setup alone: 13, 1, 2, 3.
pub fn judge_meeting(n: usize, buffer: &[u64]) -> Result<(), Refusal> {
    judge_buffer(n, buffer, judge_meeting_sets)
}

/// The judgement of setup in a version.
pub fn judge_by(version: Version, n: usize, buffer: &[u64]) -> Result<(), Refusal> {
    judge_buffer(n, buffer, |sets| judge_sets_by(version, sets))
}

fn judge_buffer(n: usize, buffer: &[u64], judge: impl Fn(&[u64]) -> Judgement) -> Result<(), Refusal> {
    if buffer.len() != MOST_SITES {
        return Err(Refusal::Buffer);
    }
    judge_count(n)?;
    judge(&buffer[..n]).map_err(|(refusal, _)| refusal)
}

#[cfg(test)]
mod tests {
    use super::*;

    fn buffer(sets: &[&[Site]]) -> [u64; MOST_SITES] {
        let mut buffer = [0; MOST_SITES];
        for (entry, list) in buffer.iter_mut().zip(sets) {
            *entry = set_of(list);
        }
        buffer
    }

    #[test]
    fn bits_and_members() {
        assert_eq!(set_of(&[1, 3]), 0b101);
        assert_eq!(members(0b101), [1, 3]);
        assert_eq!(members(0), []);
        assert_eq!(members(u64::MAX).len(), 64);
        assert_eq!(set_of(&[0]), 1 << 63);
        assert_eq!(set_of(&[2, 999]), 1 << 63 | 2);
    }

    #[test]
    fn refusals_come_in_the_papers_order() {
        let good = buffer(&[&[1], &[1]]);
        assert_eq!(judge(2, &good), Ok(()));
        assert_eq!(judge(0, &good[..30]), Err(Refusal::Buffer));
        assert_eq!(judge(0, &[0; 32]), Err(Refusal::Buffer));
        assert_eq!(judge(0, &good), Err(Refusal::SiteCount));
        assert_eq!(judge(32, &good), Err(Refusal::SiteCount));
        assert_eq!(judge(3, &good), Err(Refusal::FaultySet));
        assert_eq!(judge(2, &buffer(&[&[3], &[1]])), Err(Refusal::FaultySet));
        assert_eq!(judge(2, &buffer(&[&[2], &[1]])), Err(Refusal::SetsMiss));
        for (sets, refusal) in [
            (&[&[1, 2][..], &[1]][..], Refusal::NestedSets),
            (&[&[1], &[1, 2]], Refusal::NestedSets),
            (&[&[1, 2], &[1], &[2, 3]], Refusal::SetsMiss),
            (&[&[1, 2], &[1], &[1, 4]], Refusal::FaultySet),
            (&[&[1, 2], &[1], &[]], Refusal::FaultySet),
        ] {
            let nested = buffer(sets);
            assert_eq!(judge(sets.len(), &nested), Err(refusal), "{sets:?}");
            assert_eq!(judge(0, &nested), Err(Refusal::SiteCount));
            assert_eq!(judge(sets.len(), &nested[..30]), Err(Refusal::Buffer));
        }
        assert_eq!(Refusal::NestedSets.code(), 17);
    }

    /// 13, 1, 2 and 3 are judged as before, with sets inside others too.
    #[test]
    fn the_judgement_without_17() {
        let nested = buffer(&[&[1, 2], &[1], &[1, 2, 3]]);
        assert_eq!(judge(3, &nested), Err(Refusal::NestedSets));
        assert_eq!(judge_meeting(3, &nested), Ok(()));
        assert_eq!(judge_meeting(3, &nested[..30]), Err(Refusal::Buffer));
        assert_eq!(judge_meeting(0, &nested), Err(Refusal::SiteCount));
        assert_eq!(judge_meeting(4, &nested), Err(Refusal::FaultySet));
        assert_eq!(judge_meeting(2, &buffer(&[&[1], &[2]])), Err(Refusal::SetsMiss));
        assert_eq!(judge_by(Version::Earlier, 3, &nested), Ok(()));
        assert_eq!(judge_by(Version::Present, 3, &nested), Err(Refusal::NestedSets));
    }

    #[test]
    fn entries_past_the_sites_are_not_read() {
        assert_eq!(judge(1, &buffer(&[&[1], &[2], &[64]])), Ok(()));
        assert_eq!(judge(2, &buffer(&[&[1, 2], &[1, 2], &[1]])), Ok(()));
        assert_eq!(judge(1, &buffer(&[&[1], &[1, 2]])), Ok(()));
    }

    #[test]
    fn the_site_at_fault_is_named() {
        let fault = |lists: &[&[Site]]| {
            let sets: Vec<u64> = lists.iter().map(|list| set_of(list)).collect();
            judge_sets(&sets).map_err(|(refusal, site)| (refusal.code(), site))
        };
        assert_eq!(fault(&[&[1], &[2], &[4]]), Err((2, 3)));
        assert_eq!(fault(&[&[1], &[0], &[4]]), Err((2, 2)));
        assert_eq!(fault(&[&[1], &[1, 2], &[2]]), Err((3, 3)));
        assert_eq!(fault(&[&[1], &[2], &[3]]), Err((3, 2)));
        assert_eq!(fault(&[&[1, 2], &[2, 3], &[1, 3]]), Ok(()));
        // One set inside another, in either order.
        assert_eq!(fault(&[&[1, 2], &[1]]), Err((17, 2)));
        assert_eq!(fault(&[&[1], &[1, 2]]), Err((17, 2)));
        // Equal sets, alone and beside others.
        assert_eq!(fault(&[&[1, 2], &[1, 2], &[1, 2]]), Ok(()));
        assert_eq!(fault(&[&[1, 2], &[1, 2], &[1, 3]]), Ok(()));
        assert_eq!(fault(&[&[1, 2], &[1, 2], &[1]]), Err((17, 3)));
        assert_eq!(fault(&[&[1, 2], &[1, 2], &[1, 2, 3]]), Err((17, 3)));
        // No neighbours.
        assert_eq!(fault(&[&[1, 2], &[1, 3], &[1, 2, 4], &[1, 3]]), Err((17, 3)));
        assert_eq!(fault(&[&[1, 2, 4], &[1, 3], &[1, 2], &[1, 3]]), Err((17, 3)));
        // Of several pairs, the first later set counts.
        assert_eq!(fault(&[&[1, 2], &[1, 3], &[1, 3, 4], &[1, 2, 4]]), Err((17, 3)));
        assert_eq!(fault(&[&[1, 2, 4], &[1, 3, 4], &[1, 3], &[1, 2]]), Err((17, 3)));
        // 2 and 3 come first, wherever they are.
        assert_eq!(fault(&[&[1, 2], &[1], &[2, 3]]), Err((3, 3)));
        assert_eq!(fault(&[&[1, 2], &[1], &[1, 4]]), Err((2, 3)));
        assert_eq!(fault(&[&[1], &[1, 4], &[2]]), Err((2, 2)));
    }

    /// All nonempty sets of two and of three sites, judged by their lists.
    #[test]
    fn sets_inside_others_by_their_lists() {
        for (n, passing) in [(2, 3), (3, 31)] {
            let all: Vec<u64> = (1..1 << n).collect();
            let count = all.len().pow(n);
            let mut passed = 0;
            for code in 0..count {
                let place = |site: u32| code / all.len().pow(site) % all.len();
                let sets: Vec<u64> = (0..n).map(|site| all[place(site)]).collect();
                let lists: Vec<Vec<Site>> = sets.iter().map(|&set| members(set)).collect();
                let holds = |a: usize, b: usize| lists[b].iter().all(|site| lists[a].contains(site));
                let misses = |a: usize, b: usize| !lists[b].iter().any(|site| lists[a].contains(site));
                let first = |wrong: &dyn Fn(usize, usize) -> bool| {
                    (0..sets.len()).find(|&late| (0..late).any(|early| wrong(early, late)))
                };
                let nested = |a: usize, b: usize| holds(a, b) != holds(b, a);
                let expected = match (first(&misses), first(&nested)) {
                    (Some(place), _) => Err((Refusal::SetsMiss, place + 1)),
                    (None, Some(place)) => Err((Refusal::NestedSets, place + 1)),
                    (None, None) => Ok(()),
                };
                assert_eq!(judge_sets(&sets), expected, "{lists:?}");
                passed += usize::from(expected.is_ok());
            }
            // Of three sites: all equal, or any three of the sets of two sites.
            assert_eq!(passed, passing);
        }
    }

    #[test]
    fn a_full_rig_of_31_sites_passes() {
        assert_eq!(judge(31, &[(1 << 31) - 1; 31]), Ok(()));
        assert_eq!(judge(31, &[1 << 31; 31]), Err(Refusal::FaultySet));
    }
}
