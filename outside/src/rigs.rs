//! Request sets to play with: the families, and sets and votes made at random.

use crate::model::setup::{judge_sets, members, set_of};
use crate::model::votes::{self, MOST_VOTES};
use crate::model::{Family, Refusal, Site, MOST_SITES};
use crate::random::Random;

/// The sets of all sites, each ascending, site 1 first.
pub type Lists = Vec<Vec<Site>>;

/// The sets of a family, chosen at random.
pub fn any_family(random: &mut Random) -> Lists {
    let family =
        if random.once_in(3) { random.pick(&Family::all_levels()) } else { random.pick(&Family::LISTED) };
    family.lists().expect("a family that is made")
}

/// Random sets that setup passes: every two meet, none is strictly contained in
/// another.
pub fn passing(random: &mut Random) -> Lists {
    match random.below(8) {
        0 => thinned(random),
        1 => renumbered(random),
        _ => {
            let n = any_size(random);
            passing_of_size(random, n)
        }
    }
}

/// The same for `n` sites.
pub fn passing_of_size(random: &mut Random, n: usize) -> Lists {
    match random.below(8) {
        0 | 1 => {
            let lists = around_a_centre(random, n);
            unnested(random, &lists)
        }
        2 | 3 => {
            let lists = small_then_mended(random, n);
            unnested(random, &lists)
        }
        4 => majorities(random, n),
        5 => equally_large_around_a_centre(random, n),
        6 => equal_runs(random, n),
        _ if random.once_in(2) => full(n),
        _ => all_equal(random, n),
    }
}

/// Random sets of which every two meet and one is strictly contained in another.
pub fn nested(random: &mut Random) -> Lists {
    let n = any_size(random).max(2);
    let mut lists = match random.below(4) {
        0 => around_a_centre(random, n),
        1 => small_then_mended(random, n),
        2 => votes::lists(&any_votes(random)).expect("votes of which sets are made"),
        _ => passing(random),
    };
    if lists.len() == 1 {
        lists = full(2);
    }
    for _ in 0..random.below(3) {
        nest(random, &mut lists);
    }
    while !is_nested(&lists) {
        nest(random, &mut lists);
    }
    lists
}

/// Random sets that may well miss each other, none empty, all inside.
pub fn perhaps_missing(random: &mut Random) -> Lists {
    if random.once_in(3) {
        // Sets that pass, with one in place of another that is as large.
        let mut lists = passing(random);
        let n = lists.len();
        let other = random.below(n);
        lists[other] = so_many_sites(random, n, lists[other].len());
        return lists;
    }
    let n = any_size(random);
    let percent = random.between(5, 60);
    let mut lists: Lists = (0..n).map(|_| some_sites(random, n, percent)).collect();
    if random.once_in(2) {
        // Mostly meeting, with one set that may not.
        mend(random, &mut lists);
        let spoilt = random.below(n);
        lists[spoilt] = vec![random.between(1, n) as Site];
    }
    lists
}

/// A number of sites: often small, often the largest.
pub fn any_size(random: &mut Random) -> usize {
    match random.below(4) {
        0 => random.between(1, 4),
        1 => random.between(1, 12),
        2 => random.between(1, MOST_SITES),
        _ => random.between(MOST_SITES - 3, MOST_SITES),
    }
}

/// Every set has one common site.
fn around_a_centre(random: &mut Random, n: usize) -> Lists {
    let centre = random.between(1, n) as Site;
    let percent = random.below(40);
    (0..n).map(|_| with(some_sites(random, n, percent), centre)).collect()
}

/// Every set has all sites.
pub fn full(n: usize) -> Lists {
    vec![(1..=n as Site).collect(); n]
}

/// Every set has site 1 alone, the one arbiter.
pub fn one_arbiter(n: usize) -> Lists {
    vec![vec![1]; n]
}

/// Every set has just more than half of the sites.
pub fn majorities(random: &mut Random, n: usize) -> Lists {
    (0..n).map(|_| so_many_sites(random, n, n / 2 + 1)).collect()
}

/// Every set has one common site and as many others.
fn equally_large_around_a_centre(random: &mut Random, n: usize) -> Lists {
    let centre = random.between(1, n) as Site;
    let size = random.between(1, n);
    let grow = |random: &mut Random| {
        let mut list = vec![centre];
        while list.len() < size {
            list = with(list, random.between(1, n) as Site);
        }
        list
    };
    (0..n).map(|_| grow(random)).collect()
}

/// Site n takes as many sites from n on as every other site does, more than
/// half of them.
fn equal_runs(random: &mut Random, n: usize) -> Lists {
    let length = random.between(n / 2 + 1, n);
    let run = |start: usize| (start..start + length).map(|place| (place % n + 1) as Site);
    (0..n).map(|start| ascending(run(start).collect())).collect()
}

fn ascending(mut list: Vec<Site>) -> Vec<Site> {
    list.sort_unstable();
    list
}

fn all_equal(random: &mut Random, n: usize) -> Lists {
    let percent = random.between(1, 100);
    vec![some_sites(random, n, percent); n]
}

/// Small sets, enlarged where two miss each other.
fn small_then_mended(random: &mut Random, n: usize) -> Lists {
    let mut lists: Lists = (0..n).map(|_| some_sites(random, n, 15)).collect();
    mend(random, &mut lists);
    lists
}

/// A family of which some members are taken out or put in as long as setup
/// passes the sets.
fn thinned(random: &mut Random) -> Lists {
    let mut lists = any_family(random);
    let n = lists.len();
    for _ in 0..20 {
        let place = random.below(n);
        let kept = lists[place].clone();
        if random.once_in(4) {
            lists[place] = with(kept.clone(), random.between(1, n) as Site);
        } else if kept.len() > 1 {
            lists[place].remove(random.below(kept.len()));
        }
        if judged(&lists).is_err() {
            lists[place] = kept;
        }
    }
    lists
}

/// The sets of a family given to other sites, the members renumbered.
fn renumbered(random: &mut Random) -> Lists {
    let lists = any_family(random);
    let numbers = shuffled(random, (1..=lists.len() as Site).collect());
    let renumber = |list: &Vec<Site>| list.iter().map(|&site| numbers[usize::from(site) - 1]).collect();
    let lists: Lists = lists.iter().map(|list| ascending(renumber(list))).collect();
    shuffled(random, lists)
}

fn shuffled<T>(random: &mut Random, mut things: Vec<T>) -> Vec<T> {
    for place in 1..things.len() {
        things.swap(place, random.between(0, place));
    }
    things
}

/// In place of each set the smallest of the sets that it contains, or the
/// largest that contains it. Then none is strictly contained in another.
fn unnested(random: &mut Random, lists: &Lists) -> Lists {
    let contains = |outer: &Vec<Site>, inner: &Vec<Site>| set_of(inner) & !set_of(outer) == 0;
    let smaller = random.once_in(3);
    let other = |list: &Vec<Site>| {
        let found = if smaller {
            lists.iter().filter(|other| contains(list, other)).min_by_key(|other| other.len())
        } else {
            lists.iter().filter(|other| contains(other, list)).max_by_key(|other| other.len())
        };
        found.expect("at least the set itself").clone()
    };
    lists.iter().map(other).collect()
}

/// Puts in place of a set another one with members more or fewer, as long as
/// every two sets meet.
fn nest(random: &mut Random, lists: &mut Lists) {
    let n = lists.len();
    let (place, other) = (random.below(n), random.below(n));
    let kept = lists[place].clone();
    let mut list = lists[other].clone();
    for _ in 0..random.pick(&[1, 1, 2, 5]) {
        if list.len() == n || (list.len() > 1 && random.once_in(2)) {
            list.remove(random.below(list.len()));
        } else {
            list = with(list, random.between(1, n) as Site);
        }
    }
    if list.is_empty() {
        return;
    }
    lists[place] = list;
    if judged(lists).is_err_and(|refusal| refusal != Refusal::NestedSets) {
        lists[place] = kept;
    }
}

/// What setup says of the sets of 1 to 31 sites.
fn judged(lists: &Lists) -> Result<(), Refusal> {
    let sets: Vec<u64> = lists.iter().map(|list| set_of(list)).collect();
    judge_sets(&sets).map_err(|(refusal, _)| refusal)
}

/// Whether setup says 17.
pub fn is_nested(lists: &Lists) -> bool {
    judged(lists) == Err(Refusal::NestedSets)
}

/// Adds members until every two sets meet.
fn mend(random: &mut Random, lists: &mut Lists) {
    for a in 0..lists.len() {
        for b in 0..a {
            if !meet(&lists[a], &lists[b]) {
                let shared = random.pick(&lists[b]);
                lists[a] = with(std::mem::take(&mut lists[a]), shared);
            }
        }
    }
}

fn meet(a: &[Site], b: &[Site]) -> bool {
    set_of(a) & set_of(b) != 0
}

/// The list with one more site, unless it was there.
fn with(list: Vec<Site>, site: Site) -> Vec<Site> {
    members(set_of(&list) | set_of(&[site]))
}

/// So many of the sites 1 to `n`.
fn so_many_sites(random: &mut Random, n: usize, count: usize) -> Vec<Site> {
    let mut list = Vec::new();
    while list.len() < count {
        list = with(list, random.between(1, n) as Site);
    }
    list
}

/// Some of the sites 1 to `n`, at least one.
fn some_sites(random: &mut Random, n: usize, percent: usize) -> Vec<Site> {
    let list: Vec<Site> = (1..=n as Site).filter(|_| random.percent(percent)).collect();
    if list.is_empty() {
        vec![random.between(1, n) as Site]
    } else {
        list
    }
}

/// Votes whose family setup passes.
pub fn passing_votes(random: &mut Random) -> Vec<u64> {
    loop {
        let votes = any_votes(random);
        if judged(&votes::lists(&votes).expect("votes of which sets are made")).is_ok() {
            return votes;
        }
    }
}

/// Votes of 1 to 31 desks from which a family is made.
pub fn any_votes(random: &mut Random) -> Vec<u64> {
    let n = any_size(random);
    let mut votes = match random.below(6) {
        0 => votes_up_to(random, n, MOST_VOTES),
        1 => votes_up_to(random, n, 2),
        2 => few_with_votes(random, n),
        3 => vec![random.between(1, MOST_VOTES as usize) as u64; n],
        4 => with_a_main_desk(random, n),
        _ => twice_over(random, n),
    };
    if votes.iter().all(|&vote| vote == 0) {
        let place = random.below(votes.len());
        votes[place] = random.between(1, MOST_VOTES as usize) as u64;
    }
    votes
}

fn votes_up_to(random: &mut Random, n: usize, most: u64) -> Vec<u64> {
    (0..n).map(|_| random.between(0, most as usize) as u64).collect()
}

fn few_with_votes(random: &mut Random, n: usize) -> Vec<u64> {
    let percent = random.between(50, 95);
    let mut votes = votes_up_to(random, n, MOST_VOTES);
    votes.iter_mut().filter(|_| random.percent(percent)).for_each(|vote| *vote = 0);
    votes
}

/// One desk has as many votes as all others together, or one fewer or more.
fn with_a_main_desk(random: &mut Random, n: usize) -> Vec<u64> {
    let mut votes = votes_up_to(random, n, MOST_VOTES / n as u64);
    let main = random.below(n);
    votes[main] = 0;
    let others: u64 = votes.iter().sum();
    votes[main] = (others + random.below(3) as u64).saturating_sub(1);
    votes
}

/// The same votes twice, so that each half of the round has half of the sum.
fn twice_over(random: &mut Random, n: usize) -> Vec<u64> {
    let most = random.pick(&[1, 3, MOST_VOTES]);
    let half = votes_up_to(random, n.div_ceil(2).min(MOST_SITES / 2), most);
    [&half[..], &half].concat()
}

/// The lines `sites=` and `set=` for the given sets.
pub fn head(lists: &[Vec<Site>]) -> String {
    let mut text = format!("sites={}\n", lists.len());
    for list in lists {
        text += &set_line(list);
    }
    text
}

/// One line `set=` with its byte 10.
pub fn set_line(list: &[Site]) -> String {
    let numbers: Vec<String> = list.iter().map(Site::to_string).collect();
    format!("set={}\n", numbers.join(","))
}

#[cfg(test)]
mod tests {
    use std::collections::BTreeSet;

    use super::*;
    use crate::model::setup::is_inside;
    use crate::model::{Rig, Version};

    #[test]
    fn every_family_is_chosen() {
        let mut random = Random::new(3);
        let mut left: Vec<Lists> = Family::all().iter().map(|family| family.lists().unwrap()).collect();
        for _ in 0..10_000 {
            let lists = any_family(&mut random);
            left.retain(|other| *other != lists);
        }
        assert_eq!(left, Vec::<Lists>::new());
    }

    /// Whether all sets are equal, and whether any two are.
    fn equals(lists: &Lists) -> (bool, bool) {
        let mut sorted = lists.clone();
        sorted.sort();
        sorted.dedup();
        (sorted.len() == 1, sorted.len() < lists.len())
    }

    #[test]
    fn passing_sets_pass_setup() {
        let mut random = Random::new(1);
        let mut sizes = [0; 32];
        let (mut all_equal, mut some_equal, mut none_equal) = (0, 0, 0);
        let mut unlike = 0;
        for _ in 0..2_000 {
            let lists = passing(&mut random);
            sizes[lists.len()] += 1;
            assert!(Rig::from_lists(&lists).is_ok(), "{lists:?}");
            match equals(&lists) {
                (true, _) => all_equal += 1,
                (false, true) => some_equal += 1,
                (false, false) => none_equal += 1,
            }
            unlike += usize::from(lists.iter().any(|list| list.len() != lists[0].len()));
        }
        assert!(sizes[1..].iter().all(|&count| count > 0));
        let counts = [all_equal, some_equal, none_equal, unlike];
        assert!(counts.iter().all(|&count| count > 200), "{counts:?}");
    }

    /// Every family of three sites that setup passes comes up.
    #[test]
    fn passing_sets_of_three_sites() {
        let mut random = Random::new(5);
        let found: BTreeSet<Lists> = (0..5_000).map(|_| passing_of_size(&mut random, 3)).collect();
        assert_eq!(found.len(), 31, "{found:?}");
        assert!(found.iter().all(|lists| Rig::from_lists(lists).is_ok()));
    }

    /// Of the pairs there are several and one alone, neighbours and others, a
    /// set inside an earlier one and around it, and equal sets beside them.
    #[test]
    fn nested_sets_of_every_kind_come_up() {
        let mut random = Random::new(6);
        let mut sizes = [0; 32];
        let (mut one, mut several, mut apart, mut inside, mut around, mut equal) = (0, 0, 0, 0, 0, 0);
        for _ in 0..2_000 {
            let lists = nested(&mut random);
            sizes[lists.len()] += 1;
            assert_eq!(Rig::from_lists(&lists), Err(Refusal::NestedSets), "{lists:?}");
            assert!(Rig::from_lists_by(Version::Earlier, &lists).is_ok(), "{lists:?}");
            let sets: Vec<u64> = lists.iter().map(|list| set_of(list)).collect();
            let pairs: Vec<(usize, usize, bool)> = (0..sets.len())
                .flat_map(|late| (0..late).map(move |early| (early, late)))
                .filter(|&(a, b)| is_inside(sets[a], sets[b]) || is_inside(sets[b], sets[a]))
                .map(|(a, b)| (a, b, is_inside(sets[b], sets[a])))
                .collect();
            one += usize::from(pairs.len() == 1);
            several += usize::from(pairs.len() > 1);
            apart += usize::from(pairs.iter().all(|(early, late, _)| early + 1 < *late));
            inside += usize::from(pairs.iter().all(|(_, _, inside)| *inside));
            around += usize::from(pairs.iter().all(|(_, _, inside)| !*inside));
            equal += usize::from(equals(&lists).1);
        }
        assert!(sizes[2..].iter().all(|&count| count > 0));
        let counts = [one, several, apart, inside, around, equal];
        assert!(counts.iter().all(|&count| count > 200), "{counts:?}");
    }

    #[test]
    fn votes_of_every_kind_come_up() {
        let mut random = Random::new(4);
        let mut sizes = [0; 32];
        let (mut halves, mut mains, mut zeros, mut hundreds) = (0, 0, 0, 0);
        for _ in 0..2000 {
            let votes = any_votes(&mut random);
            assert_eq!(votes::judge(&votes), Ok(()), "{votes:?}");
            let sum: u64 = votes.iter().sum();
            sizes[votes.len()] += 1;
            halves += usize::from(votes.iter().any(|vote| 2 * vote == sum));
            mains += usize::from(votes.iter().any(|vote| 2 * vote > sum));
            zeros += usize::from(votes.contains(&0));
            hundreds += usize::from(votes.contains(&MOST_VOTES));
        }
        assert!(sizes[1..].iter().all(|&count| count > 0));
        let counts = [halves, mains, zeros, hundreds];
        assert!(counts.iter().all(|&count| count > 50), "{counts:?}");
    }

    #[test]
    fn others_often_miss() {
        let mut random = Random::new(2);
        let (mut passed, mut missed, mut nested) = (0, 0, 0);
        for _ in 0..1000 {
            match Rig::from_lists(&perhaps_missing(&mut random)) {
                Ok(_) => passed += 1,
                Err(Refusal::NestedSets) => nested += 1,
                Err(refusal) => {
                    assert_eq!(refusal, Refusal::SetsMiss);
                    missed += 1;
                }
            }
        }
        let counts = [passed, missed, nested];
        assert!((300..900).contains(&missed) && counts.iter().all(|&count| count > 30), "{counts:?}");
    }
}
