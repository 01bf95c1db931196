//! Random well-shaped states, most of which no run reaches.

use crate::model::{
    Arbiter, Body, Claim, Desk, Message, Mode, Rig, Site, Tie, LARGEST_NUMBER, MOST_ACCEPTED, MOST_UNDER_WAY,
};
use crate::random::Random;
use crate::rigs::{self, Lists};

/// A random state on these sets. It is well shaped if setup passes them.
pub fn any_state(random: &mut Random, lists: &Lists) -> Rig {
    let base = random.pick(&[0, 0, 0, 7, 95, LARGEST_NUMBER - 4]);
    let bare = random.once_in(8);
    let mut maker = Maker { random: Random::new(random.bits()), lists, base, bare };
    let mut desks: Vec<Desk> = (1..).zip(lists).map(|(site, _)| maker.desk(site)).collect();
    let count = match random.below(12) {
        0 => random.between(MOST_UNDER_WAY - 3, MOST_UNDER_WAY),
        1 => random.below(300),
        2..=4 => 0,
        _ => random.below(40),
    };
    let under_way = (0..count).map(|_| maker.message(&mut desks)).collect();
    let accepted = match random.below(10) {
        0..=4 => random.below(10) as u32,
        5 => MOST_ACCEPTED - random.below(10) as u32,
        _ => random.below(MOST_ACCEPTED as usize + 1) as u32,
    };
    Rig::of_parts(lists, desks, under_way, accepted)
}

/// The state with the longest text: 31 sites, each with all of them in its
/// set, every number as long as it may be, a full list.
pub fn longest() -> Rig {
    let lists = rigs::full(31);
    let most = LARGEST_NUMBER;
    let mut desk = Desk::fresh(31);
    desk.clock = most;
    desk.mode = Mode::Waiting { seq: most, failed: true };
    for tie in &mut desk.ties[1..] {
        *tie = Tie { held: Some(most), heir: Some(10), inquire: Some(most) };
    }
    desk.arbiter.grant = most;
    desk.arbiter.holder = Some(Claim { seq: most, site: 31 });
    for site in 1..=31 {
        desk.arbiter.put(Claim { seq: most, site });
    }
    let reply = Message { from: 30, to: 29, body: Body::Reply { arbiter: 28, grant: most } };
    Rig::of_parts(&lists, vec![desk; 31], vec![reply; MOST_UNDER_WAY], MOST_ACCEPTED)
}

struct Maker<'a> {
    random: Random,
    lists: &'a Lists,
    /// Most numbers are a little above this one.
    base: u32,
    /// Whether an arbiter may have a holder and the grant number 0.
    bare: bool,
}

impl Maker<'_> {
    /// A number of at least 1; many of them are equal.
    fn number(&mut self) -> u32 {
        match self.random.below(12) {
            0 => self.random.between(1, LARGEST_NUMBER as usize) as u32,
            1 => LARGEST_NUMBER,
            2 => 1,
            _ => self.base + self.random.between(1, 4) as u32,
        }
    }

    /// A number about this one.
    fn near(&mut self, number: u32) -> u32 {
        match self.random.below(4) {
            0 => self.number(),
            1 => (number + 1).min(LARGEST_NUMBER),
            _ => number.max(1),
        }
    }

    /// In so many of 100 cases a number, else nothing.
    fn perhaps(&mut self, percent: usize) -> Option<u32> {
        self.random.percent(percent).then(|| self.number())
    }

    /// The sites that have the arbiter in their set.
    fn askers(&self, arbiter: Site) -> Vec<Site> {
        let has = (1..).zip(self.lists).filter(|(_, list)| list.contains(&arbiter));
        has.map(|(site, _)| site).collect()
    }

    fn desk(&mut self, site: Site) -> Desk {
        let mut desk = Desk::fresh(self.lists.len());
        desk.clock = self.perhaps(80).unwrap_or(0);
        desk.mode = match self.random.below(7) {
            0 => Mode::Inside,
            1 | 2 => Mode::Rest,
            _ => Mode::Waiting { seq: self.number(), failed: self.random.once_in(2) },
        };
        let percent = self.random.pick(&[0, 30, 70, 100]);
        for &member in &self.lists[usize::from(site) - 1] {
            let held = self.perhaps(percent);
            let inquire = match held {
                Some(held) if self.random.once_in(3) => Some(self.near(held)),
                _ => self.perhaps(percent / 2),
            };
            let askers = self.askers(member);
            let heir = self.random.percent(percent / 2).then(|| self.random.pick(&askers));
            desk.ties[usize::from(member)] = Tie { held, heir, inquire };
        }
        self.fill_arbiter(&mut desk, site);
        desk
    }

    fn fill_arbiter(&mut self, desk: &mut Desk, site: Site) {
        desk.arbiter.grant = self.perhaps(85).unwrap_or(0);
        let askers = self.askers(site);
        if !askers.is_empty() && self.random.percent(75) {
            let seq = self.number();
            let site = self.random.pick(&askers);
            self.hold(&mut desk.arbiter, Claim { seq, site });
        }
        let percent = self.random.pick(&[0, 0, 20, 60, 100]);
        for site in askers {
            if let Some(seq) = self.perhaps(percent) {
                desk.arbiter.put(Claim { seq, site });
            }
        }
    }

    fn hold(&mut self, arbiter: &mut Arbiter, claim: Claim) {
        arbiter.holder = Some(claim);
        if arbiter.grant == 0 && !self.bare {
            arbiter.grant = self.number();
        }
    }

    /// A message between a site and a member of its set, which may well fit
    /// what their tables say, since the tables may be fitted to it.
    fn message(&mut self, desks: &mut [Desk]) -> Message {
        let site = self.random.between(1, self.lists.len()) as Site;
        let arbiter = self.random.pick(&self.lists[usize::from(site) - 1]);
        let askers = self.askers(arbiter);
        let heir = self.random.pick(&askers);
        let tables = &mut desks[usize::from(arbiter) - 1].arbiter;
        if self.random.once_in(2) {
            self.hold(tables, Claim { seq: self.base + 2, site });
        }
        let (granted, held) = (tables.grant, desks[usize::from(site) - 1].tie(arbiter).held);
        let fitting = if self.random.once_in(2) { granted } else { held.unwrap_or(granted) };
        let grant = self.near(fitting);
        let (from, to, body) = match self.random.below(7) {
            0 => (site, arbiter, Body::Request { seq: self.number() }),
            1 => {
                let from = self.random.between(1, self.lists.len()) as Site;
                (from, site, Body::Reply { arbiter, grant })
            }
            2 => {
                let heir = self.random.once_in(2).then_some(heir);
                (site, arbiter, Body::Release { heir, grant })
            }
            3 => (arbiter, site, Body::Inquire { grant }),
            4 => {
                let seq = match desks[usize::from(site) - 1].mode {
                    Mode::Waiting { seq, .. } if self.random.once_in(2) => Some(self.near(seq)),
                    _ => self.perhaps(50),
                };
                (arbiter, site, Body::Fail { seq })
            }
            5 => (site, arbiter, Body::Yield { grant }),
            _ => (arbiter, site, Body::Transfer { heir, grant }),
        };
        Message { from, to, body }
    }
}

#[cfg(test)]
mod tests {
    use super::*;
    use crate::schedule::Schedule;

    #[test]
    fn all_are_well_shaped() {
        let mut random = Random::new(4);
        for _ in 0..3_000 {
            let lists = rigs::passing(&mut random);
            assert!(!any_state(&mut random, &lists).is_misshapen());
        }
        assert!(!longest().is_misshapen());
    }

    /// The model plays on from them without a panic, and only a holder with
    /// grant number 0 leads to a misshapen state.
    #[test]
    fn they_can_be_played() {
        let mut random = Random::new(5);
        let mut misshapen = 0;
        for _ in 0..1_000 {
            let lists = rigs::passing(&mut random);
            let mut rig = any_state(&mut random, &lists);
            let mut schedule = Schedule::new(Random::new(random.bits()));
            for _ in 0..100 {
                let event = schedule.next_event(&rig);
                let zero = |site| {
                    let arbiter = &rig.desk(site).arbiter;
                    arbiter.holder.is_some() && arbiter.grant == 0
                };
                let has_zero = rig.sites().any(zero);
                let _ = rig.apply_judged(event);
                if rig.is_misshapen() {
                    assert!(has_zero);
                    misshapen += 1;
                    break;
                }
            }
        }
        assert!((1..100).contains(&misshapen), "{misshapen}");
    }
}
