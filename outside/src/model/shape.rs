//! Which states are misshapen (code 10).

use super::setup::{judge_count, judge_sets_by, set_of, Judgement};
use super::{
    Body, Claim, Message, Mode, Rig, Site, Tie, Version, LARGEST_NUMBER, MOST_ACCEPTED, MOST_SITES,
    MOST_UNDER_WAY,
};

impl Rig {
    /// Whether a field is outside its range or not 0 where it should be, the
    /// sets are not as setup wants them, or something ties a site to an arbiter
    /// outside its set.
    pub fn is_misshapen(&self) -> bool {
        !(self.sets_pass() && self.all_but_sets_pass())
    }

    /// The same without the judgement of setup.
    pub(crate) fn all_but_sets_pass(&self) -> bool {
        self.accepted() <= MOST_ACCEPTED
            && self.under_way().len() <= MOST_UNDER_WAY
            && self.sites().all(|site| self.site_is_shaped(site) && self.arbiter_is_shaped(site))
            && self.under_way().iter().all(|message| self.message_is_shaped(message))
    }

    fn sets_pass(&self) -> bool {
        self.sets_pass_by(|sets| judge_sets_by(self.version(), sets))
    }

    /// Whether the sets pass with another judgement of those of a rig.
    pub(crate) fn sets_pass_by(&self, judge: impl Fn(&[u64]) -> Judgement) -> bool {
        let n = usize::from(self.size());
        let inside = |list: &[Site]| list.iter().all(|&site| usize::from(site) <= MOST_SITES);
        let sets: Vec<u64> = self.sites().map(|site| set_of(self.members(site))).collect();
        judge_count(n).is_ok() && self.sites().all(|site| inside(self.members(site))) && judge(&sets).is_ok()
    }

    /// Whether the arbiter is in the site's set. Neither may be there at all.
    fn are_tied(&self, site: Site, arbiter: Site) -> bool {
        self.sites().contains(&site) && self.members(site).contains(&arbiter)
    }

    fn site_is_shaped(&self, site: Site) -> bool {
        let desk = self.desk(site);
        let mode = match desk.mode {
            Mode::Rest | Mode::Inside => true,
            Mode::Waiting { seq, .. } => is_number(seq),
        };
        let tie_is_shaped = |(arbiter, tie): (Site, &Tie)| {
            if !self.members(site).contains(&arbiter) {
                return *tie == Tie::default();
            }
            tie.held.is_none_or(is_number)
                && tie.inquire.is_none_or(is_number)
                && tie.heir.is_none_or(|heir| self.are_tied(heir, arbiter))
        };
        desk.clock <= LARGEST_NUMBER && mode && (0..).zip(&desk.ties).all(tie_is_shaped)
    }

    fn arbiter_is_shaped(&self, site: Site) -> bool {
        let arbiter = &self.desk(site).arbiter;
        let claim_is_shaped = |claim: &Claim| is_number(claim.seq) && self.are_tied(claim.site, site);
        arbiter.grant <= LARGEST_NUMBER && arbiter.holder.iter().chain(arbiter.queue()).all(claim_is_shaped)
    }

    fn message_is_shaped(&self, message: &Message) -> bool {
        let Message { from, to, body } = *message;
        let sites = self.sites().contains(&from) && self.sites().contains(&to);
        let tied = match body {
            Body::Request { .. } | Body::Yield { .. } | Body::Release { heir: None, .. } => {
                self.are_tied(from, to)
            }
            Body::Release { heir: Some(heir), .. } => self.are_tied(from, to) && self.are_tied(heir, to),
            // Who sends a reply is open: the arbiter, or a site handing on.
            Body::Reply { arbiter, .. } => self.are_tied(to, arbiter),
            Body::Inquire { .. } | Body::Fail { .. } => self.are_tied(to, from),
            Body::Transfer { heir, .. } => self.are_tied(to, from) && self.are_tied(heir, from),
        };
        let number = match body {
            Body::Fail { seq: None } => true,
            Body::Fail { .. } if self.version() == Version::Earlier => false,
            _ => is_number(body.number()),
        };
        sites && tied && number
    }
}

/// Whether a number that says something (0 being none) is in its range.
fn is_number(number: u32) -> bool {
    (1..=LARGEST_NUMBER).contains(&number)
}

#[cfg(test)]
mod tests {
    use super::*;
    use crate::model::{Desk, Event, Refusal};

    /// Sites 1 and 2 have {1, 3}, site 3 has {1, 2}.
    fn rig() -> Rig {
        Rig::from_lists(&[vec![1, 3], vec![1, 3], vec![1, 2]]).unwrap()
    }

    fn changed(change: impl Fn(&mut Rig)) -> bool {
        let mut rig = rig();
        change(&mut rig);
        rig.is_misshapen()
    }

    fn claim(seq: u32, site: Site) -> Option<Claim> {
        Some(Claim { seq, site })
    }

    #[test]
    fn numbers_have_their_ranges() {
        let most = LARGEST_NUMBER;
        assert!(!changed(|_| {}));
        assert!(!changed(|rig| rig.desk_mut(1).clock = most));
        assert!(changed(|rig| rig.desk_mut(1).clock = most + 1));
        for (seq, misshapen) in [(0, true), (1, false), (most, false), (most + 1, true)] {
            let mode = Mode::Waiting { seq, failed: true };
            assert_eq!(changed(|rig| rig.desk_mut(3).mode = mode), misshapen);
            assert_eq!(changed(|rig| rig.desk_mut(3).ties[2].held = Some(seq)), misshapen);
            assert_eq!(changed(|rig| rig.desk_mut(3).ties[2].inquire = Some(seq)), misshapen);
            assert_eq!(changed(|rig| rig.desk_mut(1).arbiter.holder = claim(seq, 2)), misshapen);
            assert_eq!(changed(|rig| rig.desk_mut(1).arbiter.put(Claim { seq, site: 2 })), misshapen);
            let message = Message { from: 3, to: 2, body: Body::Yield { grant: seq } };
            assert_eq!(changed(|rig| rig.under_way_mut().push(message)), misshapen);
            let fail = Message { from: 2, to: 3, body: Body::Fail { seq: Some(seq) } };
            assert_eq!(changed(|rig| rig.under_way_mut().push(fail)), misshapen);
        }
        assert!(!changed(|rig| rig.desk_mut(2).arbiter.grant = most));
        assert!(changed(|rig| rig.desk_mut(2).arbiter.grant = most + 1));
        for (accepted, misshapen) in [(MOST_ACCEPTED, false), (MOST_ACCEPTED + 1, true)] {
            let rig = Rig::of_parts(&[vec![1]], vec![Desk::fresh(1)], Vec::new(), accepted);
            assert_eq!(rig.is_misshapen(), misshapen);
        }
        let fail = Message { from: 1, to: 1, body: Body::Fail { seq: None } };
        assert!(!changed(|rig| *rig.under_way_mut() = vec![fail; MOST_UNDER_WAY]));
        assert!(changed(|rig| *rig.under_way_mut() = vec![fail; MOST_UNDER_WAY + 1]));
    }

    #[test]
    fn nothing_ties_a_site_to_an_arbiter_outside_its_set() {
        assert!(changed(|rig| rig.desk_mut(1).ties[2].held = Some(1)));
        assert!(changed(|rig| rig.desk_mut(1).ties[0].inquire = Some(1)));
        for (heir, misshapen) in [(1, true), (2, true), (3, false), (4, true), (0, true)] {
            assert_eq!(changed(|rig| rig.desk_mut(3).ties[2].heir = Some(heir)), misshapen, "{heir}");
            assert_eq!(changed(|rig| rig.desk_mut(2).arbiter.holder = claim(1, heir)), misshapen);
            assert_eq!(changed(|rig| rig.desk_mut(2).arbiter.put(Claim { seq: 1, site: heir })), misshapen);
        }
    }

    #[test]
    fn messages_are_tied_by_their_kind() {
        let shaped = |from, to, body| !changed(|rig| rig.under_way_mut().push(Message { from, to, body }));
        let sites: Vec<Site> = (0..=4).collect();
        for &from in &sites {
            for &to in &sites {
                let has = |site, arbiter| matches!((site, arbiter), (1..=3, 1) | (3, 2) | (1..=2, 3));
                let (asks, answers) = (has(from, to), has(to, from));
                let there = (1..=3).contains(&from) && (1..=3).contains(&to);
                assert_eq!(shaped(from, to, Body::Request { seq: 1 }), asks);
                assert_eq!(shaped(from, to, Body::Yield { grant: 1 }), asks);
                assert_eq!(shaped(from, to, Body::Release { heir: None, grant: 1 }), asks);
                assert_eq!(shaped(from, to, Body::Inquire { grant: 1 }), answers);
                assert_eq!(shaped(from, to, Body::Fail { seq: None }), answers);
                assert_eq!(shaped(from, to, Body::Fail { seq: Some(1) }), answers);
                for &about in &sites {
                    let heir = |arbiter| has(about, arbiter);
                    let release = Body::Release { heir: Some(about), grant: 1 };
                    assert_eq!(shaped(from, to, release), asks && heir(to));
                    let transfer = Body::Transfer { heir: about, grant: 1 };
                    assert_eq!(shaped(from, to, transfer), answers && heir(from));
                    let reply = Body::Reply { arbiter: about, grant: 1 };
                    assert_eq!(shaped(from, to, reply), there && has(to, about));
                }
            }
        }
    }

    #[test]
    fn the_version_before_knows_no_numbered_fail() {
        for (seq, misshapen) in [(None, false), (Some(1), true)] {
            let mut rig = rig().by(Version::Earlier);
            rig.under_way_mut().push(Message { from: 1, to: 2, body: Body::Fail { seq } });
            assert_eq!(rig.is_misshapen(), misshapen);
            assert!(!rig.by(Version::Present).is_misshapen());
        }
    }

    #[test]
    fn the_sets_are_those_that_setup_passes() {
        assert!(!Rig::fresh(&[vec![1], vec![1]]).is_misshapen());
        assert!(Rig::fresh(&[vec![1], vec![2]]).is_misshapen());
        assert!(Rig::fresh(&[vec![1], vec![]]).is_misshapen());
        assert!(Rig::fresh(&[vec![1], vec![1, 3]]).is_misshapen());
        assert!(Rig::fresh(&[]).is_misshapen());
        assert!(Rig::fresh(&vec![vec![1]; 32]).is_misshapen());
        assert!(!Rig::fresh(&vec![vec![1]; 31]).is_misshapen());
    }

    /// "a state holding them counts as misshapen": 10 for every event.
    #[test]
    fn sets_inside_others_are_misshapen() {
        for lists in [
            &[vec![1], vec![1, 2]][..],
            &[vec![1, 2], vec![1]],
            &[vec![1, 2], vec![1, 3], vec![1, 2, 3]],
            &[vec![2, 3], vec![2, 3], vec![3]],
        ] {
            let mut rig = Rig::fresh(lists);
            assert!(rig.is_misshapen(), "{lists:?}");
            for event in [Event::Ask(1), Event::Leave(1), Event::Move(1, 1), Event::Ask(99)] {
                assert_eq!(rig.apply_judged(event), Err(Refusal::Misshapen));
            }
            assert_eq!(rig, Rig::fresh(lists));
            assert!(!rig.by(Version::Earlier).is_misshapen(), "the version before has no such test");
        }
        assert!(!Rig::fresh(&[vec![2, 3], vec![2, 3], vec![2, 3]]).is_misshapen());
        assert!(!Rig::fresh(&[vec![2, 3], vec![2, 3], vec![1, 3]]).is_misshapen());
    }

    /// A holder with grant number 0 is well shaped, but what the arbiter then
    /// sends is not.
    #[test]
    fn a_well_shaped_state_may_lead_to_a_misshapen_one() {
        let mut rig = rig();
        rig.desk_mut(1).arbiter.holder = claim(5, 1);
        rig.apply_judged(Event::Ask(2)).unwrap();
        rig.apply_judged(Event::Move(2, 1)).unwrap();
        assert_eq!(rig.under_way()[1].body, Body::Transfer { heir: 2, grant: 0 });
        assert!(rig.is_misshapen());
        assert_eq!(rig.apply_judged(Event::Ask(99)), Err(Refusal::Misshapen));
    }
}
