//! The state of a whole rig and what an event does to it.

use super::setup;
use super::turn::Turn;
use super::{
    Desk, Event, Message, Mode, Refusal, Site, Version, LARGEST_NUMBER, MOST_ACCEPTED, MOST_SITES,
    MOST_UNDER_WAY,
};

/// A rig: its desks and the messages under way between them.
#[derive(Clone, Debug, PartialEq, Eq)]
pub struct Rig {
    /// The request set of each site, ascending, found by the site's number.
    members: Vec<Vec<Site>>,
    /// The tables of each desk, found by the site's number.
    desks: Vec<Desk>,
    /// The messages under way, in order of sending.
    under_way: Vec<Message>,
    /// The events accepted so far.
    accepted: u32,
    /// By which rules it goes. This is no part of the state.
    version: Version,
}

/// What an event would do, worked out but not yet done.
#[derive(Clone, Debug, PartialEq, Eq)]
pub struct Change {
    /// The site whose desk acts.
    pub site: Site,
    /// That desk's new tables.
    pub desk: Desk,
    /// The place in the list of the message taken off, if one is.
    pub taken: Option<usize>,
    /// The messages sent, in order.
    pub sent: Vec<Message>,
}

impl Rig {
    /// A fresh rig from a buffer of sets, or setup's refusal, in a version.
    pub fn setup(version: Version, n: usize, buffer: &[u64]) -> Result<Rig, Refusal> {
        setup::judge_by(version, n, buffer)?;
        let lists: Vec<Vec<Site>> = buffer[..n].iter().map(|&set| setup::members(set)).collect();
        Ok(Rig::fresh(&lists).by(version))
    }

    /// A fresh rig from lists of members, or setup's refusal.
    pub fn from_lists(lists: &[Vec<Site>]) -> Result<Rig, Refusal> {
        Rig::from_lists_by(Version::Present, lists)
    }

    /// The same in a version.
    pub fn from_lists_by(version: Version, lists: &[Vec<Site>]) -> Result<Rig, Refusal> {
        let mut buffer = [0; MOST_SITES];
        for (entry, list) in buffer.iter_mut().zip(lists) {
            *entry = setup::set_of(list);
        }
        Rig::setup(version, lists.len(), &buffer)
    }

    /// A fresh rig from lists of members, judged by no one.
    pub(crate) fn fresh(lists: &[Vec<Site>]) -> Rig {
        Rig::of_parts(lists, vec![Desk::fresh(lists.len()); lists.len()], Vec::new(), 0)
    }

    /// A rig put together from its parts, site 1 first, and judged by no one.
    pub(crate) fn of_parts(
        lists: &[Vec<Site>],
        desks: Vec<Desk>,
        under_way: Vec<Message>,
        accepted: u32,
    ) -> Rig {
        let members = [&[Vec::new()], lists].concat();
        let desks = [vec![Desk::fresh(lists.len())], desks].concat();
        Rig { members, desks, under_way, accepted, version: Version::Present }
    }

    /// The same state, going by the rules of this version from now on.
    pub fn by(self, version: Version) -> Rig {
        Rig { version, ..self }
    }

    /// By which rules it goes.
    pub fn version(&self) -> Version {
        self.version
    }

    /// The number of sites.
    pub fn size(&self) -> Site {
        self.sites().end - 1
    }

    /// The sites, ascending.
    pub fn sites(&self) -> std::ops::Range<Site> {
        1..self.desks.len() as Site
    }

    /// The request set of a site, ascending.
    pub fn members(&self, site: Site) -> &[Site] {
        &self.members[usize::from(site)]
    }

    /// The tables of a site's desk.
    pub fn desk(&self, site: Site) -> &Desk {
        &self.desks[usize::from(site)]
    }

    /// The same, to be meddled with by planted faults and tests.
    pub(crate) fn desk_mut(&mut self, site: Site) -> &mut Desk {
        &mut self.desks[usize::from(site)]
    }

    /// The messages under way, in order of sending.
    pub fn under_way(&self) -> &[Message] {
        &self.under_way
    }

    /// The same, to be meddled with by planted faults and tests.
    pub(crate) fn under_way_mut(&mut self) -> &mut Vec<Message> {
        &mut self.under_way
    }

    /// The number of events accepted so far.
    pub fn accepted(&self) -> u32 {
        self.accepted
    }

    /// The site inside, if there is one.
    pub fn inside(&self) -> Option<Site> {
        self.sites().find(|&site| self.desk(site).mode == Mode::Inside)
    }

    /// The number of sites waiting.
    pub fn waiting(&self) -> usize {
        let waits = |site: &Site| matches!(self.desk(*site).mode, Mode::Waiting { .. });
        self.sites().filter(waits).count()
    }

    /// The place of the first message from `from` to `to`.
    pub fn first(&self, from: Site, to: Site) -> Option<usize> {
        let matches = |message: &Message| message.from == from && message.to == to;
        self.under_way.iter().position(matches)
    }

    /// Works out what an event would do, or why it is turned down: 4, then 5,
    /// 6 or 7, then 9, last 8.
    pub fn plan(&self, event: Event) -> Result<Change, Refusal> {
        let (site, taken, turn) = match event {
            Event::Ask(site) => {
                self.existing(site)?;
                if self.desk(site).mode != Mode::Rest {
                    return Err(Refusal::NotAtRest);
                }
                let mut turn = self.turn(site);
                turn.ask();
                (site, None, turn)
            }
            Event::Leave(site) => {
                self.existing(site)?;
                if self.desk(site).mode != Mode::Inside {
                    return Err(Refusal::NotInside);
                }
                let mut turn = self.turn(site);
                turn.leave();
                (site, None, turn)
            }
            Event::Move(from, to) => {
                self.existing(from)?;
                self.existing(to)?;
                let place = self.first(from, to).ok_or(Refusal::NothingUnderWay)?;
                let mut turn = self.turn(to);
                turn.receive(from, self.under_way[place].body);
                (to, Some(place), turn)
            }
        };
        let (desk, sent) = turn.finish();
        let change = Change { site, desk, taken, sent };
        if self.accepted >= MOST_ACCEPTED || change.largest_number() > LARGEST_NUMBER {
            return Err(Refusal::Spent);
        }
        if self.under_way.len() + change.sent.len() > MOST_UNDER_WAY + change.taken_count() {
            return Err(Refusal::ListFull);
        }
        Ok(change)
    }

    /// Does what was planned for this very state.
    pub fn commit(&mut self, change: Change) {
        if let Some(place) = change.taken {
            self.under_way.remove(place);
        }
        self.under_way.extend(change.sent);
        self.desks[usize::from(change.site)] = change.desk;
        self.accepted += 1;
    }

    /// Plays one event. If it is turned down, nothing changes.
    pub fn apply(&mut self, event: Event) -> Result<(), Refusal> {
        let change = self.plan(event)?;
        self.commit(change);
        Ok(())
    }

    /// The same with the check of the state before it: 10 if it is misshapen.
    pub fn apply_judged(&mut self, event: Event) -> Result<(), Refusal> {
        if self.is_misshapen() {
            return Err(Refusal::Misshapen);
        }
        self.apply(event)
    }

    fn existing(&self, site: Site) -> Result<(), Refusal> {
        if self.sites().contains(&site) {
            Ok(())
        } else {
            Err(Refusal::NoSuchSite)
        }
    }

    fn turn(&self, site: Site) -> Turn<'_> {
        Turn::new(self.version, site, self.members(site), self.desk(site))
    }
}

impl Change {
    /// How many messages it takes off the list.
    pub fn taken_count(&self) -> usize {
        usize::from(self.taken.is_some())
    }

    /// The largest number that could be new: the clock, the arbiter's grant
    /// number, or one sent. All other numbers are copies of such.
    fn largest_number(&self) -> u32 {
        let sent = self.sent.iter().map(|message| message.body.number());
        sent.fold(self.desk.clock.max(self.desk.arbiter.grant), u32::max)
    }
}

#[cfg(test)]
mod tests {
    use super::*;
    use crate::model::{Body, Claim};

    fn pair() -> Rig {
        Rig::from_lists(&[vec![1], vec![1]]).unwrap()
    }

    fn code(rig: &Rig, event: Event) -> u8 {
        rig.plan(event).err().map_or(0, Refusal::code)
    }

    #[test]
    fn refusals_of_the_moment() {
        let mut rig = pair();
        for site in [0, 3, 64, 65, 999] {
            assert_eq!(code(&rig, Event::Ask(site)), 4);
            assert_eq!(code(&rig, Event::Leave(site)), 4);
            assert_eq!(code(&rig, Event::Move(site, 1)), 4);
            assert_eq!(code(&rig, Event::Move(1, site)), 4);
        }
        assert_eq!(code(&rig, Event::Leave(1)), 6);
        assert_eq!(code(&rig, Event::Move(1, 1)), 7);
        rig.apply(Event::Ask(1)).unwrap();
        assert_eq!(code(&rig, Event::Ask(1)), 5);
        assert_eq!(code(&rig, Event::Leave(1)), 6);
        assert_eq!(code(&rig, Event::Move(1, 2)), 7);
        assert_eq!(code(&rig, Event::Move(1, 1)), 0);
    }

    #[test]
    fn a_spent_count_comes_after_4_to_7() {
        let mut rig = pair();
        rig.accepted = MOST_ACCEPTED - 1;
        rig.apply(Event::Ask(1)).unwrap();
        let before = rig.clone();
        assert_eq!(code(&rig, Event::Ask(3)), 4);
        assert_eq!(code(&rig, Event::Ask(1)), 5);
        assert_eq!(code(&rig, Event::Leave(1)), 6);
        assert_eq!(code(&rig, Event::Move(2, 1)), 7);
        assert_eq!(rig.apply(Event::Ask(2)), Err(Refusal::Spent));
        assert_eq!(rig.apply(Event::Move(1, 1)), Err(Refusal::Spent));
        assert_eq!(rig, before);
    }

    #[test]
    fn numbers_stay_in_their_range() {
        let mut rig = pair();
        rig.desk_mut(1).clock = LARGEST_NUMBER - 1;
        assert_eq!(code(&rig, Event::Ask(1)), 0);
        rig.desk_mut(1).clock = LARGEST_NUMBER;
        assert_eq!(code(&rig, Event::Ask(1)), 9);

        rig.desk_mut(1).clock = 1;
        rig.apply(Event::Ask(1)).unwrap();
        rig.desk_mut(1).arbiter.grant = LARGEST_NUMBER - 1;
        assert_eq!(code(&rig, Event::Move(1, 1)), 0);
        rig.desk_mut(1).arbiter.grant = LARGEST_NUMBER;
        assert_eq!(code(&rig, Event::Move(1, 1)), 9);

        let mut rig = pair();
        rig.desk_mut(1).mode = Mode::Inside;
        rig.desk_mut(1).ties[1].held = Some(LARGEST_NUMBER);
        assert_eq!(code(&rig, Event::Leave(1)), 0);
        rig.desk_mut(1).ties[1].heir = Some(2);
        assert_eq!(code(&rig, Event::Leave(1)), 9, "the reply would pass");

        // A fail carries a number that was queued, so it never passes.
        let mut rig = pair();
        rig.desk_mut(1).clock = LARGEST_NUMBER - 1;
        rig.apply(Event::Ask(1)).unwrap();
        rig.desk_mut(1).arbiter.holder = Some(Claim { seq: 1, site: 2 });
        let change = rig.plan(Event::Move(1, 1)).unwrap();
        assert_eq!(change.sent[1].body, Body::Fail { seq: Some(LARGEST_NUMBER) });
    }

    #[test]
    fn the_list_may_be_filled_but_not_passed() {
        let filler = Message { from: 2, to: 2, body: Body::Fail { seq: None } };
        let mut rig = pair();
        rig.under_way = vec![filler; MOST_UNDER_WAY - 1];
        rig.apply(Event::Ask(1)).unwrap();
        assert_eq!(rig.under_way.len(), MOST_UNDER_WAY);
        assert_eq!(code(&rig, Event::Ask(2)), 8);
        // One taken off, one sent: the list stays full.
        assert_eq!(code(&rig, Event::Move(1, 1)), 0);
        // One taken off, two sent.
        rig.desk_mut(1).arbiter.holder = Some(Claim { seq: 9, site: 2 });
        let before = rig.clone();
        assert_eq!(rig.apply(Event::Move(1, 1)), Err(Refusal::ListFull));
        assert_eq!(rig, before);
        // 9 comes before 8.
        rig.accepted = MOST_ACCEPTED;
        assert_eq!(code(&rig, Event::Move(1, 1)), 9);
        assert_eq!(code(&rig, Event::Ask(2)), 9);
    }

    #[test]
    fn messages_between_two_sites_arrive_in_order() {
        let mut rig = pair();
        let send = |number| Message { from: 2, to: 1, body: Body::Request { seq: number } };
        rig.under_way = vec![send(5), send(3)];
        rig.apply(Event::Move(2, 1)).unwrap();
        assert_eq!(rig.under_way[0], send(3));
    }
}
