//! The rules of "One event": what one desk does with its own tables.
//!
//! An event touches the tables of one desk only: the asker's, the leaver's or
//! the receiver's. A turn works on a copy of them and collects what is sent,
//! so that an event turned down leaves no trace.

use super::{Body, Claim, Desk, Message, Mode, Site, Version};

/// One desk's part in one event.
pub struct Turn<'a> {
    version: Version,
    me: Site,
    members: &'a [Site],
    desk: Desk,
    sent: Vec<Message>,
}

impl<'a> Turn<'a> {
    /// The turn of desk `me`, whose request set is `members`, ascending.
    pub fn new(version: Version, me: Site, members: &'a [Site], desk: &Desk) -> Turn<'a> {
        Turn { version, me, members, desk: desk.clone(), sent: Vec::new() }
    }

    /// The desk's new tables and the messages sent, in order.
    pub fn finish(self) -> (Desk, Vec<Message>) {
        (self.desk, self.sent)
    }

    fn send(&mut self, to: Site, body: Body) {
        let from = self.me;
        self.sent.push(Message { from, to, body });
    }

    /// Sends a fail about a queued claim.
    fn send_fail(&mut self, queued: Claim) {
        let seq = (self.version == Version::Present).then_some(queued.seq);
        self.send(queued.site, Body::Fail { seq });
    }

    // The site asks and leaves.

    /// The site asks its members for their permissions.
    pub fn ask(&mut self) {
        self.desk.clock += 1;
        let seq = self.desk.clock;
        self.desk.mode = Mode::Waiting { seq, failed: false };
        for &j in self.members {
            self.desk.ties[usize::from(j)] = Default::default();
            self.send(j, Body::Request { seq });
        }
    }

    /// The site hands every permission on to its heir, or back.
    pub fn leave(&mut self) {
        for &j in self.members {
            let tie = std::mem::take(&mut self.desk.ties[usize::from(j)]);
            let Some(grant) = tie.held else { continue };
            if let Some(heir) = tie.heir {
                let (arbiter, grant) = (j, grant + 1);
                self.send(heir, Body::Reply { arbiter, grant });
            }
            let heir = tie.heir;
            self.send(j, Body::Release { heir, grant });
        }
        self.desk.mode = Mode::Rest;
    }

    // A message arrives.

    /// The desk takes a message in. One that fits no rule does nothing.
    pub fn receive(&mut self, from: Site, body: Body) {
        match body {
            Body::Request { seq } => self.request(Claim { seq, site: from }),
            Body::Release { heir, grant } => self.release(from, heir, grant),
            Body::Yield { grant } => self.yielded(from, grant),
            Body::Reply { arbiter, grant } => self.reply(arbiter, grant),
            Body::Inquire { grant } => self.inquire(from, grant),
            Body::Fail { seq } => self.fail(seq),
            Body::Transfer { heir, grant } => self.transfer(from, heir, grant),
        }
    }

    // The arbiter's side.

    fn request(&mut self, asker: Claim) {
        self.desk.clock = self.desk.clock.max(asker.seq);
        let Some(holder) = self.desk.arbiter.holder else {
            return self.grant(asker);
        };
        let former_head = self.desk.arbiter.head();
        self.desk.arbiter.put(asker);
        if self.desk.arbiter.head() != Some(asker) {
            return self.send_fail(asker);
        }
        if let Some(former) = former_head {
            if former.site != asker.site && former < holder {
                self.send_fail(former);
            }
        }
        let grant = self.desk.arbiter.grant;
        let heir = asker.site;
        self.send(holder.site, Body::Transfer { heir, grant });
        if asker < holder {
            self.send(holder.site, Body::Inquire { grant });
        } else {
            self.send_fail(asker);
        }
    }

    fn release(&mut self, from: Site, heir: Option<Site>, number: u32) {
        let arbiter = &mut self.desk.arbiter;
        let from_holder = arbiter.holder.is_some_and(|holder| holder.site == from);
        if number == arbiter.grant && from_holder {
            match heir {
                None => self.grant_head(),
                Some(heir) => self.handed_on(heir),
            }
        } else if number == arbiter.grant + 1 && heir.is_none() && arbiter.take(from).is_some() {
            // An early one: it has overtaken the release that names its sender.
            arbiter.grant += 1;
            self.grant_head();
        }
    }

    /// The holder has handed the permission on to `heir`, if that is queued.
    fn handed_on(&mut self, heir: Site) {
        let arbiter = &mut self.desk.arbiter;
        let Some(holder) = arbiter.take(heir) else { return };
        arbiter.grant += 1;
        arbiter.holder = Some(holder);
        let grant = arbiter.grant;
        if let Some(head) = arbiter.head() {
            let heir = head.site;
            self.send(holder.site, Body::Transfer { heir, grant });
            if head < holder {
                self.send(holder.site, Body::Inquire { grant });
            }
        }
    }

    fn yielded(&mut self, from: Site, number: u32) {
        let arbiter = &mut self.desk.arbiter;
        match arbiter.holder {
            Some(holder) if holder.site == from && number == arbiter.grant => {
                arbiter.put(holder);
                self.grant_head();
            }
            _ => {}
        }
    }

    /// Clears the holder and grants the head, if any.
    fn grant_head(&mut self) {
        self.desk.arbiter.holder = None;
        if let Some(head) = self.desk.arbiter.head() {
            self.grant(head);
        }
    }

    fn grant(&mut self, claim: Claim) {
        let arbiter = &mut self.desk.arbiter;
        arbiter.take(claim.site);
        arbiter.grant += 1;
        arbiter.holder = Some(claim);
        let grant = arbiter.grant;
        let head = arbiter.head();
        let arbiter = self.me;
        self.send(claim.site, Body::Reply { arbiter, grant });
        if let Some(head) = head {
            let heir = head.site;
            self.send(claim.site, Body::Transfer { heir, grant });
        }
    }

    // The site's side.

    fn reply(&mut self, j: Site, number: u32) {
        let Mode::Waiting { failed, .. } = self.desk.mode else {
            return;
        };
        if !self.members.contains(&j) || self.desk.tie(j).held.is_some() {
            return;
        }
        let tie = &mut self.desk.ties[usize::from(j)];
        tie.held = Some(number);
        tie.inquire = tie.inquire.filter(|&inquire| inquire == number);
        let inquired = tie.inquire.is_some();
        if self.members.iter().all(|&m| self.desk.tie(m).held.is_some()) {
            self.desk.mode = Mode::Inside;
            for &m in self.members {
                self.desk.ties[usize::from(m)].inquire = None;
            }
        } else if failed && inquired {
            self.give_back(j);
        }
    }

    fn inquire(&mut self, j: Site, number: u32) {
        let Mode::Waiting { failed, .. } = self.desk.mode else {
            return;
        };
        match self.desk.tie(j).held {
            Some(held) if held != number => {}
            Some(_) if failed => self.give_back(j),
            _ => self.desk.ties[usize::from(j)].inquire = Some(number),
        }
    }

    fn fail(&mut self, about: Option<u32>) {
        let Mode::Waiting { seq, .. } = self.desk.mode else {
            return;
        };
        if about.is_some_and(|about| about != seq) {
            // It is about another ask.
            return;
        }
        self.desk.mode = Mode::Waiting { seq, failed: true };
        for &j in self.members {
            if self.desk.tie(j).inquire.is_some() {
                self.give_back(j);
            }
        }
    }

    fn transfer(&mut self, j: Site, heir: Site, number: u32) {
        let tie = &mut self.desk.ties[usize::from(j)];
        if tie.held == Some(number) {
            tie.heir = Some(heir);
        }
    }

    /// Yields the permission of `j`, if it is held.
    fn give_back(&mut self, j: Site) {
        let Some(grant) = self.desk.tie(j).held else {
            return;
        };
        if let Mode::Waiting { failed, .. } = &mut self.desk.mode {
            *failed = true;
        }
        self.send(j, Body::Yield { grant });
        self.desk.ties[usize::from(j)] = Default::default();
    }
}

#[cfg(test)]
mod tests {
    use super::*;
    use crate::model::Tie;

    const MEMBERS: [Site; 3] = [1, 2, 3];

    fn turn(desk: &Desk) -> Turn<'static> {
        Turn::new(Version::Present, 1, &MEMBERS, desk)
    }

    fn message(to: Site, body: Body) -> Message {
        Message { from: 1, to, body }
    }

    /// A fail about the ask with this number.
    fn fail(seq: u32) -> Body {
        Body::Fail { seq: Some(seq) }
    }

    /// What desk 1 does with one message.
    fn receive(desk: &Desk, from: Site, body: Body) -> (Desk, Vec<Message>) {
        let mut turn = turn(desk);
        turn.receive(from, body);
        turn.finish()
    }

    fn waiting(failed: bool) -> Desk {
        let mut desk = Desk::fresh(5);
        desk.clock = 4;
        desk.mode = Mode::Waiting { seq: 4, failed };
        desk
    }

    /// An arbiter at grant 7, held by site 4 with sequence number 10.
    fn held_by_4() -> Desk {
        let mut desk = Desk::fresh(5);
        desk.arbiter.grant = 7;
        desk.arbiter.holder = Some(Claim { seq: 10, site: 4 });
        desk
    }

    #[test]
    fn an_ask_clears_and_asks_ascending() {
        let mut desk = Desk::fresh(5);
        desk.clock = 8;
        let mut turn = turn(&desk);
        turn.ask();
        let (desk, sent) = turn.finish();
        assert_eq!(desk.clock, 9);
        assert_eq!(desk.mode, Mode::Waiting { seq: 9, failed: false });
        let request = Body::Request { seq: 9 };
        assert_eq!(sent, [1, 2, 3].map(|j| message(j, request)));
    }

    #[test]
    fn a_leave_hands_on_or_back() {
        let mut desk = Desk::fresh(5);
        desk.mode = Mode::Inside;
        desk.ties[1].held = Some(5);
        desk.ties[2].held = Some(6);
        desk.ties[2].heir = Some(4);
        desk.ties[3].held = Some(7);
        let mut turn = turn(&desk);
        turn.leave();
        let (desk, sent) = turn.finish();
        assert_eq!(desk, Desk::fresh(5));
        assert_eq!(
            sent,
            [
                message(1, Body::Release { heir: None, grant: 5 }),
                message(4, Body::Reply { arbiter: 2, grant: 7 }),
                message(2, Body::Release { heir: Some(4), grant: 6 }),
                message(3, Body::Release { heir: None, grant: 7 }),
            ]
        );
    }

    #[test]
    fn a_request_to_a_free_arbiter_is_granted() {
        let (desk, sent) = receive(&Desk::fresh(5), 4, Body::Request { seq: 3 });
        assert_eq!(desk.clock, 3);
        assert_eq!(desk.arbiter.grant, 1);
        assert_eq!(desk.arbiter.holder, Some(Claim { seq: 3, site: 4 }));
        assert_eq!(sent, [message(4, Body::Reply { arbiter: 1, grant: 1 })]);
    }

    #[test]
    fn a_request_behind_the_head_fails() {
        let mut desk = held_by_4();
        desk.clock = 20;
        desk.arbiter.put(Claim { seq: 9, site: 2 });
        let (desk, sent) = receive(&desk, 3, Body::Request { seq: 9 });
        assert_eq!(desk.clock, 20);
        assert_eq!(desk.arbiter.queue().len(), 2);
        assert_eq!(sent, [message(3, fail(9))]);
    }

    #[test]
    fn a_new_head_before_the_holder_inquires_and_fails_the_former_head() {
        let mut desk = held_by_4();
        desk.arbiter.put(Claim { seq: 8, site: 3 });
        let (_, sent) = receive(&desk, 2, Body::Request { seq: 7 });
        assert_eq!(
            sent,
            [
                message(3, fail(8)),
                message(4, Body::Transfer { heir: 2, grant: 7 }),
                message(4, Body::Inquire { grant: 7 }),
            ]
        );
    }

    #[test]
    fn a_new_head_behind_the_holder_is_named_and_fails() {
        let mut desk = held_by_4();
        desk.arbiter.put(Claim { seq: 12, site: 3 });
        let (_, sent) = receive(&desk, 5, Body::Request { seq: 10 });
        assert_eq!(sent, [message(4, Body::Transfer { heir: 5, grant: 7 }), message(5, fail(10)),]);
    }

    #[test]
    fn a_plain_release_grants_the_head_and_names_the_next() {
        let mut desk = held_by_4();
        desk.arbiter.put(Claim { seq: 12, site: 3 });
        desk.arbiter.put(Claim { seq: 11, site: 5 });
        let (desk, sent) = receive(&desk, 4, Body::Release { heir: None, grant: 7 });
        assert_eq!(desk.arbiter.holder, Some(Claim { seq: 11, site: 5 }));
        assert_eq!(desk.arbiter.grant, 8);
        assert_eq!(
            sent,
            [
                message(5, Body::Reply { arbiter: 1, grant: 8 }),
                message(5, Body::Transfer { heir: 3, grant: 8 }),
            ]
        );
        let release = Body::Release { heir: None, grant: 7 };
        let (desk, sent) = receive(&held_by_4(), 4, release);
        assert_eq!((desk.arbiter.holder, desk.arbiter.grant), (None, 7));
        assert_eq!(sent, []);
    }

    #[test]
    fn a_release_naming_an_heir_makes_it_holder() {
        let mut desk = held_by_4();
        desk.arbiter.put(Claim { seq: 12, site: 3 });
        desk.arbiter.put(Claim { seq: 11, site: 5 });
        let release = Body::Release { heir: Some(3), grant: 7 };
        let (after, sent) = receive(&desk, 4, release);
        assert_eq!(after.arbiter.holder, Some(Claim { seq: 12, site: 3 }));
        assert_eq!(after.arbiter.grant, 8);
        assert_eq!(
            sent,
            [message(3, Body::Transfer { heir: 5, grant: 8 }), message(3, Body::Inquire { grant: 8 }),]
        );
        let release = Body::Release { heir: Some(5), grant: 7 };
        let (_, sent) = receive(&desk, 4, release);
        assert_eq!(sent, [message(5, Body::Transfer { heir: 3, grant: 8 })]);
    }

    #[test]
    fn an_early_release_passes_over_its_sender() {
        let mut desk = held_by_4();
        desk.arbiter.put(Claim { seq: 12, site: 3 });
        desk.arbiter.put(Claim { seq: 11, site: 5 });
        let early = Body::Release { heir: None, grant: 8 };
        let (after, sent) = receive(&desk, 5, early);
        assert_eq!(after.arbiter.holder, Some(Claim { seq: 12, site: 3 }));
        assert_eq!(after.arbiter.grant, 9);
        assert_eq!(sent, [message(3, Body::Reply { arbiter: 1, grant: 9 })]);
    }

    #[test]
    fn late_and_odd_releases_and_yields_change_nothing() {
        let mut desk = held_by_4();
        desk.arbiter.put(Claim { seq: 12, site: 3 });
        for (from, body) in [
            (4, Body::Release { heir: None, grant: 6 }),
            (4, Body::Release { heir: Some(3), grant: 6 }),
            (4, Body::Release { heir: Some(5), grant: 7 }),
            (3, Body::Release { heir: None, grant: 7 }),
            (3, Body::Release { heir: Some(4), grant: 8 }),
            (5, Body::Release { heir: None, grant: 8 }),
            (4, Body::Release { heir: None, grant: 8 }),
            (3, Body::Release { heir: None, grant: 9 }),
            (3, Body::Yield { grant: 7 }),
            (4, Body::Yield { grant: 6 }),
            (4, Body::Yield { grant: 8 }),
        ] {
            assert_eq!(receive(&desk, from, body), (desk.clone(), vec![]), "{body:?}");
        }
    }

    #[test]
    fn a_yield_queues_the_holder_and_grants_the_head() {
        let mut desk = held_by_4();
        desk.arbiter.put(Claim { seq: 9, site: 3 });
        let (after, sent) = receive(&desk, 4, Body::Yield { grant: 7 });
        assert_eq!(after.arbiter.holder, Some(Claim { seq: 9, site: 3 }));
        assert_eq!(after.arbiter.queue(), [Claim { seq: 10, site: 4 }]);
        assert_eq!(
            sent,
            [
                message(3, Body::Reply { arbiter: 1, grant: 8 }),
                message(3, Body::Transfer { heir: 4, grant: 8 }),
            ]
        );
        // Alone, it is granted again at once.
        let (after, sent) = receive(&held_by_4(), 4, Body::Yield { grant: 7 });
        assert_eq!(after.arbiter.holder, Some(Claim { seq: 10, site: 4 }));
        assert_eq!(sent, [message(4, Body::Reply { arbiter: 1, grant: 8 })]);
    }

    #[test]
    fn the_last_reply_lets_the_site_in() {
        let mut desk = waiting(true);
        desk.ties[1].held = Some(5);
        desk.ties[2].held = Some(6);
        desk.ties[2].heir = Some(4);
        desk.ties[3].inquire = Some(9);
        let reply = Body::Reply { arbiter: 3, grant: 9 };
        let (desk, sent) = receive(&desk, 4, reply);
        assert_eq!(desk.mode, Mode::Inside);
        assert_eq!(desk.ties[3], Tie { held: Some(9), ..Tie::default() });
        assert_eq!(desk.ties[2].heir, Some(4));
        assert_eq!(sent, []);
    }

    #[test]
    fn a_reply_meets_its_remembered_inquire() {
        let reply = Body::Reply { arbiter: 3, grant: 9 };
        let mut desk = waiting(true);
        desk.ties[3].inquire = Some(9);
        let (after, sent) = receive(&desk, 3, reply);
        assert_eq!(after.ties[3], Tie::default());
        assert_eq!(sent, [message(3, Body::Yield { grant: 9 })]);

        desk.ties[3].inquire = Some(8);
        let (after, sent) = receive(&desk, 3, reply);
        assert_eq!(after.ties[3], Tie { held: Some(9), ..Tie::default() });
        assert_eq!(after.mode, desk.mode, "the failed mark stays");
        assert_eq!(sent, []);

        let mut desk = waiting(false);
        desk.ties[3].inquire = Some(9);
        let (after, _) = receive(&desk, 3, reply);
        assert_eq!(after.ties[3].inquire, Some(9));
    }

    #[test]
    fn an_inquire_is_answered_or_remembered() {
        let inquire = Body::Inquire { grant: 9 };
        let mut failed = waiting(true);
        failed.ties[3].held = Some(9);
        failed.ties[3].heir = Some(5);
        let (after, sent) = receive(&failed, 3, inquire);
        assert_eq!(after.ties[3], Tie::default());
        assert_eq!(sent, [message(3, Body::Yield { grant: 9 })]);

        let mut hopeful = waiting(false);
        hopeful.ties[3].held = Some(9);
        let (after, sent) = receive(&hopeful, 3, inquire);
        assert_eq!((after.ties[3].inquire, sent.len()), (Some(9), 0));

        hopeful.ties[3].held = Some(8);
        assert_eq!(receive(&hopeful, 3, inquire), (hopeful.clone(), vec![]));

        let mut unheld = waiting(true);
        unheld.ties[3].inquire = Some(12);
        let (after, sent) = receive(&unheld, 3, inquire);
        assert_eq!((after.ties[3].inquire, sent.len()), (Some(9), 0));
    }

    #[test]
    fn a_fail_gives_back_what_was_inquired_after() {
        let mut desk = waiting(false);
        desk.ties[1] = Tie { held: Some(5), heir: Some(2), inquire: Some(5) };
        desk.ties[2].inquire = Some(6);
        for body in [fail(4), Body::Fail { seq: None }] {
            let (after, sent) = receive(&desk, 3, body);
            assert_eq!(after.mode, Mode::Waiting { seq: 4, failed: true });
            assert_eq!(after.ties[1], Tie::default());
            assert_eq!(after.ties[2].inquire, Some(6), "not held, still remembered");
            assert_eq!(sent, [message(1, Body::Yield { grant: 5 })]);
        }
        for other in [1, 3, 5, 2_000_000] {
            assert_eq!(receive(&desk, 3, fail(other)), (desk.clone(), vec![]), "about ask {other}");
        }
    }

    #[test]
    fn the_version_before_sends_no_number() {
        let mut desk = held_by_4();
        desk.arbiter.put(Claim { seq: 8, site: 3 });
        for (from, seq) in [(2, 9), (2, 7), (5, 10)] {
            let sent = |version| {
                let mut turn = Turn::new(version, 1, &MEMBERS, &desk);
                turn.receive(from, Body::Request { seq });
                turn.finish().1
            };
            let mut expected = sent(Version::Present);
            for message in &mut expected {
                if let Body::Fail { seq } = &mut message.body {
                    assert!(seq.take().is_some());
                }
            }
            assert_eq!(sent(Version::Earlier), expected);
        }
    }

    #[test]
    fn a_transfer_counts_by_its_number() {
        let mut desk = waiting(false);
        desk.ties[2].held = Some(6);
        desk.ties[2].heir = Some(3);
        let (after, _) = receive(&desk, 2, Body::Transfer { heir: 5, grant: 6 });
        assert_eq!(after.ties[2].heir, Some(5));
        let old = Body::Transfer { heir: 5, grant: 5 };
        assert_eq!(receive(&desk, 2, old), (desk.clone(), vec![]));
        desk.mode = Mode::Inside;
        let (after, _) = receive(&desk, 2, Body::Transfer { heir: 5, grant: 6 });
        assert_eq!(after.ties[2].heir, Some(5), "also inside");
    }

    #[test]
    fn a_site_not_waiting_does_nothing_with_the_rest() {
        for mode in [Mode::Rest, Mode::Inside] {
            let mut desk = Desk::fresh(5);
            desk.mode = mode;
            for body in [
                Body::Reply { arbiter: 2, grant: 3 },
                Body::Inquire { grant: 3 },
                fail(3),
                Body::Fail { seq: None },
                Body::Transfer { heir: 4, grant: 3 },
            ] {
                assert_eq!(receive(&desk, 2, body), (desk.clone(), vec![]));
            }
        }
    }
}
