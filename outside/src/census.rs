//! Counts which rules of the paper a run has exercised.

use std::collections::BTreeMap;
use std::fmt;

use crate::model::{Body, Claim, Event, Message, Mode, Refusal, Rig};

/// Every case told apart below: first the rules, then the limits.
const CASES: [&str; 32] = [
    "ask",
    "fail: about another ask",
    "fail: not waiting",
    "fail: nothing to yield",
    "fail: yields",
    "inquire: not waiting",
    "inquire: other number held",
    "inquire: remembered, held",
    "inquire: remembered, not held",
    "inquire: yields",
    "leave",
    "release: early",
    "release: hands on",
    "release: late",
    "release: plain",
    "reply: held",
    "reply: lets in",
    "reply: yields at once",
    "request: former head fails",
    "request: granted",
    "request: head, before the holder",
    "request: head, behind the holder",
    "request: not the head",
    "transfer: names an heir",
    "transfer: old",
    "yield: head granted",
    "list full: ask",
    "list full: leave",
    "list full: move",
    "spent: ask",
    "spent: leave",
    "spent: move",
];

/// The names of the rules, without the limits.
pub fn rules() -> impl Iterator<Item = &'static str> {
    let limit = |case: &str| case.starts_with("list full") || case.starts_with("spent");
    CASES.into_iter().filter(move |case| !limit(case))
}

/// How often each case came up.
#[derive(Clone, Debug, Default)]
pub struct Census {
    counts: BTreeMap<&'static str, u64>,
}

impl Census {
    /// Plays the event and counts its case, if it is accepted or meets a limit.
    pub fn apply(&mut self, rig: &mut Rig, event: Event) -> Result<(), Refusal> {
        let change = rig.plan(event).inspect_err(|&refusal| self.refused(event, refusal))?;
        let case = match event {
            Event::Ask(_) => "ask",
            Event::Leave(_) => "leave",
            Event::Move(..) => {
                let message = rig.under_way()[change.taken.expect("a delivery")];
                if let Body::Request { .. } = message.body {
                    if change.sent.len() == 3 {
                        self.count("request: former head fails");
                    }
                }
                case_of(rig, message, &change.sent)
            }
        };
        self.count(case);
        rig.commit(change);
        Ok(())
    }

    fn refused(&mut self, event: Event, refusal: Refusal) {
        match (refusal, event) {
            (Refusal::ListFull, Event::Ask(_)) => self.count("list full: ask"),
            (Refusal::ListFull, Event::Leave(_)) => self.count("list full: leave"),
            (Refusal::ListFull, Event::Move(..)) => self.count("list full: move"),
            (Refusal::Spent, Event::Ask(_)) => self.count("spent: ask"),
            (Refusal::Spent, Event::Leave(_)) => self.count("spent: leave"),
            (Refusal::Spent, Event::Move(..)) => self.count("spent: move"),
            _ => {}
        }
    }

    fn count(&mut self, case: &'static str) {
        debug_assert!(CASES.contains(&case) || case.starts_with("odd"), "{case}");
        *self.counts.entry(case).or_default() += 1;
    }

    /// Adds another census to this one.
    pub fn add(&mut self, other: &Census) {
        for (case, count) in &other.counts {
            *self.counts.entry(case).or_default() += count;
        }
    }

    /// Those of the given cases that did not come up.
    pub fn never_seen(&self, cases: impl IntoIterator<Item = &'static str>) -> Vec<&'static str> {
        cases.into_iter().filter(|case| !self.counts.contains_key(case)).collect()
    }
}

impl fmt::Display for Census {
    fn fmt(&self, f: &mut fmt::Formatter<'_>) -> fmt::Result {
        for (case, count) in &self.counts {
            writeln!(f, "  {count:>10}  {case}")?;
        }
        for case in self.never_seen(CASES) {
            writeln!(f, "       never  {case}")?;
        }
        Ok(())
    }
}

/// The case of a delivery, from the state before it and what it sends. A name
/// beginning with "odd" is one that no run from a fresh rig should show.
fn case_of(rig: &Rig, message: Message, sent: &[Message]) -> &'static str {
    let Message { from, to, body } = message;
    let desk = rig.desk(to);
    let arbiter = &desk.arbiter;
    let from_holder = arbiter.holder.is_some_and(|holder| holder.site == from);
    let waiting = matches!(desk.mode, Mode::Waiting { .. });
    let yields = sent.iter().any(|m| matches!(m.body, Body::Yield { .. }));
    match body {
        Body::Request { seq } => {
            let asker = Claim { seq, site: from };
            match arbiter.holder {
                _ if arbiter.queued(from).is_some() => "odd: request, queued already",
                None if arbiter.head().is_some() => "odd: request, others queued at a free arbiter",
                None => "request: granted",
                Some(_) if arbiter.head().is_some_and(|head| head < asker) => "request: not the head",
                Some(holder) if asker < holder => "request: head, before the holder",
                Some(_) => "request: head, behind the holder",
            }
        }
        Body::Release { heir, grant } if grant == arbiter.grant && from_holder => match heir {
            None => "release: plain",
            Some(heir) if arbiter.queued(heir).is_some() => "release: hands on",
            Some(_) => "odd: release, heir not queued",
        },
        Body::Release { heir: None, grant }
            if grant == arbiter.grant + 1 && arbiter.queued(from).is_some() =>
        {
            "release: early"
        }
        Body::Release { .. } => "release: late",
        Body::Yield { grant } if grant == arbiter.grant && from_holder => "yield: head granted",
        Body::Yield { .. } => "odd: yield, not by the holder",
        Body::Reply { .. } if !waiting => "odd: reply, not waiting",
        Body::Reply { arbiter: j, .. } if desk.tie(j).held.is_some() => "odd: reply, held",
        Body::Reply { arbiter: j, .. } => {
            let missing = |&&m: &&u16| m != j && desk.tie(m).held.is_none();
            if yields {
                "reply: yields at once"
            } else if rig.members(to).iter().find(missing).is_none() {
                "reply: lets in"
            } else {
                "reply: held"
            }
        }
        Body::Inquire { .. } if !waiting => "inquire: not waiting",
        Body::Inquire { .. } if yields => "inquire: yields",
        Body::Inquire { grant } => match desk.tie(from).held {
            None => "inquire: remembered, not held",
            Some(held) if held == grant => "inquire: remembered, held",
            Some(_) => "inquire: other number held",
        },
        Body::Fail { seq } => match desk.mode {
            Mode::Waiting { seq: own, .. } if seq.is_some_and(|seq| seq != own) => "fail: about another ask",
            Mode::Waiting { .. } if yields => "fail: yields",
            Mode::Waiting { .. } => "fail: nothing to yield",
            _ => "fail: not waiting",
        },
        Body::Transfer { grant, .. } if desk.tie(from).held == Some(grant) => "transfer: names an heir",
        Body::Transfer { .. } => "transfer: old",
    }
}
