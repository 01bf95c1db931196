//! The tables of one desk: those of the site and those of its arbiter.

use super::Site;

/// What a site is doing.
#[derive(Clone, Copy, Debug, PartialEq, Eq)]
pub enum Mode {
    /// Not interested.
    Rest,
    /// It has asked and waits for permissions.
    Waiting {
        /// The sequence number of its ask.
        seq: u32,
        /// Whether it was told, or has found, that others come first.
        failed: bool,
    },
    /// It holds every permission it needs.
    Inside,
}

/// What a site knows about the permission of one arbiter.
#[derive(Clone, Copy, Debug, Default, PartialEq, Eq)]
pub struct Tie {
    /// The grant number under which the permission is held.
    pub held: Option<u32>,
    /// To whom the permission is to be handed on.
    pub heir: Option<Site>,
    /// The number of an inquire not yet answered.
    pub inquire: Option<u32>,
}

/// A site with the sequence number of its ask.
///
/// The order of claims is the paper's priority: the smaller sequence number
/// comes before, and with equal ones the smaller site.
#[derive(Clone, Copy, Debug, PartialEq, Eq, PartialOrd, Ord)]
pub struct Claim {
    /// The sequence number of the ask.
    pub seq: u32,
    /// The asking site.
    pub site: Site,
}

/// The tables of an arbiter.
#[derive(Clone, Debug, Default, PartialEq, Eq)]
pub struct Arbiter {
    /// The grant number.
    pub grant: u32,
    /// Who has the permission, as far as the arbiter knows.
    pub holder: Option<Claim>,
    /// The queued claims in order of priority, at most one for each site.
    queue: Vec<Claim>,
}

impl Arbiter {
    /// The queued claim that comes before all others queued.
    pub fn head(&self) -> Option<Claim> {
        self.queue.first().copied()
    }

    /// All queued claims, the foremost first.
    pub fn queue(&self) -> &[Claim] {
        &self.queue
    }

    /// The claim of `site`, if it is queued.
    pub fn queued(&self, site: Site) -> Option<Claim> {
        self.queue.iter().copied().find(|claim| claim.site == site)
    }

    /// Queues a claim, in place of any other by the same site.
    pub fn put(&mut self, claim: Claim) {
        self.take(claim.site);
        let place = self.queue.partition_point(|other| *other < claim);
        self.queue.insert(place, claim);
    }

    /// Takes the claim of `site` off the queue, if it is there.
    pub fn take(&mut self, site: Site) -> Option<Claim> {
        let place = self.queue.iter().position(|claim| claim.site == site)?;
        Some(self.queue.remove(place))
    }
}

/// The tables of one desk.
#[derive(Clone, Debug, PartialEq, Eq)]
pub struct Desk {
    /// What the site is doing.
    pub mode: Mode,
    /// The site's clock.
    pub clock: u32,
    /// What the site knows of each arbiter, found by the arbiter's number
    /// (place 0 is not used).
    pub ties: Vec<Tie>,
    /// The arbiter's side.
    pub arbiter: Arbiter,
}

impl Desk {
    /// A desk at rest in a rig of `n` sites.
    pub fn fresh(n: usize) -> Desk {
        Desk { mode: Mode::Rest, clock: 0, ties: vec![Tie::default(); n + 1], arbiter: Arbiter::default() }
    }

    /// What the site knows of arbiter `j`.
    pub fn tie(&self, j: Site) -> &Tie {
        &self.ties[usize::from(j)]
    }
}

#[cfg(test)]
mod tests {
    use super::*;

    #[test]
    fn priority_is_by_sequence_number_then_site() {
        let early = Claim { seq: 3, site: 9 };
        let late = Claim { seq: 4, site: 1 };
        assert!(early < late);
        assert!(Claim { seq: 4, site: 1 } < Claim { seq: 4, site: 2 });
    }

    #[test]
    fn the_head_comes_before_all_others_and_a_site_is_queued_once() {
        let mut arbiter = Arbiter::default();
        assert_eq!(arbiter.head(), None);
        for (seq, site) in [(5, 2), (5, 1), (3, 7), (9, 3)] {
            arbiter.put(Claim { seq, site });
        }
        assert_eq!(arbiter.head(), Some(Claim { seq: 3, site: 7 }));
        arbiter.put(Claim { seq: 10, site: 7 });
        assert_eq!(arbiter.head(), Some(Claim { seq: 5, site: 1 }));
        assert_eq!(arbiter.queue().len(), 4);
        assert_eq!(arbiter.take(1), Some(Claim { seq: 5, site: 1 }));
        assert_eq!(arbiter.take(1), None);
        assert_eq!(arbiter.head(), Some(Claim { seq: 5, site: 2 }));
    }
}
