//! Random schedules of events that keep a rig busy.

use std::io::{self, Write};

use crate::model::{Body, Claim, Event, Message, Mode, Rig, Site, MOST_UNDER_WAY};
use crate::random::Random;
use crate::rigs;

/// How a schedule behaves for a while.
#[derive(Clone, Copy, Debug)]
struct Mood {
    /// Which message is delivered next.
    choice: Choice,
    /// Of 100 events, how many are asks as long as a site rests. With none the
    /// rig comes to rest, with many the sites ask all at once.
    asks: usize,
    /// One in so many events is a leave while a site is inside.
    stay: usize,
    /// How many more events it lasts.
    left: usize,
}

/// How messages are chosen for delivery.
#[derive(Clone, Copy, Debug)]
enum Choice {
    /// Any message's channel.
    Any,
    /// The channel of the oldest message.
    Oldest,
    /// The channel of the newest message.
    Newest,
    /// What these sites (bit n for site n) send is left lying.
    SlowFrom(u64),
    /// What is sent to these sites is left lying.
    SlowTo(u64),
    /// A channel is left lying while its next message is a fail.
    SlowFails,
    /// One in so many channels is left lying; the salt says which.
    SlowChannels {
        /// One in so many.
        one_in: usize,
        /// Which of them.
        salt: u64,
    },
}

impl Choice {
    fn leaves_lying(self, rig: &Rig, message: &Message) -> bool {
        let Message { from, to, .. } = *message;
        match self {
            Choice::Any | Choice::Oldest | Choice::Newest => false,
            Choice::SlowFrom(sites) => sites >> from & 1 == 1,
            Choice::SlowTo(sites) => sites >> to & 1 == 1,
            Choice::SlowFails => {
                let next = rig.first(from, to).map(|place| rig.under_way()[place].body);
                matches!(next, Some(Body::Fail { .. }))
            }
            Choice::SlowChannels { one_in, salt } => {
                let channel = u64::from(from) << 16 | u64::from(to);
                Random::for_place(salt, channel).once_in(one_in)
            }
        }
    }
}

/// Chooses one event after another for a rig.
#[derive(Clone, Debug)]
pub struct Schedule {
    random: Random,
    mood: Mood,
    /// Of 100 events, how many are chosen without a look at the state.
    careless: usize,
    /// How long moods may last.
    lengths: &'static [usize],
    /// Whether fails are left lying every other time.
    slow_fails: bool,
    /// Whether and how the list of messages is to be filled.
    swelling: Option<Swelling>,
}

/// How the list of messages is filled.
#[derive(Clone, Copy, Debug)]
struct Swelling {
    /// So many sites are kept from asking until the list is nearly full.
    reserve: usize,
    /// Whether one site is let in before the list is filled.
    let_in: bool,
}

impl Schedule {
    /// A schedule with random habits.
    pub fn new(mut random: Random) -> Schedule {
        let careless = random.pick(&[0, 2, 5, 20]);
        let lengths = random.pick(&[&[12][..], &[50], &[50, 400], &[12, 50, 400, 3_000]]);
        Schedule { careless, lengths, ..Schedule::busy(random) }
    }

    /// A schedule for a long, busy run.
    pub fn busy(random: Random) -> Schedule {
        let mood = Mood { choice: Choice::Any, asks: 90, stay: 3, left: 40 };
        let lengths = &[12, 50, 400, 3_000];
        Schedule { random, mood, careless: 2, lengths, slow_fails: false, swelling: None }
    }

    /// A schedule in which old fails arrive: those for an ask before the last.
    pub fn slow_fails(random: Random) -> Schedule {
        Schedule { lengths: &[12, 50], slow_fails: true, ..Schedule::busy(random) }
    }

    /// A schedule that fills the list of messages if the rig can: full sets of
    /// some 22 sites or more can, the plane of order 5 is far from it.
    pub fn swelling(mut random: Random) -> Schedule {
        let swelling = Swelling { reserve: random.below(6), let_in: random.once_in(2) };
        Schedule { careless: 1, lengths: &[50], swelling: Some(swelling), ..Schedule::busy(random) }
    }

    /// The next event.
    pub fn next_event(&mut self, rig: &Rig) -> Event {
        if self.mood.left == 0 {
            self.mood = self.next_mood();
        }
        self.mood.left -= 1;
        if self.random.percent(self.careless) {
            self.careless(rig)
        } else if let Some(swelling) = self.swelling {
            self.swell(rig, swelling)
        } else {
            self.sensible(rig)
        }
    }

    fn next_mood(&mut self) -> Mood {
        let random = &mut self.random;
        let few = 1 << random.between(1, 31);
        let many = random.bits();
        let longest = random.pick(self.lengths);
        let choice = match random.below(13) {
            _ if self.slow_fails && random.once_in(2) => Choice::SlowFails,
            0..=1 => Choice::Any,
            2 => Choice::Oldest,
            3 => Choice::Newest,
            4 => Choice::SlowFrom(few),
            5 => Choice::SlowFrom(many),
            6 => Choice::SlowTo(few),
            7 => Choice::SlowTo(many),
            8 => Choice::SlowFails,
            _ => Choice::SlowChannels { one_in: random.pick(&[2, 3, 5, 10]), salt: many },
        };
        Mood {
            choice,
            asks: random.pick(&[0, 0, 2, 5, 10, 20, 90]),
            stay: random.pick(&[1, 3, 10, 40]),
            left: random.between(1, longest),
        }
    }

    /// An event that is most likely accepted.
    fn sensible(&mut self, rig: &Rig) -> Event {
        if let Some(inside) = rig.inside() {
            if self.random.once_in(self.mood.stay) {
                return Event::Leave(inside);
            }
        }
        if self.random.percent(self.mood.asks) {
            if let Some(site) = self.resting(rig) {
                return Event::Ask(site);
            }
        }
        // What is left lying is delivered only when nothing else can be done.
        let lying = match self.delivery(rig) {
            Some((event, false)) => return event,
            Some((event, true)) => Some(event),
            None => None,
        };
        if let Some(inside) = rig.inside() {
            return Event::Leave(inside);
        }
        if self.mood.asks > 0 || lying.is_none() {
            if let Some(site) = self.resting(rig) {
                return Event::Ask(site);
            }
        }
        lying.unwrap_or_else(|| self.careless(rig))
    }

    /// A delivery of something under way, as the mood is, and whether it was
    /// rather to be left lying.
    fn delivery(&mut self, rig: &Rig) -> Option<(Event, bool)> {
        let list = rig.under_way();
        if list.is_empty() {
            return None;
        }
        let choice = self.mood.choice;
        let mut message = match choice {
            Choice::Oldest => list[0],
            Choice::Newest => list[list.len() - 1],
            _ => self.random.pick(list),
        };
        for _ in 0..10 {
            if !choice.leaves_lying(rig, &message) {
                break;
            }
            message = self.random.pick(list);
        }
        let event = Event::Move(message.from, message.to);
        Some((event, choice.leaves_lying(rig, &message)))
    }

    /// Near the limit a sensible event; below it the one that lengthens the
    /// list the most, out of a handful. The site inside stays there meanwhile.
    fn swell(&mut self, rig: &Rig, swelling: Swelling) -> Event {
        let length = rig.under_way().len();
        if length + self.random.below(60) >= MOST_UNDER_WAY {
            (self.mood.asks, self.mood.stay) = (20, 10);
            return self.sensible(rig);
        }
        self.mood.stay = 1_000;
        if swelling.let_in && rig.inside().is_none() && length < 200 {
            self.mood.asks = 0;
            return self.sensible(rig);
        }
        let resting = rig.sites().filter(|&site| rig.desk(site).mode == Mode::Rest).count();
        self.mood.asks = if resting > swelling.reserve { 50 } else { 0 };
        (0..30)
            .map(|_| self.sensible(rig))
            .filter(|event| !matches!(event, Event::Leave(_)))
            .max_by_key(|&event| growth(rig, event))
            .unwrap_or_else(|| self.sensible(rig))
    }

    /// An event without a look at the state; mostly turned down.
    fn careless(&mut self, rig: &Rig) -> Event {
        match self.random.below(6) {
            0 | 1 => Event::Ask(self.any_number(rig)),
            2 | 3 => Event::Leave(self.any_number(rig)),
            _ => Event::Move(self.any_number(rig), self.any_number(rig)),
        }
    }

    fn site(&mut self, rig: &Rig) -> Site {
        self.random.between(1, usize::from(rig.size())) as Site
    }

    /// A number a line can hold, mostly that of a site.
    fn any_number(&mut self, rig: &Rig) -> Site {
        match self.random.below(16) {
            0 => self.random.pick(&[0, 31, 32, 33, 63, 64, 65, 100, 255, 256, 999]),
            1 => rig.size() + 1,
            2 => self.random.below(1000) as Site,
            _ => self.site(rig),
        }
    }

    /// A site at rest, if there is one.
    fn resting(&mut self, rig: &Rig) -> Option<Site> {
        let n = rig.size();
        let start = self.site(rig);
        (0..n).map(|step| (start + step - 1) % n + 1).find(|&site| rig.desk(site).mode == Mode::Rest)
    }
}

/// By how much an event would lengthen the list, little if it is refused.
/// Among equals, the later an ask comes in priority the sooner its requests
/// are delivered: then each further one becomes the head and is talked about.
fn growth(rig: &Rig, event: Event) -> (i64, Option<Claim>) {
    let Ok(change) = rig.plan(event) else { return (-1, None) };
    let grows = change.sent.len() as i64 - change.taken_count() as i64;
    let message = change.taken.map(|place| rig.under_way()[place]);
    let claim = message.and_then(|message| match message.body {
        Body::Request { seq } => Some(Claim { seq, site: message.from }),
        _ => None,
    });
    (grows, claim)
}

/// Writes a whole valid text with so many events.
pub fn write_text(
    lists: &[Vec<Site>],
    mut schedule: Schedule,
    events: usize,
    out: &mut impl Write,
) -> io::Result<()> {
    let mut rig = Rig::from_lists(lists).expect("sets that setup passes");
    out.write_all(rigs::head(lists).as_bytes())?;
    for _ in 0..events {
        let event = schedule.next_event(&rig);
        writeln!(out, "{event}")?;
        // A refusal leaves the rig as it was, as in the run to come.
        let _ = rig.apply(event);
    }
    Ok(())
}

/// The same into memory.
pub fn text(lists: &[Vec<Site>], schedule: Schedule, events: usize) -> Vec<u8> {
    let mut text = Vec::new();
    write_text(lists, schedule, events, &mut text).expect("a Vec takes all");
    text
}

#[cfg(test)]
mod tests {
    use super::*;
    use crate::census::{rules, Census};
    use crate::model::{play_with, Family, Version};

    fn census(text: &[u8]) -> Census {
        let mut census = Census::default();
        play_with(Version::Present, text, |rig, event| census.apply(rig, event));
        census
    }

    #[test]
    fn a_busy_plane_exercises_every_rule() {
        let lists = Family::Plane(5).lists().unwrap();
        let text = text(&lists, Schedule::busy(Random::new(1)), 100_000);
        let census = census(&text);
        // Rare on so large a rig; the small rigs below show them.
        let rare = ["inquire: other number held", "fail: not waiting", "fail: about another ask"];
        let common = rules().filter(|rule| !rare.contains(rule));
        assert_eq!(census.never_seen(common), Vec::<&str>::new(), "{census}");
    }

    #[test]
    fn most_events_are_accepted() {
        let families = [Family::Plane(5), Family::Grid(5)].map(|family| family.lists().unwrap());
        for lists in families.into_iter().chain([rigs::one_arbiter(31)]) {
            let text = text(&lists, Schedule::busy(Random::new(2)), 20_000);
            let output = crate::model::play(&text);
            let accepted = String::from_utf8(output).unwrap().matches(" code=0 ").count();
            assert!(accepted > 19_000, "{accepted}");
        }
    }

    #[test]
    fn small_rigs_exercise_every_rule() {
        let mut all = Census::default();
        for seed in 0..400 {
            let lists: rigs::Lists = match seed % 2 {
                0 => vec![vec![1, 3], vec![1, 2], vec![2, 3]],
                _ => vec![vec![1, 2], vec![1, 2], vec![1, 3]],
            };
            all.add(&census(&text(&lists, Schedule::new(Random::new(seed)), 1_000)));
        }
        assert_eq!(all.never_seen(rules()), Vec::<&str>::new(), "{all}");
    }

    #[test]
    fn every_kind_of_event_meets_a_full_list() {
        let full: rigs::Lists = vec![(1..=31).collect(); 31];
        let mut all = Census::default();
        for seed in 0..10 {
            let text = text(&full, Schedule::swelling(Random::new(seed)), 3_000);
            let output = String::from_utf8(crate::model::play(&text)).unwrap();
            assert!(!output.contains(" flying=1025\n"));
            all.add(&census(&text));
        }
        let full = ["list full: ask", "list full: leave", "list full: move"];
        assert_eq!(all.never_seen(full), Vec::<&str>::new(), "{all}");
    }
}
