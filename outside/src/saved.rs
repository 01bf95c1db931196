//! The saved text of a state, written and read (requests 2.2, 2.3 and 2.6,
//! docs/TEXT.md).

use std::fmt::Write;

use crate::model::{Arbiter, Body, Claim, Desk, Message, Mode, Rig, Site, Tie, Version, MOST_SITES};
use crate::rigs;

/// The text of a well-shaped state.
pub fn text_of(rig: &Rig) -> String {
    let lists: Vec<Vec<Site>> = rig.sites().map(|site| rig.members(site).to_vec()).collect();
    let mut text = rigs::head(&lists);
    put(&mut text, "accepted", &[rig.accepted()]);
    for site in rig.sites() {
        put_site(&mut text, rig, site);
    }
    for arbiter in rig.sites() {
        put_arbiter(&mut text, rig, arbiter);
    }
    for message in rig.under_way() {
        put(&mut text, "message", &message_numbers(message));
    }
    text
}

/// Puts one line behind the text.
fn put(text: &mut String, key: &str, numbers: &[u32]) {
    let numbers: Vec<String> = numbers.iter().map(u32::to_string).collect();
    writeln!(text, "{key}={}", numbers.join(",")).expect("a String takes all");
}

fn put_site(text: &mut String, rig: &Rig, site: Site) {
    let desk = rig.desk(site);
    let each = |entry: fn(&Tie) -> Option<u32>| -> Vec<u32> {
        rig.members(site).iter().map(|&member| entry(desk.tie(member)).unwrap_or(0)).collect()
    };
    put(text, "clock", &[desk.clock]);
    match desk.mode {
        Mode::Rest => put(text, "mode", &[0]),
        Mode::Waiting { seq, failed } => put(text, "mode", &[1, seq, u32::from(failed)]),
        Mode::Inside => put(text, "mode", &[2]),
    }
    put(text, "held", &each(|tie| tie.held));
    put(text, "heir", &each(|tie| tie.heir.map(u32::from)));
    put(text, "inquired", &each(|tie| tie.inquire));
}

fn put_arbiter(text: &mut String, rig: &Rig, site: Site) {
    let arbiter = &rig.desk(site).arbiter;
    put(text, "grant", &[arbiter.grant]);
    match arbiter.holder {
        None => put(text, "holder", &[0]),
        Some(Claim { seq, site }) => put(text, "holder", &[u32::from(site), seq]),
    }
    let askers = rig.sites().filter(|&asker| rig.members(asker).contains(&site));
    let queued: Vec<u32> = askers.map(|asker| arbiter.queued(asker).map_or(0, |claim| claim.seq)).collect();
    put(text, "queued", &queued);
}

fn message_numbers(message: &Message) -> Vec<u32> {
    let (kind, rest) = match message.body {
        Body::Request { seq } => (1, vec![seq]),
        Body::Reply { arbiter, grant } => (2, vec![u32::from(arbiter), grant]),
        Body::Release { heir, grant } => (3, vec![heir.map_or(0, u32::from), grant]),
        Body::Inquire { grant } => (4, vec![grant]),
        Body::Fail { seq } => (5, seq.into_iter().collect()),
        Body::Yield { grant } => (6, vec![grant]),
        Body::Transfer { heir, grant } => (7, vec![u32::from(heir), grant]),
    };
    [vec![kind, u32::from(message.from), u32::from(message.to)], rest].concat()
}

/// The state whose text this is; nothing if it is that of none.
pub fn read_text(text: &[u8]) -> Option<Rig> {
    read_text_by(Version::Present, text)
}

/// The same in a version. That of request 2.2 knows no numbered fail, and its
/// sets may be strictly contained in others.
pub fn read_text_by(version: Version, text: &[u8]) -> Option<Rig> {
    read_form(text).map(|rig| rig.by(version)).filter(|rig| !rig.is_misshapen())
}

/// The same, but only the form is judged: the keys and their order, how
/// numbers are written, how many there are.
pub(crate) fn read_form(text: &[u8]) -> Option<Rig> {
    let mut lines = Lines(text);
    let lists = sets(&mut lines)?;
    let accepted = lines.number("accepted")?;
    let mut desks: Vec<Desk> =
        lists.iter().map(|list| site(&mut lines, list, lists.len())).collect::<Option<_>>()?;
    for (arbiter, desk) in (1..).zip(&mut desks) {
        let askers = (1..).zip(&lists).filter(|(_, list)| list.contains(&arbiter));
        desk.arbiter = read_arbiter(&mut lines, askers.map(|(asker, _)| asker).collect())?;
    }
    let mut under_way = Vec::new();
    while !lines.0.is_empty() {
        under_way.push(message(&lines.numbers("message")?)?);
    }
    Some(Rig::of_parts(&lists, desks, under_way, accepted))
}

/// The lines still to be read.
struct Lines<'a>(&'a [u8]);

impl Lines<'_> {
    /// The numbers of the next line, which has this key and an end.
    fn numbers(&mut self, key: &str) -> Option<Vec<u32>> {
        let end = self.0.iter().position(|&byte| byte == b'\n')?;
        let value = self.0[..end].strip_prefix(key.as_bytes())?.strip_prefix(b"=")?;
        self.0 = &self.0[end + 1..];
        if value.is_empty() {
            return Some(Vec::new());
        }
        value.split(|&byte| byte == b',').map(number).collect()
    }

    /// The only number of the next line.
    fn number(&mut self, key: &str) -> Option<u32> {
        match self.numbers(key)?[..] {
            [number] => Some(number),
            _ => None,
        }
    }

    /// So many numbers of the next line.
    fn list(&mut self, key: &str, count: usize) -> Option<Vec<u32>> {
        self.numbers(key).filter(|numbers| numbers.len() == count)
    }
}

/// A number without leading zeros; every limit has fewer digits than ten.
fn number(text: &[u8]) -> Option<u32> {
    let formed = match text {
        [b'0'] => true,
        [b'1'..=b'9', rest @ ..] => rest.len() < 9 && rest.iter().all(u8::is_ascii_digit),
        _ => false,
    };
    formed.then(|| text.iter().fold(0, |value, digit| value * 10 + u32::from(digit - b'0')))
}

/// The number of a site, which may not be there.
fn site_number(number: u32) -> Option<Site> {
    Site::try_from(number).ok()
}

/// `sites=` and the sets, each ascending and of sites that are there.
fn sets(lines: &mut Lines) -> Option<Vec<Vec<Site>>> {
    let n = lines.number("sites").filter(|&n| (1..=MOST_SITES as u32).contains(&n))?;
    let mut set = || {
        let list = lines.numbers("set")?;
        let ascends = list.windows(2).all(|pair| pair[0] < pair[1]);
        let inside = list.iter().all(|site| (1..=n).contains(site));
        (ascends && inside && !list.is_empty()).then(|| list.iter().map(|&site| site as Site).collect())
    };
    (0..n).map(|_| set()).collect()
}

fn site(lines: &mut Lines, members: &[Site], n: usize) -> Option<Desk> {
    let mut desk = Desk::fresh(n);
    desk.clock = lines.number("clock")?;
    desk.mode = match lines.numbers("mode")?[..] {
        [0] => Mode::Rest,
        [1, seq, failed @ 0..=1] => Mode::Waiting { seq, failed: failed == 1 },
        [2] => Mode::Inside,
        _ => return None,
    };
    let held = lines.list("held", members.len())?;
    let heirs = lines.list("heir", members.len())?;
    let inquired = lines.list("inquired", members.len())?;
    let given = |number: u32| (number != 0).then_some(number);
    for (place, &member) in members.iter().enumerate() {
        let heir = site_number(heirs[place])?;
        desk.ties[usize::from(member)] = Tie {
            held: given(held[place]),
            heir: (heir != 0).then_some(heir),
            inquire: given(inquired[place]),
        };
    }
    Some(desk)
}

fn read_arbiter(lines: &mut Lines, askers: Vec<Site>) -> Option<Arbiter> {
    let mut arbiter = Arbiter::default();
    arbiter.grant = lines.number("grant")?;
    arbiter.holder = match lines.numbers("holder")?[..] {
        [0] => None,
        [site, seq] if site != 0 => Some(Claim { seq, site: site_number(site)? }),
        _ => return None,
    };
    let queued = lines.list("queued", askers.len())?;
    for (&site, &seq) in askers.iter().zip(&queued).filter(|(_, &seq)| seq != 0) {
        arbiter.put(Claim { seq, site });
    }
    Some(arbiter)
}

fn message(numbers: &[u32]) -> Option<Message> {
    let (&[kind, from, to], rest) = numbers.split_first_chunk()?;
    let body = match (kind, rest) {
        (1, &[seq]) => Body::Request { seq },
        (2, &[about, grant]) => Body::Reply { arbiter: site_number(about)?, grant },
        (3, &[0, grant]) => Body::Release { heir: None, grant },
        (3, &[about, grant]) => Body::Release { heir: Some(site_number(about)?), grant },
        (4, &[grant]) => Body::Inquire { grant },
        (5, &[]) => Body::Fail { seq: None },
        (5, &[seq]) if seq != 0 => Body::Fail { seq: Some(seq) },
        (6, &[grant]) => Body::Yield { grant },
        (7, &[about, grant]) => Body::Transfer { heir: site_number(about)?, grant },
        _ => return None,
    };
    Some(Message { from: site_number(from)?, to: site_number(to)?, body })
}

#[cfg(test)]
pub(crate) mod tests {
    use super::*;
    use crate::model::{last_state, last_state_by, Family};
    use crate::random::Random;
    use crate::schedule::{self, Schedule};
    use crate::strange;
    use crate::texts::EXAMPLE;

    /// The example of docs/TEXT.md.
    pub(crate) const EXAMPLE_SAVED: &str = "sites=2\nset=1\nset=1\naccepted=7\n\
        clock=1\nmode=0\nheld=0\nheir=0\ninquired=0\n\
        clock=1\nmode=1,1,0\nheld=0\nheir=0\ninquired=0\n\
        grant=1\nholder=1,1\nqueued=0,1\n\
        grant=0\nholder=0\nqueued=\n\
        message=5,1,2,1\nmessage=2,1,2,1,2\nmessage=3,1,1,2,1\n";

    fn round_trip(rig: &Rig) {
        let text = text_of(rig);
        let lines = 9 * usize::from(rig.size()) + 2 + rig.under_way().len();
        assert_eq!(text.lines().count(), lines);
        assert_eq!(read_text(text.as_bytes()).as_ref(), Some(rig), "{text}");
    }

    #[test]
    fn the_example_is_written_and_read() {
        let first: String = EXAMPLE.split_inclusive('\n').take(10).collect();
        let rig = last_state(first.as_bytes()).unwrap();
        assert_eq!(text_of(&rig), EXAMPLE_SAVED);
        round_trip(&rig);
        // The document itself, where the folder is in its place.
        let document = concat!(env!("CARGO_MANIFEST_DIR"), "/../docs/TEXT.md");
        if let Ok(document) = std::fs::read_to_string(document) {
            assert!(document.contains(&format!("\n```\n{EXAMPLE_SAVED}```\n")));
        }
    }

    /// Every text of the version before is read, is written back as it is, and
    /// tells the state it was the text of. That version reads no others.
    #[test]
    fn texts_of_the_version_before() {
        let earlier = EXAMPLE_SAVED.replace("message=5,1,2,1", "message=5,1,2");
        let first: String = EXAMPLE.split_inclusive('\n').take(10).collect();
        assert_eq!(text_of(&last_state_by(Version::Earlier, first.as_bytes()).unwrap()), earlier);
        assert_eq!(read_text_by(Version::Earlier, EXAMPLE_SAVED.as_bytes()), None);
        let mut fails = 0;
        for seed in 0..200 {
            let mut random = Random::new(seed);
            let lists = rigs::passing(&mut random);
            let events = random.below(300);
            let text = schedule::text(&lists, Schedule::new(random), events);
            let rig = last_state_by(Version::Earlier, &text).unwrap();
            let text = text_of(&rig);
            fails += text.matches("message=5,").count();
            assert_eq!(read_text_by(Version::Earlier, text.as_bytes()).as_ref(), Some(&rig));
            round_trip(&rig.by(Version::Present));
        }
        assert!(fails > 100, "{fails}");
    }

    #[test]
    fn reached_states_are_read_back() {
        for seed in 0..400 {
            let mut random = Random::new(seed);
            let lists = match seed % 2 {
                0 => rigs::any_family(&mut random),
                _ => rigs::passing(&mut random),
            };
            let events = random.below(1_500);
            let text = schedule::text(&lists, Schedule::new(random), events);
            round_trip(&last_state(&text).unwrap());
        }
        for family in Family::all() {
            round_trip(&Rig::from_lists(&family.lists().unwrap()).unwrap());
        }
    }

    #[test]
    fn states_that_no_run_reaches_are_read_back() {
        let mut random = Random::new(6);
        for _ in 0..3_000 {
            let lists = rigs::passing(&mut random);
            round_trip(&strange::any_state(&mut random, &lists));
        }
    }

    #[test]
    fn the_longest_text() {
        let rig = strange::longest();
        assert_eq!(text_of(&rig).len(), 59_108);
        round_trip(&rig);
        let mut random = Random::new(7);
        for _ in 0..300 {
            let rig = strange::any_state(&mut random, &rigs::full(31));
            assert!(text_of(&rig).len() <= 59_108);
        }
    }

    /// What is read is written again byte for byte, whatever was done to it.
    #[test]
    fn only_what_is_written_is_read() {
        let mut random = Random::new(8);
        let (mut read, mut refused) = (0, 0);
        for round in 0..2_000 {
            let lists = rigs::passing(&mut random);
            let rig = strange::any_state(&mut random, &lists);
            let mut text = text_of(&rig).into_bytes();
            for _ in 0..random.between(1, 3) {
                text = crate::saved_damage::damage_saved(&mut random, &text).1;
            }
            match read_text(&text) {
                None => refused += 1,
                Some(rig) => {
                    assert_eq!(text_of(&rig).as_bytes(), text, "round {round}");
                    assert!(!rig.is_misshapen());
                    read += 1;
                }
            }
        }
        assert!(read > 100 && refused > 100, "{read} read, {refused} refused");
    }

    /// "A saved text with such sets is rejected too", also one of the version
    /// before, which reads it itself.
    #[test]
    fn texts_of_sets_inside_others() {
        let mut random = Random::new(9);
        let mut unnumbered = 0;
        for _ in 0..1_000 {
            let lists = rigs::nested(&mut random);
            for rig in [Rig::fresh(&lists), strange::any_state(&mut random, &lists)] {
                let text = text_of(&rig);
                let form = read_form(text.as_bytes());
                assert_eq!(form.as_ref(), Some(&rig));
                assert_eq!(read_text(text.as_bytes()), None);
                let earlier = read_text_by(Version::Earlier, text.as_bytes());
                if let Some(earlier) = earlier {
                    assert_eq!(earlier.by(Version::Present), rig);
                    unnumbered += 1;
                }
            }
        }
        assert!(unnumbered > 1_000, "{unnumbered}");
    }

    #[test]
    fn texts_of_no_state() {
        let without = |line: &str, other: &str| {
            let changed = EXAMPLE_SAVED.replacen(line, other, 1);
            assert_ne!(changed, EXAMPLE_SAVED, "{line}");
            changed
        };
        for (line, other) in [
            ("sites=2\n", "sites=3\n"),
            ("sites=2\n", "sites=02\n"),
            ("sites=2\n", "sites=2 \n"),
            ("sites=2\n", "sites=2\r\n"),
            ("sites=2\n", "Sites=2\n"),
            ("sites=2\n", ""),
            ("set=1\nset=1\n", "set=1\nset=2\n"),
            ("set=1\nset=1\n", "set=1\nset=1,3\n"),
            ("set=1\nset=1\n", "set=1\nset=\n"),
            ("set=1\nset=1\n", "set=1\nset=1,1\n"),
            ("set=1\nset=1\n", "set=1\nset=0,1\n"),
            ("accepted=7\n", "accepted=1000001\n"),
            ("accepted=7\n", "accepted=\n"),
            ("accepted=7\n", "accepted=7,7\n"),
            ("accepted=7\n", "accepted=4294967303\n"),
            ("accepted=7\n", "accepted=18446744073709551623\n"),
            ("clock=1\n", "clock=2000001\n"),
            ("mode=0\n", "mode=0,0,0\n"),
            ("mode=0\n", "mode=3\n"),
            ("mode=0\n", "mode=\n"),
            ("mode=1,1,0\n", "mode=1,0,0\n"),
            ("mode=1,1,0\n", "mode=1,1,2\n"),
            ("mode=1,1,0\n", "mode=1,1\n"),
            ("mode=1,1,0\n", "mode=1\n"),
            ("mode=1,1,0\n", "mode=1,2000001,0\n"),
            ("held=0\n", "held=0,0\n"),
            ("held=0\n", "held=\n"),
            ("held=0\n", "held=2000001\n"),
            ("heir=0\n", "heir=3\n"),
            ("heir=0\n", "heir=65537\n"),
            ("inquired=0\n", "inquired=00\n"),
            ("holder=1,1\n", "holder=1\n"),
            ("holder=1,1\n", "holder=1,0\n"),
            ("holder=1,1\n", "holder=3,1\n"),
            ("holder=0\n", "holder=0,0\n"),
            ("holder=0\n", "holder=1,1\n"),
            ("queued=0,1\n", "queued=0\n"),
            ("queued=0,1\n", "queued=0,1,0\n"),
            ("queued=\n", "queued=0\n"),
            ("message=5,1,2,1\n", "message=5,1,2,0\n"),
            ("message=5,1,2,1\n", "message=5,1,2,01\n"),
            ("message=5,1,2,1\n", "message=5,1,2,\n"),
            ("message=5,1,2,1\n", "message=5,1,2,1,0\n"),
            ("message=5,1,2,1\n", "message=5,1,2,0,1\n"),
            ("message=5,1,2,1\n", "message=5,1,2,2000001\n"),
            ("message=5,1,2,1\n", "message=5,2,1\n"),
            ("message=5,1,2,1\n", "message=5,2,1,1\n"),
            ("message=5,1,2,1\n", "message=0,1,2\n"),
            ("message=5,1,2,1\n", "message=8,1,2,1\n"),
            ("message=5,1,2,1\n", "message=5,1\n"),
            ("message=5,1,2,1\n", "message=\n"),
            ("message=5,1,2,1\n", "message=4,1,2,0\n"),
            ("message=5,1,2,1\n", "message=7,1,2,0,1\n"),
            ("message=5,1,2,1\n", "message=7,1,2,3,1\n"),
            ("message=5,1,2,1\n", "message=1,1,2,1\n"),
            ("message=5,1,2,1\n", "message=6,2,1\n"),
            ("message=2,1,2,1,2\n", "message=2,1,2,2,2\n"),
            ("message=2,1,2,1,2\n", "message=2,3,2,1,2\n"),
            ("message=2,1,2,1,2\n", "message=2,1,2,0,2\n"),
            ("message=3,1,1,2,1\n", "message=3,1,1,2,1"),
            ("message=3,1,1,2,1\n", "message=3,1,1,2,1\n\n"),
            ("message=3,1,1,2,1\n", "message=3,1,1,2,1\n\0"),
        ] {
            assert_eq!(read_text(without(line, other).as_bytes()), None, "{other:?} for {line:?}");
        }
        for (line, other) in [
            ("accepted=7\n", "accepted=1000000\n"),
            ("clock=1\n", "clock=2000000\n"),
            ("mode=0\n", "mode=2\n"),
            ("mode=0\n", "mode=1,2000000,1\n"),
            ("heir=0\n", "heir=2\n"),
            ("holder=1,1\n", "holder=0\n"),
            ("grant=1\n", "grant=0\n"),
            ("queued=0,1\n", "queued=2000000,0\n"),
            ("message=5,1,2,1\n", ""),
            ("message=5,1,2,1\n", "message=5,1,2\n"),
            ("message=5,1,2,1\n", "message=5,1,2,2\n"),
            ("message=5,1,2,1\n", "message=5,1,2,2000000\n"),
            ("message=5,1,2,1\n", "message=4,1,2,2000000\n"),
            ("message=2,1,2,1,2\n", "message=2,2,2,1,2\n"),
            ("message=3,1,1,2,1\n", "message=3,1,1,0,1\n"),
        ] {
            assert!(read_text(without(line, other).as_bytes()).is_some(), "{other:?} for {line:?}");
        }
        assert_eq!(read_text(b""), None);
    }
}
