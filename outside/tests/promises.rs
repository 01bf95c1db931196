//! What the paper promises of every run, tried on random runs of the model.
//! These do not compare two programs: they ask whether the paper was read
//! right.

use outside::model::{votes, Body, Event, Family, Mode, Rig, Site, Version};
use outside::random::Random;
use outside::rigs::{passing, passing_of_size, passing_votes, Lists};
use outside::saved::{read_text, text_of};
use outside::schedule::Schedule;

/// The places of arbiter `j`'s permission, counted together.
fn places(rig: &Rig, j: Site) -> usize {
    let free = usize::from(rig.desk(j).arbiter.holder.is_none());
    let held = rig.sites().filter(|&site| rig.desk(site).tie(j).held.is_some());
    let travelling = rig.under_way().iter().filter(|message| match message.body {
        Body::Reply { arbiter, .. } => arbiter == j,
        Body::Yield { .. } | Body::Release { heir: None, .. } => message.to == j,
        _ => false,
    });
    free + held.count() + travelling.count()
}

fn inside_count(rig: &Rig) -> usize {
    let inside = |site: &Site| rig.desk(*site).mode == Mode::Inside;
    rig.sites().filter(inside).count()
}

fn is_stuck(rig: &Rig) -> bool {
    rig.under_way().is_empty() && inside_count(rig) == 0 && rig.waiting() > 0
}

/// The number of a fail that the event delivers, and the site's own (0 none).
fn fail_numbers(rig: &Rig, event: Event) -> Option<(u32, u32)> {
    let Event::Move(from, to) = event else { return None };
    let Body::Fail { seq } = rig.under_way()[rig.first(from, to)?].body else { return None };
    let own = match rig.desk(to).mode {
        Mode::Waiting { seq, .. } => seq,
        _ => 0,
    };
    Some((seq.unwrap_or(0), own))
}

/// Plays an event and checks the promises. Tells whether it has delivered a
/// fail about another ask to a waiting site.
fn check_event(rig: &mut Rig, event: Event) -> bool {
    let before = rig.clone();
    let mut is_old = false;
    if rig.apply(event).is_err() {
        assert_eq!(*rig, before, "a refused event changes nothing");
    } else {
        assert_eq!(rig.accepted(), before.accepted() + 1);
        if let Some((number, own)) = fail_numbers(&before, event) {
            if number != 0 && number != own {
                check_untouched(&before, rig, event);
                is_old = own != 0;
            }
        }
    }
    assert!(inside_count(rig) <= 1, "{event}");
    assert!(!is_stuck(rig), "{event}");
    for j in rig.sites() {
        assert_eq!(places(rig, j), 1, "arbiter {j} after {event}");
    }
    is_old
}

/// Only the list has changed, by the message taken off.
fn check_untouched(before: &Rig, after: &Rig, event: Event) {
    let Event::Move(from, to) = event else { panic!("no delivery") };
    let mut list = before.under_way().to_vec();
    list.remove(before.first(from, to).unwrap());
    assert_eq!(after.under_way(), list, "{event}");
    assert!(after.sites().all(|site| after.desk(site) == before.desk(site)), "{event}");
}

/// Checks a run from a fresh state. Gives how many old fails it has met.
fn check_run(lists: &Lists, schedule: &mut Schedule, events: usize) -> usize {
    let mut rig = Rig::from_lists(lists).unwrap();
    let mut old = 0;
    for _ in 0..events {
        let event = schedule.next_event(&rig);
        old += usize::from(check_event(&mut rig, event));
        check_fails(&rig);
    }
    old
}

/// In a run from a fresh state every fail is about an ask that was made.
fn check_fails(rig: &Rig) {
    for message in rig.under_way() {
        if let Body::Fail { seq } = message.body {
            let asked = 1..=rig.desk(message.to).clock;
            assert!(seq.is_some_and(|seq| asked.contains(&seq)), "{message:?}");
        }
    }
}

/// Delivers every message, in any order: in the end nobody waits.
fn check_served(mut rig: Rig, random: &mut Random) {
    for _ in 0..200_000 {
        let event = if let Some(site) = rig.inside() {
            Event::Leave(site)
        } else if rig.under_way().is_empty() {
            break;
        } else {
            let message = random.pick(rig.under_way());
            Event::Move(message.from, message.to)
        };
        // A full list asks for another choice of message.
        let _ = rig.apply(event);
    }
    assert_eq!(rig.waiting(), 0);
    assert!(rig.under_way().is_empty());
}

/// Any sets, or few sites and a schedule that lets old fails arrive.
fn any_run(random: &mut Random) -> (Lists, Schedule) {
    if random.once_in(2) {
        (passing(random), Schedule::new(Random::new(random.bits())))
    } else {
        let n = random.between(2, 5);
        (passing_of_size(random, n), Schedule::slow_fails(Random::new(random.bits())))
    }
}

#[test]
fn random_runs_keep_the_promises() {
    let mut old = 0;
    for seed in 0..300 {
        let (lists, mut schedule) = any_run(&mut Random::new(seed));
        old += check_run(&lists, &mut schedule, 800);
    }
    assert!(old > 300, "{old}");
}

#[test]
fn runs_of_the_families_keep_the_promises() {
    for (seed, family) in (0..).zip(Family::all()) {
        let lists = family.lists().unwrap();
        check_run(&lists, &mut Schedule::busy(Random::new(seed)), 3_000);
    }
}

#[test]
fn runs_on_votes_keep_the_promises() {
    for seed in 0..100 {
        let lists = votes::lists(&passing_votes(&mut Random::new(seed))).unwrap();
        check_run(&lists, &mut Schedule::busy(Random::new(seed)), 1_000);
    }
}

#[test]
fn runs_with_a_full_list_keep_the_promises() {
    let lists = vec![(1..=31).collect(); 31];
    check_run(&lists, &mut Schedule::swelling(Random::new(9)), 2_500);
}

#[test]
fn every_ask_is_served() {
    for seed in 0..100 {
        let mut random = Random::new(seed);
        let mut rig = Rig::from_lists(&passing(&mut random)).unwrap();
        for site in rig.sites() {
            rig.apply(Event::Ask(site)).unwrap();
        }
        check_served(rig, &mut random);
    }
}

/// A run of the version before request 2.3, saved in its spelling, is gone on
/// with by this one.
#[test]
fn runs_of_the_version_before_are_gone_on_with() {
    let (mut unnumbered, mut counted) = (0, 0);
    for seed in 0..300 {
        let mut random = Random::new(seed);
        let (lists, mut schedule) = any_run(&mut random);
        let mut rig = Rig::from_lists(&lists).unwrap().by(Version::Earlier);
        for _ in 0..random.below(800) {
            let event = schedule.next_event(&rig);
            check_event(&mut rig, event);
        }
        let text = text_of(&rig);
        unnumbered +=
            rig.under_way().iter().filter(|message| message.body == Body::Fail { seq: None }).count();
        let mut read = read_text(text.as_bytes()).expect("a text of the version before");
        assert_eq!(text_of(&read), text);
        assert_eq!(read, rig.by(Version::Present));
        for _ in 0..400 {
            let event = schedule.next_event(&read);
            counted +=
                usize::from(fail_numbers(&read, event).is_some_and(|(number, own)| number == 0 && own != 0));
            check_event(&mut read, event);
        }
        check_served(read, &mut random);
    }
    assert!(unnumbered > 300 && counted > 300, "{unnumbered} under way, {counted} counted");
}

/// The rig with some fails that have lost their numbers, by way of its text.
fn forgetful(rig: &Rig, random: &mut Random) -> Rig {
    let mut text = String::new();
    for line in text_of(rig).split_inclusive('\n') {
        match line.rsplit_once(',') {
            Some((short, _))
                if short.starts_with("message=5,")
                    && short.matches(',').count() == 2
                    && random.once_in(3) =>
            {
                text += short;
                text += "\n";
            }
            _ => text += line,
        }
    }
    read_text(text.as_bytes()).expect("a well-shaped state")
}

/// Between the events any fail under way may lose its number.
#[test]
fn runs_with_forgetful_fails_keep_the_promises() {
    for seed in 0..200 {
        let mut random = Random::new(seed);
        let (lists, mut schedule) = any_run(&mut random);
        let mut rig = Rig::from_lists(&lists).unwrap();
        for _ in 0..600 {
            let event = schedule.next_event(&rig);
            check_event(&mut rig, event);
            if random.once_in(6) {
                rig = forgetful(&rig, &mut random);
            }
        }
        check_served(rig, &mut random);
    }
}
