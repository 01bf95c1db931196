//! The texts the comparer plays: fixed corner cases, then random ones.

use std::collections::BTreeSet;

use crate::damage::{damage, long_set_line};
use crate::model::setup::{members, set_of};
use crate::model::{votes, Family, Site, MOST_ACCEPTED, MOST_SITES};
use crate::random::Random;
use crate::rigs::{self, Lists};
use crate::schedule::{self, Schedule};

/// A text with the name of its kind.
#[derive(Clone, Debug)]
pub struct Text {
    /// What kind of text it is meant to be.
    pub kind: &'static str,
    /// The text itself.
    pub bytes: Vec<u8>,
}

/// The example printed in document 01.
pub const EXAMPLE: &str = "sites=2\nset=1\nset=1\nask=1\nmove=1,1\nmove=1,1\nask=2\nmove=2,1\n\
    move=1,1\nleave=1\nmove=1,2\nmove=1,2\nleave=2\nmove=2,1\nmove=1,1\nmove=1,1\n";

/// The corner cases, the same in every comparison.
pub fn fixed() -> Vec<Text> {
    let mut all: Vec<Vec<u8>> = Vec::new();
    let mut put = |text: &[u8]| all.push(text.to_vec());

    // The example, and every cut of it.
    for cut in 0..=EXAMPLE.len() {
        put(&EXAMPLE.as_bytes()[..cut]);
    }
    put(OLD_INQUIRE.as_bytes());
    put(OLD_FAIL.as_bytes());
    put(OLD_FAIL_OF_UNLIKE_SETS.as_bytes());
    put(OLD_FAIL_OF_TWO.as_bytes());
    for (_, text) in NUMBERED_FAILS {
        put(text.as_bytes());
    }
    for text in sets_inside_others() {
        put(&text);
    }
    // The first line.
    for number in [
        "", "0", "00", "01", "1", "2", "30", "31", "32", "33", "64", "99", "100", "255", "256", "257", "512",
        "999", "0999", "1000", "65537", "4294967297", "18446744073709551617", "-1", "+1", "1 ", " 1", "1,",
        "1,2", "1\r", "1\0", "a", "1a", "\u{ff11}",
    ] {
        let head = format!("sites={number}");
        put(head.as_bytes());
        put(format!("{head}\n").as_bytes());
        put(format!("{head}\nset=1\n").as_bytes());
        put(format!("{head}\n{}", "set=1\n".repeat(40)).as_bytes());
        put(format!("{head}\nset=1\nask=1\n").as_bytes());
    }
    for line in ["\n", "\r\n", "Sites=1\n", "SITES=1\n", "site=1\n", "sites\n", "sites 1\n", "sites=1 \n"] {
        put(format!("{line}set=1\n").as_bytes());
    }
    put(b"\xef\xbb\xbfsites=1\nset=1\n");
    put(b"\0");
    put(b"\0\n");
    put(b"\xff\n");
    // One set, well formed or not.
    for list in [
        "", "0", "1", "2", "01", "00", "1,", ",1", ",", "1,,2", "0,1", "1,0", "1,2", "1,1", "2,1", "1,31",
        "1,32", "1,33", "1,63", "1,64", "1,65", "1,66", "1,255", "1,256", "1,257", "1,999", "1,1000", "1,01",
        " 1", "1 ", "1, 2", "1;2", "1\r", "1\0", "1=1", "one",
    ] {
        put(format!("sites=1\nset={list}\nask=1\n").as_bytes());
        put(format!("sites=1\nset={list}").as_bytes());
        put(format!("sites=2\nset={list}\nset=1,2\nask=1\n").as_bytes());
        put(format!("sites=2\nset=1,2\nset={list}\nask=1\n").as_bytes());
        put(format!("sites=3\nset=1\nset=2\nset={list}\nask=1\n").as_bytes());
    }
    // One event, well formed or not.
    for event in [
        "", " ", "ask", "ask=", "ask=0", "ask=1", "ask=2", "ask=01", "ask=999", "ask=1000", "ask=1,1",
        "ask=1,", "ask=1 ", "ask= 1", "ask =1", " ask=1", "Ask=1", "ASK=1", "asks=1", "aask=1", "ask==1",
        "ask=1\r", "ask=1\0", "ask=\0", "leave", "leave=", "leave=0", "leave=1", "leave=2", "leave=01",
        "leave=999", "leave=1000", "leave=1,1", "Leave=1", "leav=1", "move", "move=", "move=1", "move=1,",
        "move=,1", "move=,", "move=1,1", "move=1,2", "move=2,1", "move=0,1", "move=1,0", "move=0,0",
        "move=999,999", "move=1,1000", "move=1000,1", "move=01,1", "move=1,01", "move=1,1,1", "move=1,1,",
        "move=1 1", "move=1;1", "move=1, 1", "move=1,1 ", "move=1,1\r", "set=1", "sites=1", "stop=1", "#",
    ] {
        put(format!("sites=1\nset=1\n{event}\nask=1\n").as_bytes());
        put(format!("sites=1\nset=1\nask=1\n{event}\n").as_bytes());
        put(format!("sites=1\nset=1\nask=1\nmove=1,1\nmove=1,1\n{event}").as_bytes());
    }
    // Lines about as long as a line may be, at each of the three places.
    let mut random = Random::new(0);
    for length in (90..=100).chain([192, 193, 255, 256, 257, 1_000]) {
        for _ in 0..3 {
            let set = long_set_line(&mut random, length);
            put(&[b"sites=1\n", &set[..], b"\nask=1\n"].concat());
            put(&[b"sites=1\n", &set[..]].concat());
            put(&[b"sites=2\nset=1\n", &set[..], b"\nask=1\n"].concat());
        }
        let digits = vec![b'1'; length];
        put(&[b"sites=", &digits[6..], b"\nset=1\n"].concat());
        put(&[b"sites=1\nset=1\nask=", &digits[4..], b"\nask=1\n"].concat());
        put(&[b"sites=1\nset=1\nask=1\n", &digits[..]].concat());
    }
    // Very long lines, with and without an end.
    for length in [4_096, 65_536, 1 << 20] {
        let long = vec![b'1'; length];
        put(&long);
        put(&[&long[..], b"\n"].concat());
        put(&[b"sites=1\nset=1\nask=1\nask=1", &long[..], b"\nask=1\n"].concat());
        put(&[b"sites=1\nset=1\nask=1\n", &vec![b'\n'; length][..]].concat());
    }
    // Every family, the whole head and one ask by each site. Several sides of
    // levels give the same sets.
    let families: BTreeSet<Lists> =
        Family::all().iter().map(|family| family.lists().expect("a family that is made")).collect();
    for lists in families {
        let mut text = rigs::head(&lists);
        for site in 1..=lists.len() + 1 {
            text += &format!("ask={site}\n");
        }
        put(text.as_bytes());
    }
    all.into_iter().map(|bytes| Text { kind: "fixed", bytes }).collect()
}

/// Sets of which one may be strictly contained in another (request 2.6): every
/// two sets of two sites, every three of three, and some of more.
fn sets_inside_others() -> Vec<Vec<u8>> {
    let mut all = Vec::new();
    let mut put = |lists: &[Vec<Site>], tail: &str| all.push((rigs::head(lists) + tail).into_bytes());
    let sets = |n: u64| (1..1 << n).map(members).collect::<Lists>();
    for one in sets(2) {
        for other in sets(2) {
            put(&[one.clone(), other], "ask=1\nask=2\n");
        }
    }
    for one in sets(3) {
        for other in sets(3) {
            sets(3).into_iter().for_each(|third| put(&[one.clone(), other.clone(), third], "ask=3\n"));
        }
    }
    // All sets are equal but one, which is smaller or larger.
    for place in [0, 1, 2, 15, 29, 30] {
        for (many, one) in [(1..=31, 1..=30), (1..=31, 31..=31), (1..=30, 1..=31), (2..=31, 1..=31)] {
            let mut lists: Lists = vec![many.collect(); MOST_SITES];
            lists[place] = one.collect();
            put(&lists, "ask=31\n");
        }
    }
    // A set of the plane, for another site too: with a member more, with one
    // fewer, which misses others, and as it is.
    let plane = Family::Plane(5).lists().expect("a family that is made");
    for (one, other) in [(0, 30), (30, 0), (0, 1), (29, 30), (7, 20)] {
        let mut lists = plane.clone();
        lists[other] = members(set_of(&plane[one]) | set_of(&plane[other][..1]));
        put(&lists, "ask=1\n");
        lists[other] = plane[one][1..].to_vec();
        put(&lists, "ask=1\n");
        lists[other] = plane[one].clone();
        put(&lists, "ask=1\n");
    }
    for votes in [
        &[3, 1, 1, 1][..],
        &[5, 1, 1, 1],
        &[1, 1, 1, 1],
        &[2, 1, 2, 1],
        &[3, 2, 3, 2, 3],
        &[0, 2, 0, 1, 0],
        &[0, 0, 1],
        &[1, 3, 1],
        &[100; 31],
        &[1; 31],
    ] {
        put(&votes::lists(votes).expect("votes of which sets are made"), "ask=1\n");
    }
    for sets in NESTED {
        let lines: String = sets.iter().map(|list| format!("set={list}\n")).collect();
        for tail in ["", "ask=1\n", "ask=1", "no event\n", "set=1\n"] {
            all.push(format!("sites={}\n{lines}{tail}", sets.len()).into_bytes());
        }
        // A set is lacking.
        all.push(format!("sites={}\n{lines}", sets.len() + 1).into_bytes());
    }
    all
}

/// Sets of four sites or more, or malformed ones.
const NESTED: [&[&str]; 28] = [
    // One pair, no neighbours.
    &["1,2", "1,3", "1,2,4", "1,3"],
    &["1,2,4", "1,3", "1,2", "1,3"],
    &["1,2", "1,3", "1,3", "1,2,4"],
    &["1,2,4", "1,3", "1,3", "1,2"],
    // Two pairs: 1 and 4, 2 and 3.
    &["1,2", "1,3", "1,3,4", "1,2,4"],
    &["1,2,4", "1,3,4", "1,3", "1,2"],
    &["1,2", "1,3,4", "1,3", "1,2,4"],
    &["1,2,4", "1,3", "1,3,4", "1,2"],
    // Two pairs: 1 and 3, 2 and 4.
    &["1,2", "1,3", "1,2,4", "1,3,4"],
    &["1,2,4", "1,3,4", "1,2", "1,3"],
    // A chain; a set around all others; one inside all others.
    &["1", "1,2", "1,2,3", "1,2,3,4"],
    &["1,2,3,4", "1,2,3", "1,2", "1"],
    &["1,2", "1,3", "1,4", "1,2,3,4"],
    &["1,2", "1,3", "1,4", "1"],
    // Equal sets beside the pair.
    &["1,2", "1,2", "1,2", "1,2,3"],
    &["1,2", "1,2", "1,2", "2"],
    &["1,2,3", "1,2,3", "2,3", "2,3"],
    &["2,3", "2,3", "1,2,3", "1,2,3"],
    &["1,2", "1,2", "1,3", "1,3"],
    // 3 comes before it, with an earlier line and with a later one.
    &["1,2", "3,4", "1,2,3", "3"],
    &["1,2", "1", "1,3", "2,3"],
    &["1,2,3", "1,2", "2,3", "1,3", "4,5"],
    // So does 2, also where the faulty set is the one of the pair.
    &["1,2", "1", "1,3", "1,5"],
    &["1,2", "1,2,5", "1,3", "1,3"],
    &["1,2", "0,1,2", "1,3", "1,3"],
    &["1,2", "1", "3", "1,64"],
    // So does 11.
    &["1,2", "1", "1,3", "1,"],
    &["1,2", "1", "1,3", "2,1"],
];

/// A text with more than a million events that could be accepted, so that
/// code 9 shows, and after it again each code that comes before 9.
pub fn spent() -> Text {
    let turn = "ask=1\nmove=1,1\nmove=1,1\nleave=1\nmove=1,1\n";
    let mut text = String::from("sites=3\nset=1\nset=1\nset=1\nmove=1,1\nleave=1\nask=4\n");
    text += &turn.repeat(MOST_ACCEPTED as usize / 5 - 1);
    // The last five accepted ones: site 2 is inside, site 1 waits, site 3
    // rests, and two messages are under way.
    text += "ask=2\nmove=2,1\nmove=1,2\nask=1\nmove=1,1\n";
    text += "ask=3\nleave=2\nmove=1,2\nask=1\nask=2\nleave=1\nleave=3\nmove=3,1\nask=4\n";
    text += "leave=999\nmove=0,1\nask=3\n";
    Text { kind: "spent", bytes: text.into_bytes() }
}

/// A run in which an inquire for an older grant arrives while the permission
/// is held anew, handed on by another site: the inquire must do nothing.
const OLD_INQUIRE: &str = "sites=3\nset=1,2\nset=1,2\nset=1,2\n\
    ask=3\nask=1\nmove=3,1\nask=2\nmove=1,1\nmove=2,1\nmove=1,3\nmove=3,2\nmove=1,3\nmove=1,2\nmove=1,3\n\
    move=2,3\nleave=3\nask=3\nmove=3,2\nmove=3,1\nmove=2,1\nmove=3,2\nmove=2,1\nmove=2,3\nleave=1\n\
    move=1,3\nmove=2,3\nmove=2,3\nmove=2,2\nmove=1,2\nmove=3,1\nmove=3,1\nmove=1,1\nmove=1,2\nmove=2,1\n\
    move=2,2\nmove=1,1\nmove=1,3\nmove=1,2\nmove=1,2\nmove=2,3\nmove=2,3\nmove=3,2\nmove=2,2\nleave=2\n\
    move=2,2\nmove=2,3\nmove=2,1\nmove=2,2\nmove=2,3\nleave=3\nmove=3,1\nmove=3,2\n";

/// A run in which a fail for an earlier ask reaches a site that has asked again
/// and holds an inquired permission (request 2.3): with its last line the
/// version before gives the permission back.
pub const OLD_FAIL: &str = "sites=3\nset=1,2\nset=1,2\nset=1,2\n\
    ask=2\nmove=2,1\nmove=1,2\nmove=2,2\nmove=2,2\nask=3\nmove=3,1\nmove=1,2\nleave=2\nmove=2,2\n\
    move=3,2\nmove=2,3\nmove=2,3\nleave=3\nask=3\nmove=3,2\nmove=3,2\nmove=2,3\nask=1\nmove=1,2\n\
    move=2,3\nmove=2,3\nmove=1,3\n";

/// The same on three unlike sets, with one event fewer.
pub const OLD_FAIL_OF_UNLIKE_SETS: &str = "sites=3\nset=1,2\nset=2,3\nset=1,3\n\
    ask=2\nmove=2,3\nmove=3,2\nmove=2,2\nmove=2,2\nask=3\nmove=3,3\nmove=3,2\nmove=3,1\nmove=1,3\n\
    leave=2\nmove=2,3\nleave=3\nask=3\nask=1\nmove=3,1\nmove=3,1\nmove=1,3\nmove=1,1\nmove=1,3\n\
    move=1,3\nmove=3,3\n";

/// The same with two sites. The fail comes first, then an inquire, which the
/// version before answers by giving the permission back. On two sites no run with
/// fewer events shows it.
pub const OLD_FAIL_OF_TWO: &str = "sites=2\nset=1,2\nset=1,2\n\
    ask=1\nask=2\nmove=1,1\nmove=1,1\nmove=1,2\nmove=2,1\nmove=1,1\nmove=1,2\nmove=2,1\nmove=2,2\nmove=2,1\n\
    leave=1\nask=1\nmove=1,2\nmove=1,2\nleave=2\nask=2\nmove=1,2\nmove=2,2\nmove=2,2\nmove=2,2\nmove=1,2\n\
    move=2,2\nmove=2,2\nmove=2,2\n";

/// Runs in which a fail counts, each with the planted fault by which the fail
/// would have another number and do nothing.
const NUMBERED_FAILS: [(&str, &str); 3] = [
    (
        "former-head-gets-the-new-heads-number",
        "sites=3\nset=2,3\nset=2,3\nset=2,3\nask=2\nmove=2,3\nask=3\nask=1\nmove=2,2\nmove=2,2\n\
         move=3,2\nleave=2\nask=2\nmove=2,2\nmove=2,3\nmove=3,3\nmove=2,3\nmove=2,2\nmove=1,2\n\
         move=1,3\nmove=3,2\nmove=2,2\nmove=2,2\nmove=3,2\nmove=2,2\n",
    ),
    (
        "fail-carries-the-arbiters-clock",
        "sites=3\nset=1,2\nset=1,2\nset=1,2\nask=3\nask=1\nmove=1,2\nask=2\nmove=3,2\nmove=3,1\n\
         move=1,1\nmove=1,3\nmove=1,3\nmove=2,3\nmove=1,3\n",
    ),
    (
        "fail-carries-the-receivers-clock",
        "sites=3\nset=1,2,3\nset=1,2,3\nset=1,2,3\nask=3\nmove=3,1\nask=1\nask=2\nmove=2,3\n\
         move=2,1\nmove=1,3\nmove=1,3\nmove=1,3\nmove=3,3\nmove=3,3\nmove=1,3\n",
    ),
];

/// A random text.
pub fn random(random: &mut Random) -> Text {
    let (kind, bytes) = match random.below(100) {
        0..=34 => ("valid", valid(random)),
        35..=37 => ("slow fails", slow_fails(random)),
        38 => ("swelling", swelling(random)),
        39..=40 => ("blind", blind(random)),
        41..=48 => ("perhaps missing", perhaps_missing(random)),
        49..=55 => ("nested", nested(random)),
        56..=63 => ("faulty sets", faulty_sets(random)),
        64..=69 => ("wrong count", wrong_count(random)),
        70..=75 => ("soup", soup(random)),
        76..=77 => ("noise", noise(random)),
        _ => ("damaged", damaged(random)),
    };
    Text { kind, bytes }
}

fn good_lists(random: &mut Random) -> Lists {
    if random.once_in(2) {
        rigs::any_family(random)
    } else {
        rigs::passing(random)
    }
}

fn events(random: &mut Random, lists: &[Vec<Site>], count: usize) -> Vec<u8> {
    let schedule = Schedule::new(Random::new(random.bits()));
    schedule::text(lists, schedule, count)
}

fn valid(random: &mut Random) -> Vec<u8> {
    let lists = good_lists(random);
    let count = match random.below(10) {
        0 => random.below(20),
        1..=6 => random.below(500),
        7 | 8 => random.below(2_000),
        _ => random.below(6_000),
    };
    events(random, &lists, count)
}

/// A valid text that fills the list of messages, if the sets are large enough.
fn swelling(random: &mut Random) -> Vec<u8> {
    let lists = match random.below(4) {
        0 => rigs::majorities(random, 31),
        1 => rigs::full(31),
        2 => {
            let n = random.between(22, 31);
            rigs::full(n)
        }
        _ => rigs::any_family(random),
    };
    let count = random.between(1_500, 3_000);
    schedule::text(&lists, Schedule::swelling(Random::new(random.bits())), count)
}

/// A valid text for a few sites, in which fails are left lying.
fn slow_fails(random: &mut Random) -> Vec<u8> {
    let n = random.between(2, 5);
    let lists = rigs::passing_of_size(random, n);
    let count = random.between(200, 3_000);
    schedule::text(&lists, Schedule::slow_fails(Random::new(random.bits())), count)
}

/// Good sets, then events made without a look at the state.
fn blind(random: &mut Random) -> Vec<u8> {
    let lists = good_lists(random);
    let n = lists.len();
    let mut text = rigs::head(&lists);
    for _ in 0..random.below(300) {
        let mut number = |wild: usize| {
            if random.once_in(wild) {
                random.below(1000)
            } else {
                random.between(1, n)
            }
        };
        let (a, b) = (number(20), number(20));
        text += &match random.below(5) {
            0 => format!("ask={a}\n"),
            1 => format!("leave={a}\n"),
            _ => format!("move={a},{b}\n"),
        };
    }
    text.into_bytes()
}

fn perhaps_missing(random: &mut Random) -> Vec<u8> {
    let lists = rigs::perhaps_missing(random);
    with_a_tail(random, &lists)
}

/// Sets of which one is strictly contained in another.
fn nested(random: &mut Random) -> Vec<u8> {
    let lists = rigs::nested(random);
    with_a_tail(random, &lists)
}

fn with_a_tail(random: &mut Random, lists: &Lists) -> Vec<u8> {
    let tail = random.pick(&["", "ask=1\n", "ask=1", "rubbish\n", "ask=1\nmove=1,1\nask=2\n"]);
    (rigs::head(lists) + tail).into_bytes()
}

/// Sets of which some name a site that does not exist, are empty, or are not
/// well formed; others may miss each other or be strictly contained in another.
fn faulty_sets(random: &mut Random) -> Vec<u8> {
    let lists = match random.below(4) {
        0 | 1 => good_lists(random),
        2 => rigs::perhaps_missing(random),
        _ => rigs::nested(random),
    };
    let n = lists.len() as Site;
    let mut lines: Vec<String> = lists.iter().map(|list| rigs::set_line(list)).collect();
    for _ in 0..random.between(1, 3) {
        let place = random.below(lists.len());
        let list = &lists[place];
        lines[place] = match random.below(10) {
            0 => "set=\n".to_string(),
            1 => "set=0\n".to_string(),
            2 => rigs::set_line(&[&[0], &list[..]].concat()),
            3 => rigs::set_line(&[&list[..], &[n + 1]].concat()),
            4 => rigs::set_line(&[&list[..], &[random.pick(&[32, 33, 63, 64, 65, 66, 128])]].concat()),
            5 => rigs::set_line(&[&list[..], &[random.between(32, 999) as Site]].concat()),
            6 => rigs::set_line(&[&list[..], &list[..1]].concat()),
            7 => rigs::set_line(&list.iter().rev().copied().collect::<Vec<_>>()),
            8 => rigs::set_line(&[n + 1]),
            _ => String::from_utf8(long_set_line(random, 96)).expect("digits") + "\n",
        };
    }
    let mut text = format!("sites={n}\n{}", lines.concat());
    text += random.pick(&["", "ask=1\n", "ask=1", "set=1\n"]);
    text.into_bytes()
}

/// A number of sites that is not that of the sets.
fn wrong_count(random: &mut Random) -> Vec<u8> {
    let lists = good_lists(random);
    let n = lists.len();
    let claimed = match random.below(6) {
        0 => n + 1,
        1 => n - 1,
        2 => random.pick(&[0, 30, 31, 32, 33, 63, 64, 65, 255, 256, 257, 999, 1000]),
        3 => random.below(40),
        4 => random.below(1_100),
        _ => n,
    };
    let mut text = format!("sites={claimed}\n");
    for list in &lists {
        if claimed != n || !random.once_in(10) {
            text += &rigs::set_line(list);
        }
    }
    if claimed > n && random.once_in(3) {
        let list = if random.once_in(2) { vec![1] } else { lists[random.below(n)].clone() };
        text += &rigs::set_line(&list).repeat(random.between(0, claimed - n + 1));
    }
    for _ in 0..random.below(6) {
        text += &format!("ask={}\n", random.between(1, n + 1));
    }
    text.into_bytes()
}

/// Pieces of the grammar in no order.
fn soup(random: &mut Random) -> Vec<u8> {
    const PIECES: [&str; 22] = [
        "sites=", "set=", "ask=", "leave=", "move=", "1", "2", "3", "0", "31", "32", "999", ",", ",", "\n",
        "\n", "\n", "\r", " ", "=", "1,2,3", "\n\n",
    ];
    let mut text = String::new();
    if random.once_in(2) {
        text += random.pick(&[
            "sites=2\nset=1\nset=1\n",
            "sites=3\nset=1,2\nset=1,2\nset=1,3\n",
            "sites=2\nset=1,2\nset=1,2\n",
            "sites=2\nset=1\nset=1,2\n",
        ]);
    }
    for _ in 0..random.below(60) {
        if random.once_in(3) {
            text += random.pick(&["ask=1\n", "move=1,1\n", "leave=1\n", "ask=2\n", "set=1,2\n", "sites=3\n"]);
        } else {
            text += random.pick(&PIECES);
        }
    }
    text.into_bytes()
}

fn noise(random: &mut Random) -> Vec<u8> {
    let length = random.pick(&[1, 5, 50, 200, 3_000]);
    let mut text = if random.once_in(2) {
        EXAMPLE.as_bytes()[..random.below(EXAMPLE.len())].to_vec()
    } else {
        Vec::new()
    };
    text.extend((0..length).map(|_| random.byte()));
    text
}

/// A valid text, damaged up to three times.
fn damaged(random: &mut Random) -> Vec<u8> {
    let lists = good_lists(random);
    let count = random.below(60);
    let mut text = events(random, &lists, count);
    for _ in 0..random.pick(&[1, 1, 1, 2, 3]) {
        text = damage(random, &text);
    }
    text
}

#[cfg(test)]
mod tests {
    use super::*;
    use crate::model::{play, play_by, play_with, Version};

    fn codes(output: &str, key: &str) -> BTreeSet<u32> {
        output
            .lines()
            .flat_map(|line| line.split(' '))
            .filter_map(|field| field.strip_prefix(key)?.parse().ok())
            .collect()
    }

    #[test]
    fn random_texts_show_every_code() {
        let mut steps = BTreeSet::new();
        let mut stops = BTreeSet::new();
        for place in 0..1_500 {
            let text = random(&mut Random::for_place(11, place));
            let output = String::from_utf8(play(&text.bytes)).unwrap();
            steps.extend(codes(&output, "code="));
            stops.extend(codes(&output, "stop="));
        }
        assert_eq!(steps, BTreeSet::from([0, 4, 5, 6, 7, 8]));
        assert_eq!(stops, BTreeSet::from([1, 2, 3, 11, 17]));
    }

    #[test]
    fn an_old_inquire_is_met() {
        let mut census = crate::census::Census::default();
        let output =
            play_with(Version::Present, OLD_INQUIRE.as_bytes(), |rig, event| census.apply(rig, event));
        let output = String::from_utf8(output).unwrap();
        assert_eq!(output.matches(" code=0 ").count(), output.lines().count());
        assert!(output.ends_with(" inside=0 waiting=0 flying=0\n"));
        assert_eq!(census.never_seen(["inquire: other number held"]), Vec::<&str>::new());
    }

    /// The versions differ in the last line alone, by the yield.
    #[test]
    fn an_old_fail_is_met() {
        let texts = [(OLD_FAIL, [4, 5]), (OLD_FAIL_OF_UNLIKE_SETS, [5, 6]), (OLD_FAIL_OF_TWO, [4, 5])];
        for (text, flying) in texts {
            let mut census = crate::census::Census::default();
            play_with(Version::Present, text.as_bytes(), |rig, event| census.apply(rig, event));
            assert_eq!(census.never_seen(["fail: about another ask"]), Vec::<&str>::new());
            let [present, earlier] = [Version::Present, Version::Earlier]
                .map(|version| String::from_utf8(play_by(version, text.as_bytes())).unwrap());
            assert_eq!(present.matches(" code=0 ").count(), present.lines().count());
            let same = present.strip_suffix(&format!("flying={}\n", flying[0])).unwrap();
            assert_eq!(earlier, format!("{same}flying={}\n", flying[1]));
        }
    }

    #[test]
    fn numbers_of_fails_show() {
        for (fault, text) in NUMBERED_FAILS {
            let output = String::from_utf8(play(text.as_bytes())).unwrap();
            assert_eq!(output.matches(" code=0 ").count(), output.lines().count(), "{fault}");
            let faulty = crate::faults::play_with_fault(fault, text.as_bytes()).unwrap();
            assert_ne!(faulty, output.into_bytes(), "{fault}");
        }
    }

    #[test]
    fn fixed_texts_show_every_stop() {
        let outputs: String =
            fixed().iter().map(|text| String::from_utf8(play(&text.bytes)).unwrap()).collect();
        assert_eq!(codes(&outputs, "stop="), BTreeSet::from([1, 2, 3, 11, 17]));
        assert_eq!(codes(&outputs, "code="), BTreeSet::from([0, 4, 5, 6, 7]));
    }

    #[test]
    fn the_spent_text_accepts_a_million_events() {
        let output = String::from_utf8(play(&spent().bytes)).unwrap();
        assert_eq!(output.matches(" code=0 ").count(), 1_000_000);
        let codes: Vec<&str> = output.lines().map(|line| line.split(' ').nth(1).unwrap()).collect();
        let expected = [0, 9, 9, 9, 5, 5, 6, 6, 7, 4, 4, 4, 9].map(|code| format!("code={code}"));
        assert_eq!(codes[codes.len() - 13..], expected);
        assert!(output.ends_with(" inside=2 waiting=1 flying=2\n"));
        assert!(!output.contains("stop="));
    }
}
