//! The calls of `state` that are tried, each with what is expected of it.

use std::collections::HashSet;

use crate::model::{last_state, play, votes, Event, Family, Rig, Version, MOST_SITES};
use crate::random::Random;
use crate::rigs::{self, Lists};
use crate::saved::{read_text, text_of};
use crate::saved_damage::damage_saved;
use crate::schedule::{self, Schedule};
use crate::state::{answer, plain, Answer, Call, Word};
use crate::strange;
use crate::texts::{self, EXAMPLE, OLD_FAIL};

/// One call with what is expected of it.
#[derive(Clone, Debug)]
pub struct Trial {
    /// What kind of call it is.
    pub kind: &'static str,
    /// The call.
    pub call: Call,
    /// What is expected.
    pub answer: Answer,
}

/// A call of which the reading says what it answers.
fn trial(kind: &'static str, words: Vec<Word>, input: &[u8]) -> Trial {
    let call = Call { words, input: input.to_vec() };
    let answer = answer(&call);
    Trial { kind, call, answer }
}

fn save(kind: &'static str, text: &[u8]) -> Trial {
    trial(kind, vec![plain("save")], text)
}

fn save_on(kind: &'static str, saved: &[u8], events: &[u8]) -> Trial {
    trial(kind, vec![plain("save"), Word::File(saved.to_vec())], events)
}

fn play_on(kind: &'static str, saved: &[u8], events: &[u8]) -> Trial {
    trial(kind, vec![plain("play"), Word::File(saved.to_vec())], events)
}

/// Sets made by hand: sites outside their own set, arbiters that no site has,
/// equal sets, small and large ones.
fn odd_lists() -> Vec<Lists> {
    vec![
        vec![vec![1]],
        vec![vec![1], vec![1]],
        vec![vec![2], vec![2]],
        vec![vec![1, 2], vec![1, 2]],
        vec![vec![2, 3], vec![1, 3], vec![1, 2]],
        vec![vec![1, 2], vec![2, 3], vec![1, 3]],
        vec![vec![3], vec![3], vec![3]],
        vec![vec![1, 2], vec![2, 3], vec![2, 3]],
        vec![vec![3, 4], vec![3, 4], vec![2, 4], vec![1, 4]],
        vec![vec![2, 3, 4], vec![1, 2], vec![1, 3], vec![1, 4]],
        vec![vec![1, 2, 3], vec![3, 4, 5], vec![1, 3, 4], vec![2, 3, 4], vec![1, 2, 4]],
        vec![vec![31]; MOST_SITES],
        vec![vec![1, 31]; MOST_SITES],
        (1..=MOST_SITES as u16).map(|site| vec![site.min(30), 31]).collect(),
        (1..=10).map(|site| if site == 10 { (1..=9).collect() } else { vec![site, 10] }).collect(),
    ]
}

/// Sets made by hand of which every two meet and one is strictly contained in
/// another.
fn nested_lists() -> Vec<Lists> {
    vec![
        vec![vec![2], vec![1, 2]],
        vec![vec![1, 2], vec![2]],
        vec![vec![1, 2, 3], vec![2], vec![2, 3]],
        vec![vec![1, 2], vec![1, 2], vec![1, 2, 3]],
        vec![vec![1, 2], vec![1, 3], vec![1, 3], vec![1, 2, 4]],
        vec![vec![4], vec![3, 4], vec![2, 4], vec![1, 4]],
        vec![vec![1, 2, 3], vec![3, 4, 5], vec![1, 4], vec![2, 3, 4], vec![1, 4, 5]],
        (1..=MOST_SITES as u16).map(|site| if site < 31 { vec![site, 31] } else { vec![31] }).collect(),
        (1..=MOST_SITES as u16).map(|site| (1..=if site == 31 { 30 } else { 31 }).collect()).collect(),
        votes::lists(&[3, 1, 1, 1]).expect("votes of which sets are made"),
    ]
}

/// The calls that are the same in every comparison, each once.
pub fn fixed() -> Vec<Trial> {
    let mut all = Vec::new();
    old_fail(&mut all);
    all.extend(texts::fixed().iter().map(|text| save("fixed text", &text.bytes)));
    fresh_states(&mut all);
    fresh_nested_states(&mut all);
    wrong_words(&mut all);
    let (first, rest) = example();
    let saved = text_of(&last_state(&first).expect("a good text")).into_bytes();
    odd_files(&mut all, &saved, &rest);
    odd_events(&mut all, &saved);
    damaged_example(&mut all, &saved, &rest);
    longest(&mut all);
    misshapen(&mut all);
    let mut seen = HashSet::new();
    all.retain(|trial| seen.insert(trial.call.clone()));
    all
}

/// The printed example's head with its first seven events, and the rest.
fn example() -> (Vec<u8>, Vec<u8>) {
    let lines: Vec<&[u8]> = EXAMPLE.as_bytes().split_inclusive(|&byte| byte == b'\n').collect();
    (lines[..10].concat(), lines[10..].concat())
}

/// Every family and every odd rig, fresh, saved and gone on with.
fn fresh_states(all: &mut Vec<Trial>) {
    let families = Family::all().into_iter().map(|family| family.lists().expect("a family that is made"));
    let full = (1..=MOST_SITES).map(rigs::full);
    for lists in families.chain(full).chain(odd_lists()) {
        let fresh = Rig::from_lists(&lists).expect("sets that setup passes");
        let saved = text_of(&fresh);
        all.push(save("fresh", rigs::head(&lists).as_bytes()));
        all.push(play_on("fresh", saved.as_bytes(), b"ask=1\nmove=1,1\n"));
    }
}

/// A fresh state on sets of which one is strictly contained in another: "A
/// saved text with such sets is rejected too".
fn fresh_nested_states(all: &mut Vec<Trial>) {
    for lists in nested_lists() {
        let saved = text_of(&Rig::fresh(&lists));
        all.push(save("fresh nested", rigs::head(&lists).as_bytes()));
        for events in ["", "ask=1\nmove=1,1\n", "no event\n"] {
            all.extend(turned_down("fresh nested", saved.as_bytes(), events.as_bytes()));
        }
    }
}

/// Calls with a file that is to be turned down with 14.
fn turned_down(kind: &'static str, saved: &[u8], events: &[u8]) -> [Trial; 2] {
    let stop = || Answer::Stop("stop=14\n".to_string());
    [play_on(kind, saved, events), save_on(kind, saved, events)]
        .map(|trial| Trial { answer: stop(), ..trial })
}

fn wrong_words(all: &mut Vec<Trial>) {
    let (text, _) = example();
    let saved = Word::File(text_of(&last_state(&text).expect("a good text")).into_bytes());
    let mut put = |words: Vec<Word>| {
        all.push(trial("wrong words", words.clone(), EXAMPLE.as_bytes()));
        all.push(trial("wrong words", words, b""));
    };
    put(vec![]);
    put(vec![saved.clone()]);
    for name in [
        "", " ", "s", "sav", "saved", "save ", " save", "Save", "SAVE", "save\n", "pla", "plays", "play ",
        "Play", "PLAY", "load", "read", "write", "state", "./state", "help", "--help", "-h", "--", "-",
        "--save", "save=1", "save,play",
    ] {
        put(vec![plain(name)]);
        put(vec![plain(name), saved.clone()]);
    }
    put(vec![plain(&"save".repeat(1_000))]);
    put(vec![plain("play")]);
    for name in ["save", "play"] {
        put(vec![plain(name), saved.clone(), saved.clone()]);
        put(vec![plain(name), saved.clone(), plain("")]);
        put(vec![plain(name), saved.clone(), plain(name)]);
        put(vec![plain(name), plain(name), saved.clone()]);
        put(vec![plain(name), saved.clone(), saved.clone(), saved.clone()]);
        put(vec![saved.clone(), plain(name)]);
    }
}

/// Calls with a file that cannot be read: the script tells them.
pub fn unreadable() -> Vec<Trial> {
    let words = |name: &str, file: &str| vec![plain(name), plain(file)];
    let mut all = Vec::new();
    for file in ["/no/such/file", "", ".", "/", "no\nfile"] {
        all.push(trial("unreadable", words("save", file), b"ask=1\n"));
        all.push(trial("unreadable", words("play", file), b"ask=1\n"));
    }
    all
}

/// Files that are nothing like a saved text, or a saved text with much behind.
fn odd_files(all: &mut Vec<Trial>, saved: &[u8], rest: &[u8]) {
    let mut random = Random::new(12);
    let mut noise = |length: usize| -> Vec<u8> { (0..length).map(|_| random.byte()).collect() };
    let mut files = vec![Vec::new()];
    for length in [1, 2, 10, 100, 4_096, 59_107, 59_108, 59_109, 65_535, 65_536, 65_537, 1 << 20] {
        files.push(noise(length));
        files.extend([b'\n', b'0', 0, b's', 0xff].map(|byte| vec![byte; length]));
        files.push([saved, &vec![b'\n'; length]].concat());
        files.push([saved, &vec![0; length]].concat());
        files.push([saved, &noise(length)].concat());
        files.push(b"message=5,1,2\n".repeat(length / 14 + 1));
        files.push(saved.repeat(length / saved.len() + 2));
        let digits = String::from_utf8(vec![b'7'; length]).expect("digits");
        let text = String::from_utf8_lossy(saved).replace("accepted=7", &format!("accepted={digits}"));
        files.push(text.into_bytes());
    }
    files.push(EXAMPLE.as_bytes().to_vec());
    files.push(b"stop=14\n".to_vec());
    for file in files {
        all.push(play_on("odd file", &file, rest));
        all.push(save_on("odd file", &file, b""));
    }
}

/// Lines that are no event, and what may stand before and behind them.
fn odd_events(all: &mut Vec<Trial>, saved: &[u8]) {
    let mut put = |events: &[u8]| {
        all.push(play_on("odd events", saved, events));
        all.push(save_on("odd events", saved, events));
    };
    put(b"");
    for line in [
        "", " ", "ask", "ask=", "ask=0", "ask=1", "ask=2", "ask=3", "ask=01", "ask=999", "ask=1000",
        "ask=1,1", "ask=1 ", " ask=1", "Ask=1", "ask=1\r", "ask=1\0", "leave=", "leave=1", "leave=2",
        "leave=1,1", "move=1", "move=1,", "move=,1", "move=1,2", "move=1,1", "move=0,1", "move=1,01",
        "move=1,1,1", "set=1", "set=1,2", "sites=2", "sites=1", "accepted=7", "clock=1", "mode=0",
        "message=5,1,2", "stop=14", "#", "\u{feff}ask=1",
    ] {
        put(format!("{line}\n").as_bytes());
        put(line.as_bytes());
        put(format!("move=1,2\n{line}\nmove=1,2\n").as_bytes());
        put(format!("move=1,2\nmove=1,2\n{line}").as_bytes());
        put(format!("{line}\n{line}\n").as_bytes());
    }
    for length in [90, 95, 96, 97, 98, 192, 193, 255, 256, 257, 1_000, 4_096, 1 << 20] {
        let line = vec![b'1'; length];
        put(&line);
        put(&[&line[..], b"\nask=1\n"].concat());
        put(&[b"ask=1\n", &line[..], b"\nask=1\n"].concat());
        put(&[b"ask=1\nask=", &line[4..], b"\n"].concat());
        put(&vec![b'\n'; length]);
    }
    put(&b"leave=1\n".repeat(20_000));
    put(&[&b"leave=1\n".repeat(3_000)[..], b"leave"].concat());
    put(EXAMPLE.as_bytes());
    put(saved);
}

/// The example of docs/TEXT.md damaged at every place.
fn damaged_example(all: &mut Vec<Trial>, saved: &[u8], rest: &[u8]) {
    let mut random = Random::new(13);
    let mut put = |text: Vec<u8>| all.push(play_on("damaged example", &text, rest));
    for place in 0..=saved.len() {
        let (before, behind) = saved.split_at(place);
        put(before.to_vec());
        for _ in 0..2 {
            put([before, &[random.pick(b"\n\r\0 ,=019am")], behind].concat());
        }
        if let Some((_, behind)) = behind.split_first() {
            put([before, behind].concat());
            for _ in 0..3 {
                put([before, &[random.pick(b"\n\r\0 ,=0123459am\xff")], behind].concat());
            }
        }
    }
    let lines: Vec<&[u8]> = saved.split_inclusive(|&byte| byte == b'\n').collect();
    for place in 0..lines.len() {
        let (before, behind) = lines.split_at(place);
        put([before, &behind[1..]].concat().concat());
        put([before, &behind[..1], behind].concat().concat());
        if place > 0 {
            put([&before[..place - 1], &behind[..1], &before[place - 1..], &behind[1..]].concat().concat());
        }
    }
    for range in crate::damage::numbers(saved) {
        let (before, old, behind) = (&saved[..range.start], &saved[range.clone()], &saved[range.end..]);
        let zeros = ["0", "00"].map(|zeros| [zeros.as_bytes(), old].concat());
        let others = [
            "", "0", "1", "2", "3", "4", "7", "8", "31", "32", "999999", "1000000", "1000001", "2000000",
            "2000001", "4294967297", "18446744073709551617", "1,0", "0,1", "1,1", "0,0,0",
        ];
        for new in others.iter().map(|new| new.as_bytes().to_vec()).chain(zeros) {
            put([before, &new, behind].concat());
        }
    }
}

/// The longest text, and one message more.
fn longest(all: &mut Vec<Trial>) {
    let saved = text_of(&strange::longest()).into_bytes();
    let more = [&saved[..], b"message=2,30,29,28,2000000\n"].concat();
    let events = b"move=30,29\nask=1\nleave=1\nmove=29,30\nmove=32,1\n";
    for text in [saved, more] {
        all.push(save_on("longest", &text, b""));
        all.push(save_on("longest", &text, events));
        all.push(play_on("longest", &text, events));
    }
}

/// A holder with the grant number 0 is well shaped. A request that becomes the
/// head then makes a transfer numbered 0, and that is not.
fn misshapen(all: &mut Vec<Trial>) {
    let saved = b"sites=2\nset=1\nset=1\naccepted=7\n\
        clock=1\nmode=2\nheld=0\nheir=0\ninquired=0\nclock=1\nmode=0\nheld=0\nheir=0\ninquired=0\n\
        grant=0\nholder=1,1\nqueued=0,0\ngrant=0\nholder=0\nqueued=\n";
    let events = b"ask=2\nmove=2,1\nmove=1,1\nleave=1\nask=3\n";
    for end in [6, 15, 24] {
        all.push(play_on("misshapen", saved, &events[..end]));
        all.push(save_on("misshapen", saved, &events[..end]));
    }
    all.push(play_on("misshapen", saved, events));
}

/// A fail to a waiting site that holds an inquired permission, with every kind
/// of number: it counts if it has none or that of the site's ask, which is 2.
fn old_fail(all: &mut Vec<Trial>) {
    let (before, last) = OLD_FAIL.split_at(OLD_FAIL.len() - "move=1,3\n".len());
    let saved = text_of(&last_state(before.as_bytes()).expect("a good text"));
    let spelled = "message=5,1,3,1\n";
    assert!(saved.contains(spelled), "the fail that the last event delivers");
    for number in [
        "", ",", ",0", ",00", ",01", ",1", ",2", ",02", ",3", ",2000000", ",2000001", ",4294967298", ",0,0",
        ",0,2",
    ] {
        let saved = saved.replace(spelled, &format!("message=5,1,3{number}\n"));
        all.push(save_on("old fail", saved.as_bytes(), b""));
        all.push(save_on("old fail", saved.as_bytes(), last.as_bytes()));
        all.push(play_on("old fail", saved.as_bytes(), last.as_bytes()));
    }
}

/// A run of a million accepted events, saved and gone on with.
pub fn spent() -> Vec<Trial> {
    let text = texts::spent().bytes;
    let saved = text_of(&last_state(&text).expect("a good text")).into_bytes();
    let events = b"ask=3\nleave=2\nmove=1,2\nask=1\nleave=3\nmove=3,1\nask=4\n";
    vec![save("spent", &text), play_on("spent", &saved, events), save_on("spent", &saved, events)]
}

/// So many kinds of rounds there are.
const ROUNDS: u64 = 10;

/// The calls of one random round.
pub fn round(seed: u64, place: u64) -> Vec<Trial> {
    let mut random = Random::for_place(seed, place);
    match place % ROUNDS {
        0..=2 => reached(&mut random, place),
        3 | 4 => cut_run(&mut random, place),
        5 | 6 => unreached(&mut random, place),
        7 => earlier(&mut random, place),
        8 => nested(&mut random),
        _ => other_texts(&mut random),
    }
}

/// Sets to play with; every number of sites comes up again and again.
fn some_lists(random: &mut Random, place: u64) -> Lists {
    match random.below(4) {
        0 => rigs::any_family(random),
        1 => {
            let odd = odd_lists();
            odd[random.below(odd.len())].clone()
        }
        2 => rigs::passing_of_size(random, (place / ROUNDS) as usize % MOST_SITES + 1),
        _ => rigs::passing(random),
    }
}

fn count(random: &mut Random) -> usize {
    match random.below(8) {
        0 => random.below(4),
        1..=3 => random.below(60),
        4..=6 => random.below(500),
        _ => random.below(2_500),
    }
}

/// A text of a whole run; seldom one that fills the list of messages.
fn whole_run(random: &mut Random, place: u64) -> Vec<u8> {
    if random.once_in(40) {
        let swelling = Schedule::swelling(Random::new(random.bits()));
        return schedule::text(&rigs::full(MOST_SITES), swelling, random.between(1_200, 2_000));
    }
    let lists = some_lists(random, place);
    let events = count(random);
    schedule::text(&lists, Schedule::new(Random::new(random.bits())), events)
}

/// Lines of events for a rig, as a schedule chooses them; now and then one of
/// them is malformed.
fn events_for(random: &mut Random, rig: &Rig, count: usize) -> Vec<u8> {
    let mut rig = rig.clone();
    let mut schedule = Schedule::new(Random::new(random.bits()));
    let mut lines = Vec::new();
    for _ in 0..count {
        let event = schedule.next_event(&rig);
        let _ = rig.apply_judged(event);
        lines.push(format!("{event}\n"));
    }
    if random.once_in(12) {
        let odd = ["\n", "set=1\n", "ask=1,2\n", "sites=1\n", "move=1\n", "message=5,1,1\n", "ask=1"];
        lines.insert(random.between(0, count), random.pick(&odd).to_string());
    }
    lines.concat().into_bytes()
}

/// A state that a run reaches, saved; then that text damaged.
fn reached(random: &mut Random, place: u64) -> Vec<Trial> {
    let text = whole_run(random, place);
    let mut all = vec![save("reached", &text)];
    let rig = last_state(&text).expect("a good text");
    damaged(random, &rig, &mut all);
    all
}

/// A text of a state, damaged in many ways and gone on with.
fn damaged(random: &mut Random, rig: &Rig, all: &mut Vec<Trial>) {
    let saved = text_of(rig).into_bytes();
    for _ in 0..12 {
        let (mut kind, mut text) = damage_saved(random, &saved);
        if random.once_in(6) {
            kind = "several";
            text = damage_saved(random, &text).1;
        }
        let read = read_text(&text);
        let count = if random.once_in(2) { random.below(6) } else { random.below(40) };
        let events = events_for(random, read.as_ref().unwrap_or(rig), count);
        let call = if random.once_in(4) { save_on } else { play_on };
        all.push(call(kind, &text, &events));
    }
}

/// A run cut at some places. What is expected comes from the uncut run alone:
/// the lines of each part are its lines, counted from 1 again, and the texts
/// are those of its states.
fn cut_run(random: &mut Random, place: u64) -> Vec<Trial> {
    let lists = some_lists(random, place);
    let mut rig = Rig::from_lists(&lists).expect("sets that setup passes");
    let mut schedule = Schedule::new(Random::new(random.bits()));
    let length = count(random);
    let parts = random.between(2, 5);
    let mut cuts: Vec<usize> = (1..parts).map(|_| random.between(0, length)).collect();
    cuts.extend([0, length]);
    cuts.sort_unstable();

    let mut events: Vec<Event> = Vec::new();
    let mut saved = vec![text_of(&rig)];
    for pair in cuts.windows(2) {
        for _ in pair[0]..pair[1] {
            let event = schedule.next_event(&rig);
            let _ = rig.apply(event);
            events.push(event);
        }
        saved.push(text_of(&rig));
    }
    let written = |part: &[Event]| -> String { part.iter().map(|event| format!("{event}\n")).collect() };
    let head = rigs::head(&lists);
    let uncut = head.clone() + &written(&events);
    let output = String::from_utf8(play(uncut.as_bytes())).expect("the player prints ASCII");
    let lines: Vec<&str> = output.lines().collect();

    let mut all = Vec::new();
    let mut put = |words: Vec<Word>, input: &str, answer: Answer| {
        all.push(Trial { kind: "cut run", call: Call { words, input: input.as_bytes().to_vec() }, answer });
    };
    put(vec![plain("save")], &uncut, Answer::Text(saved[saved.len() - 1].clone()));
    let first = head + &written(&events[..cuts[1]]);
    put(vec![plain("save")], &first, Answer::Text(saved[1].clone()));
    for (part, pair) in cuts.windows(2).enumerate() {
        let from = || Word::File(saved[part].clone().into_bytes());
        let input = written(&events[pair[0]..pair[1]]);
        let counted: String =
            (1..).zip(&lines[pair[0]..pair[1]]).map(|(place, line)| counted(place, line)).collect();
        put(vec![plain("play"), from()], &input, Answer::Lines(counted));
        put(vec![plain("save"), from()], &input, Answer::Text(saved[part + 1].clone()));
    }
    all
}

/// A line of the player with another place.
fn counted(place: usize, line: &str) -> String {
    let (_, rest) = line.split_once(' ').expect("a line of the player");
    format!("step={place} {rest}\n")
}

/// A state that no run reaches, saved and gone on with; then that text
/// damaged. The last one may be misshapen: its sets may miss each other.
fn unreached(random: &mut Random, place: u64) -> Vec<Trial> {
    let lists = some_lists(random, place);
    let rig = strange::any_state(random, &lists);
    let saved = text_of(&rig).into_bytes();
    let mut all = vec![save_on("unreached", &saved, b"")];
    for _ in 0..2 {
        let events = events_for(random, &rig, 100);
        all.push(play_on("unreached", &saved, &events));
        all.push(save_on("unreached", &saved, &events));
    }
    damaged(random, &rig, &mut all);
    let lists = rigs::perhaps_missing(random);
    let missing = strange::any_state(random, &lists);
    all.push(play_on("sets may miss", text_of(&missing).as_bytes(), b"ask=1\n"));
    all
}

/// A run of the version before request 2.3, saved in its spelling: the text is
/// written back as it is, gone on with, and damaged.
fn earlier(random: &mut Random, place: u64) -> Vec<Trial> {
    let (lists, mut schedule) = if random.once_in(2) {
        let n = random.between(2, 5);
        (rigs::passing_of_size(random, n), Schedule::slow_fails(Random::new(random.bits())))
    } else {
        (some_lists(random, place), Schedule::new(Random::new(random.bits())))
    };
    let mut rig = Rig::from_lists(&lists).expect("sets that setup passes").by(Version::Earlier);
    for _ in 0..count(random) {
        let _ = rig.apply(schedule.next_event(&rig));
    }
    let saved = text_of(&rig);
    let rig = rig.by(Version::Present);
    let unchanged =
        Trial { answer: Answer::Text(saved.clone()), ..save_on("earlier", saved.as_bytes(), b"") };
    let mut all = vec![unchanged];
    for _ in 0..2 {
        let events = events_for(random, &rig, 100);
        all.push(play_on("earlier", saved.as_bytes(), &events));
        all.push(save_on("earlier", saved.as_bytes(), &events));
    }
    damaged(random, &rig, &mut all);
    all
}

/// States on sets of which one is strictly contained in another: one that a run
/// of the version before request 2.3 reaches, one with the fails of this version,
/// one that no run reaches. No text of theirs is read, and the text of the run
/// stops.
fn nested(random: &mut Random) -> Vec<Trial> {
    let lists = rigs::nested(random);
    let mut schedule = Schedule::new(Random::new(random.bits()));
    let mut events = String::new();
    let mut both = [Version::Earlier, Version::Present].map(|version| Rig::fresh(&lists).by(version));
    for _ in 0..count(random) {
        let event = schedule.next_event(&both[0]);
        for rig in &mut both {
            let _ = rig.apply(event);
        }
        events += &format!("{event}\n");
    }
    let mut all = vec![save("nested", (rigs::head(&lists) + &events).as_bytes())];
    let strange = strange::any_state(random, &lists);
    for rig in both.iter().chain([&strange]) {
        let events = events_for(random, &rig.clone().by(Version::Earlier), 20);
        all.extend(turned_down("nested", text_of(rig).as_bytes(), &events));
    }
    all
}

/// Texts that stop or do not, of every kind the comparison of players has.
fn other_texts(random: &mut Random) -> Vec<Trial> {
    (0..8).map(|_| save("any text", &texts::random(random).bytes)).collect()
}

#[cfg(test)]
mod tests {
    use super::*;
    use std::collections::BTreeMap;

    /// What is expected of a cut run from the uncut one is what the reading
    /// says of its parts.
    #[test]
    fn cut_runs_are_read_alike() {
        for place in 0..300 {
            for trial in cut_run(&mut Random::for_place(2, place), place) {
                assert_eq!(answer(&trial.call), trial.answer, "place {place}");
            }
        }
    }

    /// The reading turns down what is saved of sets inside others, and its
    /// player stops.
    #[test]
    fn nested_sets_are_read_alike() {
        let mut trials: Vec<Trial> = (0..300).flat_map(|place| nested(&mut Random::new(place))).collect();
        fresh_nested_states(&mut trials);
        for trial in trials {
            assert_eq!(answer(&trial.call), trial.answer);
            let Answer::Stop(line) = &trial.answer else { panic!("{:?}", trial.answer) };
            match trial.call.words.len() {
                1 => assert!(line.starts_with("stop=17 line="), "{line}"),
                _ => assert_eq!(line, "stop=14\n"),
            }
        }
    }

    /// The reading writes a text of the version before back as it is.
    #[test]
    fn texts_of_the_version_before_are_read_alike() {
        for place in 0..300 {
            for trial in earlier(&mut Random::for_place(4, place), place) {
                assert_eq!(answer(&trial.call), trial.answer, "place {place}");
            }
        }
    }

    #[test]
    fn rounds_show_every_kind_of_answer() {
        let mut damaged = BTreeMap::new();
        let mut sizes = [0; MOST_SITES + 1];
        let mut codes = [0; 12];
        for place in 0..1_000 {
            for trial in round(3, place) {
                let read = match &trial.answer {
                    Answer::Stop(line) => line != "stop=14\n",
                    Answer::Usage | Answer::Unreadable => panic!("not in a round"),
                    _ => true,
                };
                let (read_count, refused_count) = damaged.entry(trial.kind).or_insert((0, 0));
                *(if read { read_count } else { refused_count }) += 1;
                if let Answer::Text(text) = &trial.answer {
                    let n = text.lines().next().and_then(|line| line.strip_prefix("sites="));
                    sizes[n.unwrap().parse::<usize>().unwrap()] += 1;
                }
                if let Answer::Lines(lines) = &trial.answer {
                    for (code, count) in codes.iter_mut().enumerate() {
                        *count += lines.matches(&format!(" code={code} ")).count();
                    }
                }
            }
        }
        for kind in
            ["byte", "line", "number", "other line", "cut", "behind", "any", "several", "sets may miss"]
        {
            let (read, refused) = damaged[kind];
            assert!(read > 10 && refused > 10, "{kind}: {read} read, {refused} refused");
        }
        // The text of each run stops with 17; what is saved is turned down.
        assert_eq!(damaged["nested"], (100, 600));
        assert!(sizes[1..].iter().all(|&count| count > 0), "{sizes:?}");
        for code in [0, 4, 5, 6, 7, 8, 9, 10] {
            assert!(codes[code] > 0, "{codes:?}");
        }
    }
}
