//! The calls of `plan` that are tried: every plan there is, refusals, wrong
//! use. Which of these a call is, the reading says.

use std::collections::HashSet;

use crate::model::{Family, MOST_SITES};
use crate::plan::Words;
use crate::vote_calls;

/// The names of the families, with how many numbers each takes. `votes` takes
/// any number of them; here it has three.
const NAMES: [(&str, usize); 5] = [("grid", 1), ("billiard", 1), ("plane", 1), ("levels", 3), ("votes", 3)];

/// Numbers of three sides tried with each other; the first ones are small.
const SIDES: [u128; 12] = [
    0,
    1,
    2,
    31,
    32,
    (1 << 32) - 1,
    1 << 32,
    1 << 63,
    (1 << 64) - 1,
    1 << 64,
    (1 << 64) + 1,
    100_000_000_000_000_000_000_000_000_003,
];

/// Names that no family has.
const OTHER_NAMES: [&str; 18] = [
    "", " ", "x", "cube", "plan", "./plan", "help", "--help", "-h", "--", "-", "3", "level", "full", "grid3",
    "grid=3", "grid:3", "grid,3",
];

/// Words that are no numbers.
pub(crate) const NO_NUMBERS: [&str; 36] = [
    "", " ", "0 ", "00", "01", "03", "007", "+3", "-3", "-0", "+", "-", "--3", " 3", "3 ", "3 3", "\t3",
    "3\n", "\n3", "3\r", "x", "x3", "3x", "0x3", "3.0", "3.", ".3", "3,", "3,3", "1_0", "3e0", "\u{ff13}",
    "\u{b3}", "018446744073709551619", "-18446744073709551613", "18446744073709551619x",
];

/// The length of a long word.
const LONG: usize = 5_000;

/// All the calls, each once. The seed is that of the random votes.
pub fn all(seed: u64) -> Vec<Words> {
    let mut calls = Vec::new();
    plans(&mut calls);
    vote_calls::put_all(&mut calls, seed);
    wrong_counts(&mut calls);
    wrong_names(&mut calls);
    wrong_numbers(&mut calls);
    long_words(&mut calls);
    sides(&mut calls);
    numbers(&mut calls);
    let mut seen = HashSet::new();
    calls.retain(|call| seen.insert(call.clone()));
    calls
}

pub(crate) fn put<T: AsRef<[u8]>>(calls: &mut Vec<Words>, name: impl AsRef<[u8]>, rest: &[T]) {
    let mut words = vec![name.as_ref().to_vec()];
    words.extend(rest.iter().map(|word| word.as_ref().to_vec()));
    calls.push(words);
}

pub(crate) fn put_numbers<T: ToString>(calls: &mut Vec<Words>, name: &str, numbers: &[T]) {
    let words: Vec<String> = numbers.iter().map(T::to_string).collect();
    put(calls, name, &words);
}

/// Every family but that of votes, with every parameter for which it is made.
fn plans(calls: &mut Vec<Words>) {
    for family in Family::all() {
        match family {
            Family::Grid(side) => put_numbers(calls, "grid", &[side]),
            Family::Billiard(q) => put_numbers(calls, "billiard", &[q]),
            Family::Plane(p) => put_numbers(calls, "plane", &[p]),
            Family::Levels(a, b, c) => put_numbers(calls, "levels", &[a, b, c]),
        }
    }
}

/// One number at a time: small ones, and those that a narrower number would
/// take for a small one.
fn numbers(calls: &mut Vec<Words>) {
    let small = (0..=300).map(|number: u128| number.to_string());
    let bases = [1 << 15, 1 << 16, 1 << 31, 1 << 32, 1 << 63, 1 << 64, 3 << 64, 10 << 64, 1 << 127];
    let near = bases.iter().flat_map(|base: &u128| (0..=8).flat_map(move |by| [base - by, base + by]));
    let above_128_bits =
        ["340282366920938463463374607431768211456", "340282366920938463463374607431768211459"];
    let tens = (1..=40).map(|zeros| "1".to_string() + &"0".repeat(zeros));
    let lengths = (1..=70).chain([127, 128, 129, 255, 256, 257, 1_023, 1_024, 1_025, 4_096, LONG, 100_000]);
    let repeated = lengths.flat_map(|length| ["3", "9"].map(|digit| digit.repeat(length)));
    let numbers = small
        .chain(near.map(|number| number.to_string()))
        .chain(above_128_bits.map(String::from))
        .chain(tens)
        .chain(repeated);
    for number in numbers {
        for (name, count) in NAMES {
            if count == 1 {
                put(calls, name, &[&number]);
            } else {
                put(calls, name, &["1", "1", &number]);
            }
        }
    }
}

/// Three sides: products about the most, and products past 64 bits, among them
/// those whose last 64 bits are small.
fn sides(calls: &mut Vec<Words>) {
    let past = MOST_SITES + 9;
    for a in 0..=past {
        for b in 0..=past {
            let most = past.checked_div(a * b).unwrap_or(2);
            for c in 0..=most {
                put_numbers(calls, "levels", &[a, b, c]);
            }
        }
    }
    for a in SIDES {
        for b in SIDES {
            for c in SIDES {
                put_numbers(calls, "levels", &[a, b, c]);
            }
        }
    }
    for odd in (3..=31).step_by(2) {
        let other = inverse(odd);
        for c in [1, 5] {
            for three in [[odd, other, c], [other, odd, c], [odd, c, other]] {
                put_numbers(calls, "levels", &three);
            }
            for three in [[other, c, odd], [c, odd, other], [c, other, odd]] {
                put_numbers(calls, "levels", &three);
            }
        }
    }
    // 2 to the power 64, plus 1; 2 to the power 32, plus 1.
    put_numbers(calls, "levels", &[274_177_u64, 67_280_421_310_721, 1]);
    put_numbers(calls, "levels", &[641_u64, 6_700_417, 1]);
    // 2 to the power 64 in three sides, and twice that.
    put_numbers(calls, "levels", &[1_u64 << 21, 1 << 21, 1 << 22]);
    put_numbers(calls, "levels", &[1_u64 << 32, 1 << 32, 2]);
}

/// The number that gives 1 with an odd one, as far as 64 bits show.
fn inverse(odd: u64) -> u64 {
    let mut other = odd;
    while odd.wrapping_mul(other) != 1 {
        other = other.wrapping_mul(2_u64.wrapping_sub(odd.wrapping_mul(other)));
    }
    other
}

fn wrong_names(calls: &mut Vec<Words>) {
    let mut names: Vec<Vec<u8>> = OTHER_NAMES.iter().map(|name| name.as_bytes().to_vec()).collect();
    for (name, _) in NAMES {
        names.extend((1..name.len()).map(|length| name.as_bytes()[..length].to_vec()));
        let (first, rest) = name.split_at(1);
        names.push((first.to_uppercase() + rest).into_bytes());
        names.push(name.to_uppercase().into_bytes());
        for around in [" ", "\n", "\t", "s", "\u{e9}"] {
            names.push(format!("{name}{around}").into_bytes());
            names.push(format!("{around}{name}").into_bytes());
        }
        names.push([name.as_bytes(), b"\xff"].concat());
        names.push(format!("{name} 3").into_bytes());
        names.push(format!("{name} 2 3 5").into_bytes());
        names.push(name.repeat(2).into_bytes());
    }
    for name in names {
        put(calls, &name, &[""; 0]);
        put(calls, &name, &["3"]);
        put(calls, &name, &["2", "3", "5"]);
        put(calls, &name, &["grid", "3"]);
    }
}

/// Too few numbers and too many; of votes, few and many.
fn wrong_counts(calls: &mut Vec<Words>) {
    calls.push(Vec::new());
    for (name, right) in NAMES {
        for count in (0..=12).chain([31, 32, 33, 100, 300]) {
            for number in ["0", "2", "3", "18446744073709551619"] {
                put(calls, name, &vec![number; count]);
            }
        }
        let good = vec!["3"; right];
        for more in ["", " ", "x", "--", "grid", "3 ", "03"] {
            put(calls, name, &[&good[..], &[more]].concat());
            put(calls, name, &[&[more], &good[..]].concat());
        }
        for (other, _) in NAMES {
            put(calls, name, &[other]);
            put(calls, name, &[other, "3"]);
            put(calls, name, &[&good[..], &[other, "3"]].concat());
        }
        put(calls, "3", &[name]);
    }
    put(calls, "levels", &["2 3", "5"]);
    put(calls, "levels", &["2 3 5"]);
    put(calls, "levels", &["2,3,5"]);
    put(calls, "levels", &["2x3x5"]);
    put(calls, "levels", &["2", "3 5"]);
}

/// Words that are no numbers, at each place, beside good and refused numbers.
fn wrong_numbers(calls: &mut Vec<Words>) {
    let not_in_utf8: [&[u8]; 3] = [b"\xff", b"3\xff", b"\xff3"];
    let words = NO_NUMBERS.iter().map(|word| word.as_bytes()).chain(not_in_utf8);
    for word in words {
        for (name, count) in NAMES {
            for place in 0..count {
                for beside in ["2", "0", "18446744073709551616"] {
                    let mut numbers = vec![beside.as_bytes(); count];
                    numbers[place] = word;
                    put(calls, name, &numbers);
                }
            }
        }
    }
    for byte in 1..=u8::MAX {
        put(calls, "grid", &[[byte]]);
        put(calls, "grid", &[[b'3', byte]]);
        put(calls, "grid", &[[byte, b'3']]);
    }
}

fn long_words(calls: &mut Vec<Words>) {
    let filled = |start: &str, filling: &str, end: &str| {
        let room = LONG - start.len() - end.len();
        let mut word = start.to_string() + &filling.repeat(room);
        word.truncate(start.len() + room);
        word + end
    };
    let numbers = [
        filled("3", "3", ""),
        filled("1", "0", ""),
        filled("3", "0", "3"),
        filled("", "0", ""),
        filled("", "0", "3"),
        filled("", "x", ""),
        filled("", " ", "3"),
        filled("3", " ", ""),
        filled("3", "3", "x"),
        filled("3", "3", "\n"),
        filled("-", "3", ""),
        filled("+", "3", ""),
        filled("3", ",3", ""),
    ];
    for (name, count) in NAMES {
        for number in &numbers {
            for place in 0..count {
                let mut words = vec!["2"; count];
                words[place] = number;
                put(calls, name, &words);
            }
            put(calls, name, &vec![number; count + 1]);
            put(calls, number, &[name]);
        }
        let names =
            [filled(name, " ", ""), filled(name, "s", ""), filled("", " ", name), filled("", name, "")];
        for long in names {
            put(calls, &long, &[""; 0]);
            put(calls, &long, &vec!["3"; count]);
        }
    }
}

#[cfg(test)]
mod tests {
    use super::*;
    use crate::plan::{answer, Answer};

    #[test]
    fn every_plan_is_called_for_once() {
        let calls = all(1);
        let others = calls.iter().filter(|call| call.first().is_none_or(|name| name != b"votes"));
        let sets = others.filter(|call| matches!(answer(call), Answer::Sets(_)));
        assert_eq!(sets.count(), Family::all().len());
        let unique: HashSet<&Words> = calls.iter().collect();
        assert_eq!(unique.len(), calls.len());
    }

    #[test]
    fn the_calls_asked_for_are_there() {
        let calls = all(1);
        let is_called = |line: &str| {
            let words: Words = line.split(' ').map(|word| word.as_bytes().to_vec()).collect();
            assert!(calls.contains(&words), "{line}");
        };
        for line in [
            "levels 4294967296 4294967296 1",
            "levels 4 4 2",
            "levels 0 1 1",
            "levels 1 1 32",
            "levels 40 1 1",
            "levels 18446744073709551615 18446744073709551615 18446744073709551615",
            "grid 6",
            "grid 18446744073709551615",
            "plane 18446744073709551616",
            "billiard 18446744073709551619",
            "billiard 9",
            "Grid 3",
            "cube 3",
            "levels 2 2 -3",
            "votes",
            "votes 0",
            "votes 7",
            "votes 1 1 1 1",
            "votes 3 1 1 1",
            "votes 0 2 0 1 0",
            "votes 100 101",
            "votes 1 1 18446744073709551616",
            "votes 1 1 100000000000000000000",
            "votes 1 1 10000000000000000000000000000000000000000",
            "votes 1 01",
            "votes 1 +1",
            "votes 1 -1",
            "votes 1 ",
            "vote 3",
            "Votes 3",
        ] {
            is_called(line);
        }
        let lengths: HashSet<usize> = calls.iter().flatten().map(Vec::len).collect();
        assert!([0, 1, 30, LONG].iter().all(|length| lengths.contains(length)));
        assert!(calls.contains(&Vec::new()));
        assert!(calls.iter().flatten().flatten().all(|&byte| byte != 0));
    }

    #[test]
    fn inverses_wrap_to_one() {
        assert_eq!(inverse(3), 0xaaaa_aaaa_aaaa_aaab);
        assert!((3..=31).step_by(2).all(|odd| u128::from(odd) * u128::from(inverse(odd)) > 1 << 64));
    }
}
