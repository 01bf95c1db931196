//! The program `plan` of requests 2.1 and 2.5: the sets of a family, printed
//! just as the player reads them.

use crate::model::{votes, Family, Refusal};
use crate::rigs::{head, Lists};

/// The words after the program's name, as bytes.
pub type Words = Vec<Vec<u8>>;

/// How `plan` is used.
pub const USAGE: &str =
    "usage: ./plan grid SIDE | billiard Q | plane P | levels ROWS BAYS LEVELS | votes VOTE ...\n";

/// What a call comes to.
#[derive(Clone, Debug, PartialEq, Eq)]
pub enum Answer {
    /// The sets of all sites.
    Sets(Lists),
    /// The family is turned down.
    Code(Refusal),
    /// The use was wrong.
    Usage,
}

/// What a call prints, and how it ends.
#[derive(Clone, Debug, PartialEq, Eq)]
pub struct Printed {
    /// To standard output.
    pub output: String,
    /// To standard error.
    pub errors: String,
    /// The script's exit status. The program has none but 0.
    pub status: i32,
}

/// What `plan` answers to these words. How they are written is judged first.
pub fn answer(words: &[Vec<u8>]) -> Answer {
    let Some((name, rest)) = words.split_first() else { return Answer::Usage };
    let numbers: Option<Vec<u64>> = rest.iter().map(|word| number(word)).collect();
    match numbers.and_then(|numbers| lists(name, &numbers)) {
        None => Answer::Usage,
        Some(Ok(lists)) => Answer::Sets(lists),
        Some(Err(refusal)) => Answer::Code(refusal),
    }
}

/// The sets of the family of this name; nothing if there is no such name or it
/// takes another number of numbers. As many votes as there are make N.
pub fn lists(name: &[u8], numbers: &[u64]) -> Option<Result<Lists, Refusal>> {
    match name {
        b"votes" => Some(votes::lists(numbers)),
        _ => Family::named(name, numbers).map(Family::lists),
    }
}

/// A number of decimal digits without leading zeros. One above 64 bits is put
/// down as the largest of 64 bits, which every family turns down as well.
fn number(word: &[u8]) -> Option<u64> {
    let digits = !word.is_empty() && word.iter().all(u8::is_ascii_digit);
    if !digits || (word[0] == b'0' && word != b"0") {
        return None;
    }
    let add = |number: u64, digit: &u8| number.saturating_mul(10).saturating_add(u64::from(digit - b'0'));
    Some(word.iter().fold(0, add))
}

impl Answer {
    /// What is printed.
    pub fn printed(&self) -> Printed {
        let (output, errors, status) = match self {
            Answer::Sets(lists) => (head(lists), "", 0),
            Answer::Code(refusal) => (format!("code={}\n", refusal.code()), "", 1),
            Answer::Usage => (String::new(), USAGE, 2),
        };
        Printed { output, errors: errors.to_string(), status }
    }
}

#[cfg(test)]
mod tests {
    use super::*;
    use crate::model::play;

    fn words(line: &str) -> Words {
        line.split(' ').filter(|word| !word.is_empty()).map(|word| word.as_bytes().to_vec()).collect()
    }

    fn printed(line: &str) -> (String, String, i32) {
        let Printed { output, errors, status } = answer(&words(line)).printed();
        (output, errors, status)
    }

    #[test]
    fn sets_are_printed() {
        let sets = |output: &str| (output.to_string(), String::new(), 0);
        assert_eq!(printed("grid 1"), sets("sites=1\nset=1\n"));
        assert_eq!(printed("billiard 3"), sets("sites=4\nset=1,2,3\nset=2,3,4\nset=1,3,4\nset=1,2,4\n"));
        assert_eq!(printed("levels 1 1 2"), sets("sites=2\nset=1,2\nset=1,2\n"));
        assert_eq!(printed("levels 2 1 1"), sets("sites=2\nset=1,2\nset=1,2\n"));
        assert!(printed("plane 5").0.ends_with("set=6,10,14,18,22,31\nset=6,11,15,19,23,27\n"));
        assert_eq!(printed("votes 7"), sets("sites=1\nset=1\n"));
        assert_eq!(printed("votes 0 1 100"), sets("sites=3\nset=1,2,3\nset=2,3\nset=3\n"));
        assert_eq!(printed("votes 1 1 1 1"), sets("sites=4\nset=1,2,3\nset=2,3,4\nset=1,3,4\nset=1,2,4\n"));
    }

    #[test]
    fn refusals_are_one_line() {
        for line in [
            "grid 0",
            "grid 6",
            "billiard 9",
            "plane 4",
            "levels 0 1 1",
            "levels 4 4 2",
            "levels 4294967296 4294967296 1",
            "grid 18446744073709551615",
            "grid 18446744073709551616",
            "grid 18446744073709551619",
            "plane 100000000000000000000000000005",
            "levels 1 1 340282366920938463463374607431768211457",
        ] {
            assert_eq!(printed(line), ("code=12\n".to_string(), String::new(), 1), "{line}");
        }
    }

    /// The number of votes is judged before the votes.
    #[test]
    fn refusals_of_votes_are_one_line() {
        let line = |count: usize, vote: &str| format!("votes{}", format!(" {vote}").repeat(count));
        for (line, code) in [
            (line(0, ""), 1),
            (line(32, "0"), 1),
            (line(32, "1"), 1),
            (line(32, "101"), 1),
            (line(40, "1"), 1),
            (line(300, "100"), 1),
            (line(1, "0"), 16),
            (line(3, "0"), 16),
            (line(31, "0"), 16),
            (line(1, "101"), 16),
            (line(1, "100") + " 101", 16),
            (line(1, "18446744073709551616"), 16),
            (line(1, "100000000000000000001"), 16),
            (line(2, "1") + " 1000000000000000000000000000000000000001", 16),
        ] {
            assert_eq!(printed(&line), (format!("code={code}\n"), String::new(), 1), "{line}");
        }
    }

    #[test]
    fn wrong_use_is_told_on_standard_error() {
        for line in [
            "", "grid", "grid 3 3", "grid 0 0", "grid 03", "grid 00", "grid +3", "grid x", "cube 3",
            "Grid 3", "levels 2 3", "levels 2 3 -5", "levels 0 0 x", "levels 2 3 5 1", "3 grid", "Votes 1",
            "vote 1", "votes x", "votes 1 x", "votes 101 x", "votes 1 01", "votes 00", "votes 0 0 -0",
            "votes +1", "votes -1", "votes 1,1", "votes votes 1", "votes 1 grid 3",
        ] {
            assert_eq!(printed(line), (String::new(), USAGE.to_string(), 2), "{line}");
        }
        for words in [vec![b"".to_vec()], vec![b"grid".to_vec(), b"".to_vec()], vec![b"grid 3".to_vec()]] {
            assert_eq!(answer(&words), Answer::Usage);
        }
        for (count, place) in [(1, 0), (31, 30), (32, 31), (40, 0), (40, 39)] {
            let mut votes = vec![b"1".to_vec(); count];
            votes[place].clear();
            assert_eq!(answer(&[&[b"votes".to_vec()], &votes[..]].concat()), Answer::Usage);
        }
    }

    /// `{ ./plan plane 5; cat events; } | ./play` works.
    #[test]
    fn the_player_reads_every_plan() {
        for line in [
            "grid 5", "billiard 7", "plane 5", "levels 2 3 5", "levels 1 31 1", "levels 1 1 31", "votes 7",
            "votes 1 1 1 1", "votes 3 2 3 2 3",
        ] {
            let text = printed(line).0 + "ask=1\n";
            let output = String::from_utf8(play(text.as_bytes())).unwrap();
            assert!(output.starts_with("step=1 code=0 inside=0 waiting=1 "), "{line}: {output}");
        }
    }

    /// Votes may give sets inside others: `plan` prints them, the player stops.
    #[test]
    fn the_player_stops_at_sets_inside_others() {
        for (line, stop) in [
            ("votes 3 1 1 1", "stop=17 line=3\n"),
            ("votes 5 1 1 1", "stop=17 line=3\n"),
            ("votes 0 2 0 1 0", "stop=17 line=3\n"),
            ("votes 2 1 1 1", "stop=17 line=5\n"),
        ] {
            let (sets, errors, status) = printed(line);
            assert!(sets.starts_with("sites=") && errors.is_empty() && status == 0, "{line}");
            let output = String::from_utf8(play((sets + "ask=1\n").as_bytes())).unwrap();
            assert_eq!(output, stop, "{line}");
        }
    }
}
