//! Faults of a program `plan`, planted on purpose, to see that its calls tell
//! them.

use crate::model::Family;
use crate::plan::{answer, Answer, Printed, Words};
use crate::vote_faults;

/// Answers a call.
pub type Planner = fn(&[Vec<u8>]) -> Printed;

/// The planted faults, by the name under which they are asked for.
pub fn faults() -> impl Iterator<Item = (&'static str, Planner)> {
    FAULTS.into_iter().chain(vote_faults::FAULTS)
}

/// The faults that have nothing to do with votes.
const FAULTS: [(&str, Planner); 20] = [
    ("product-wraps", |words| with_sides(words, wrapped_product)),
    ("sides-have-32-bits", |words| with_sides(words, |sides| sides.map(|side| u64::from(side as u32)))),
    ("first-side-is-the-level", |words| with_sides(words, |[a, b, c]| [c, b, a])),
    ("side-0-is-1", |words| with_sides(words, |sides| sides.map(|side| side.max(1)))),
    ("product-32-passes", product_32),
    ("numbers-wrap", |words| with_words(words, wrapped)),
    ("large-numbers-are-none", |words| {
        with_words(words, |word| if is_large(word) { vec![] } else { word.to_vec() })
    }),
    ("zeros-may-lead", |words| with_words(words, without_zeros)),
    ("plus-may-lead", |words| with_words(words, |word| word.strip_prefix(b"+").unwrap_or(word).to_vec())),
    ("spaces-are-trimmed", |words| with_words(words, |word| word.trim_ascii().to_vec())),
    ("case-does-not-matter", |words| with_words(words, |word| word.to_ascii_lowercase())),
    ("long-words-are-cut", |words| with_words(words, |word| word[..word.len().min(1_024)].to_vec())),
    ("more-words-are-ignored", fewer_words),
    ("empty-words-are-ignored", |words| {
        printed(&words.iter().filter(|word| !word.is_empty()).cloned().collect())
    }),
    ("code-to-standard-error", |words| {
        changed(words, Kind::Code, |it| it.errors = std::mem::take(&mut it.output))
    }),
    ("code-with-a-remark", |words| changed(words, Kind::Code, |it| it.errors += "refused\n")),
    ("usage-to-standard-output", |words| {
        changed(words, Kind::Usage, |it| it.output = std::mem::take(&mut it.errors))
    }),
    ("wrong-use-is-silent", |words| changed(words, Kind::Usage, |it| it.errors.clear())),
    ("last-line-has-no-end", |words| {
        changed(words, Kind::Sets, |it| it.output.truncate(it.output.len() - 1))
    }),
    ("set-31-is-lacking", |words| changed(words, Kind::Sets, drop_line_32)),
];

/// Answers a call with a planted fault; nothing if there is no such fault.
pub fn answer_with_fault(name: &str, words: &[Vec<u8>]) -> Option<Printed> {
    let (_, planner) = faults().find(|(known, _)| *known == name)?;
    Some(planner(words))
}

fn printed(words: &Words) -> Printed {
    answer(words).printed()
}

/// Every word changed before it is read.
fn with_words(words: &[Vec<u8>], change: impl Fn(&[u8]) -> Vec<u8>) -> Printed {
    printed(&words.iter().map(|word| change(word)).collect())
}

/// The sides of levels, where all three have 64 bits.
fn sides(words: &[Vec<u8>]) -> Option<[u64; 3]> {
    let right = words.len() == 4 && words[0] == b"levels" && answer(words) != Answer::Usage;
    let side = |place: usize| std::str::from_utf8(&words[place]).ok()?.parse().ok();
    if right {
        Some([side(1)?, side(2)?, side(3)?])
    } else {
        None
    }
}

/// Other sides put in place of those named.
fn with_sides(words: &[Vec<u8>], change: impl Fn([u64; 3]) -> [u64; 3]) -> Printed {
    match sides(words) {
        None => answer(words).printed(),
        Some(sides) => {
            let [a, b, c] = change(sides);
            let outcome = Family::Levels(a, b, c).lists();
            outcome.map_or_else(Answer::Code, Answer::Sets).printed()
        }
    }
}

/// Sides with a product above 64 bits become one side, its last 64 bits.
fn wrapped_product([a, b, c]: [u64; 3]) -> [u64; 3] {
    match a.checked_mul(b).and_then(|product| product.checked_mul(c)) {
        Some(_) => [a, b, c],
        None => [1, 1, a.wrapping_mul(b).wrapping_mul(c)],
    }
}

fn product_32(words: &[Vec<u8>]) -> Printed {
    match sides(words).map(|sides| sides.iter().try_fold(1_u64, |product, &side| product.checked_mul(side))) {
        Some(Some(32)) => Printed { output: "sites=32\n".to_string(), errors: String::new(), status: 0 },
        _ => answer(words).printed(),
    }
}

fn is_large(word: &[u8]) -> bool {
    let digits = word.iter().all(u8::is_ascii_digit);
    digits && word.len() >= 20 && std::str::from_utf8(word).is_ok_and(|word| word.parse::<u64>().is_err())
}

/// The last 64 bits of a number.
fn wrapped(word: &[u8]) -> Vec<u8> {
    if !is_large(word) || word[0] == b'0' {
        return word.to_vec();
    }
    let add = |number: u64, digit: &u8| number.wrapping_mul(10).wrapping_add(u64::from(digit - b'0'));
    word.iter().fold(0, add).to_string().into_bytes()
}

fn without_zeros(word: &[u8]) -> Vec<u8> {
    let zeros = word.iter().take_while(|&&byte| byte == b'0').count();
    word[zeros.min(word.len().saturating_sub(1))..].to_vec()
}

fn fewer_words(words: &[Vec<u8>]) -> Printed {
    let most = if words.first().is_some_and(|name| name == b"levels") { 4 } else { 2 };
    answer(&words[..words.len().min(most)]).printed()
}

#[derive(PartialEq)]
enum Kind {
    Sets,
    Code,
    Usage,
}

/// What is printed for one kind of answer, changed.
fn changed(words: &[Vec<u8>], kind: Kind, change: impl Fn(&mut Printed)) -> Printed {
    let answer = answer(words);
    let this = match answer {
        Answer::Sets(_) => Kind::Sets,
        Answer::Code(_) => Kind::Code,
        Answer::Usage => Kind::Usage,
    };
    let mut printed = answer.printed();
    if this == kind {
        change(&mut printed);
    }
    printed
}

fn drop_line_32(printed: &mut Printed) {
    printed.output = printed.output.split_inclusive('\n').take(31).collect();
}

#[cfg(test)]
mod tests {
    use super::*;
    use crate::calls;

    #[test]
    fn the_calls_tell_every_fault() {
        let calls = calls::all(1);
        for (name, planner) in faults() {
            let told = calls.iter().filter(|call| planner(call) != answer(call).printed()).count();
            assert!(told > 0, "{name}");
            assert!(told < calls.len(), "{name}");
        }
    }
}
