//! Ways to damage a text.

use crate::random::Random;

/// Damages a text in one random way. The outcome may happen to be valid.
pub fn damage(random: &mut Random, text: &[u8]) -> Vec<u8> {
    match random.below(16) {
        0 => cut(random, text),
        1 => change_byte(random, text),
        2 => insert_byte(random, text),
        3 => remove_byte(random, text),
        4 => swap_lines(random, text),
        5 => duplicate_line(random, text),
        6 => drop_line(random, text),
        7 => text.strip_suffix(b"\n").unwrap_or(text).to_vec(),
        8 => long_line(random, text),
        9 => spoil_number(random, text),
        10 => change_number(random, text),
        11 => spoil_line(random, text),
        12 => foreign_line(random, text),
        13 => append(random, text),
        14 => replace_line_by_another(random, text),
        _ => insert_run(random, text),
    }
}

/// A byte that is more often near the grammar than not.
fn odd_byte(random: &mut Random) -> u8 {
    if random.once_in(3) {
        random.byte()
    } else {
        random.pick(b"\n\n\r\0 ,,=0019aAsS#-+.\t\x7f\x80\xb1\xff")
    }
}

fn cut(random: &mut Random, text: &[u8]) -> Vec<u8> {
    text[..random.between(0, text.len())].to_vec()
}

/// A place in the text: half of the time among the first bytes, since most of
/// a text is events.
fn place(random: &mut Random, length: usize) -> usize {
    if length > 40 && random.once_in(2) {
        random.below(40)
    } else {
        random.below(length)
    }
}

fn change_byte(random: &mut Random, text: &[u8]) -> Vec<u8> {
    let mut text = text.to_vec();
    if !text.is_empty() {
        let place = place(random, text.len());
        text[place] = odd_byte(random);
    }
    text
}

fn insert_byte(random: &mut Random, text: &[u8]) -> Vec<u8> {
    let mut text = text.to_vec();
    let place = place(random, text.len() + 1);
    text.insert(place, odd_byte(random));
    text
}

fn insert_run(random: &mut Random, text: &[u8]) -> Vec<u8> {
    let place = place(random, text.len() + 1);
    let run: Vec<u8> = (0..random.between(1, 120)).map(|_| random.byte()).collect();
    [&text[..place], &run, &text[place..]].concat()
}

fn remove_byte(random: &mut Random, text: &[u8]) -> Vec<u8> {
    let mut text = text.to_vec();
    if !text.is_empty() {
        text.remove(place(random, text.len()));
    }
    text
}

/// The lines with their ends; a last one without byte 10 is a line too.
fn lines(text: &[u8]) -> Vec<&[u8]> {
    text.split_inclusive(|&byte| byte == b'\n').collect()
}

/// A place among the lines: half of the time near the beginning.
fn line_place(random: &mut Random, lines: &[&[u8]]) -> usize {
    if lines.len() > 6 && random.once_in(2) {
        random.below(6)
    } else {
        random.below(lines.len().max(1))
    }
}

fn swap_lines(random: &mut Random, text: &[u8]) -> Vec<u8> {
    let mut lines = lines(text);
    if !lines.is_empty() {
        let (a, b) = (line_place(random, &lines), line_place(random, &lines));
        lines.swap(a, b);
    }
    lines.concat()
}

fn duplicate_line(random: &mut Random, text: &[u8]) -> Vec<u8> {
    let mut lines = lines(text);
    if !lines.is_empty() {
        let (from, to) = (line_place(random, &lines), line_place(random, &lines));
        lines.insert(to, lines[from]);
    }
    lines.concat()
}

fn drop_line(random: &mut Random, text: &[u8]) -> Vec<u8> {
    let mut lines = lines(text);
    if !lines.is_empty() {
        lines.remove(line_place(random, &lines));
    }
    lines.concat()
}

fn replace_line_by_another(random: &mut Random, text: &[u8]) -> Vec<u8> {
    let mut lines = lines(text);
    if !lines.is_empty() {
        let (from, to) = (line_place(random, &lines), random.below(lines.len()));
        lines[to] = lines[from];
    }
    lines.concat()
}

/// Puts one made-up line somewhere, in place of another or between two.
fn put_line(random: &mut Random, text: &[u8], line: &[u8]) -> Vec<u8> {
    let mut lines = lines(text);
    let place = line_place(random, &lines);
    if !lines.is_empty() && random.once_in(2) {
        lines[place] = line;
    } else {
        lines.insert(place.min(lines.len()), line);
    }
    lines.concat()
}

/// A line about as long as a line may be, or very long.
fn long_line(random: &mut Random, text: &[u8]) -> Vec<u8> {
    let length = match random.below(40) {
        0 => 1_000_000,
        1 => random.pick(&[255, 256, 4_095, 4_096, 65_535, 65_536, 70_000]),
        2 => random.between(100, 9_000),
        _ => random.between(94, 99),
    };
    let mut line = long_set_line(random, length);
    if random.once_in(3) {
        line = vec![random.pick(b"x0 ,\0\xff"); length];
    }
    if !random.once_in(10) {
        line.push(b'\n');
    }
    put_line(random, text, &line)
}

/// A set line of about the given length (exactly, up to some hundred bytes),
/// well formed but for its length.
pub fn long_set_line(random: &mut Random, length: usize) -> Vec<u8> {
    let mut line = String::from("set=1");
    let mut last = 1;
    while line.len() < length && last < 999 {
        let missing = length - line.len();
        let next = match missing {
            2 if last < 9 => last + 1,
            3 if last < 99 => (last + 1).max(10),
            4 => (last + 1).max(100),
            // Some room is kept for numbers with fewer digits.
            8.. if last < 5 || random.once_in(3) => last + random.between(1, 3),
            8.. => last + 1,
            5 if last < 9 => last + 1,
            6 | 7 if last < 99 => (last + 1).max(10),
            _ => (last + 1).max(100),
        };
        line += &format!(",{}", next.min(999));
        last = next;
    }
    line.into_bytes()
}

/// Where the numbers of a text are.
pub(crate) fn numbers(text: &[u8]) -> Vec<std::ops::Range<usize>> {
    let mut found = Vec::new();
    let mut start = None;
    for (place, byte) in text.iter().chain(b"\n").enumerate() {
        match (byte.is_ascii_digit(), start) {
            (true, None) => start = Some(place),
            (false, Some(begun)) => {
                found.push(begun..place);
                start = None;
            }
            _ => {}
        }
    }
    found
}

fn replace_number(random: &mut Random, text: &[u8], new: impl Fn(&mut Random, &[u8]) -> Vec<u8>) -> Vec<u8> {
    let numbers = numbers(text);
    if numbers.is_empty() {
        return text.to_vec();
    }
    let place =
        if random.once_in(3) { random.below(numbers.len().min(4)) } else { random.below(numbers.len()) };
    let range = numbers[place].clone();
    let number = new(random, &text[range.clone()]);
    [&text[..range.start], &number, &text[range.end..]].concat()
}

/// Breaks the form of a number.
fn spoil_number(random: &mut Random, text: &[u8]) -> Vec<u8> {
    replace_number(random, text, |random, number| match random.below(12) {
        0 => [b"0", number].concat(),
        1 => Vec::new(),
        2 => [number, b","].concat(),
        3 => [b",", number].concat(),
        4 => [b" ", number].concat(),
        5 => [number, b" "].concat(),
        6 => [number, b"\r"].concat(),
        7 => [b"+", number].concat(),
        8 => [b"-", number].concat(),
        9 => [number, b"000"].concat(),
        10 => b"4294967297".to_vec(),
        _ => b"18446744073709551617".to_vec(),
    })
}

/// Puts another well-formed number in place of one.
fn change_number(random: &mut Random, text: &[u8]) -> Vec<u8> {
    replace_number(random, text, |random, _| {
        let number = match random.below(3) {
            0 => random.below(1000),
            1 => random.below(34),
            _ => random.pick(&[0, 1, 30, 31, 32, 33, 63, 64, 65, 255, 256, 257, 512, 999, 1000]),
        };
        number.to_string().into_bytes()
    })
}

/// Spoils a line as a whole.
fn spoil_line(random: &mut Random, text: &[u8]) -> Vec<u8> {
    let lines = lines(text);
    if lines.is_empty() {
        return Vec::new();
    }
    let place = line_place(random, &lines);
    let body = lines[place].strip_suffix(b"\n").unwrap_or(lines[place]);
    let spoilt: Vec<u8> = match random.below(9) {
        0 => body.to_ascii_uppercase(),
        1 => [body, b"\r"].concat(),
        2 => [b" ", body].concat(),
        3 => [body, b" "].concat(),
        4 => [body, b"\0"].concat(),
        5 => [body, b","].concat(),
        6 => body.split(|&byte| byte == b'=').next().unwrap_or(b"").to_vec(),
        7 => [body, body].concat(),
        _ => {
            let mut capital = body.to_vec();
            if let Some(first) = capital.first_mut() {
                first.make_ascii_uppercase();
            }
            capital
        }
    };
    let whole = [&spoilt, &b"\n"[..]].concat();
    let mut lines = lines;
    lines[place] = &whole;
    lines.concat()
}

/// A line of some other kind.
fn foreign_line(random: &mut Random, text: &[u8]) -> Vec<u8> {
    let line: &[u8] = random.pick(&[
        &b"\n"[..],
        b"\n\n",
        b"sites=3\n",
        b"set=1\n",
        b"set=\n",
        b"set=1,2,\n",
        b"set=2,1\n",
        b"set=1,1\n",
        b"ask=1\n",
        b"leave=1\n",
        b"move=1,1\n",
        b"move=1\n",
        b"move=1,2,3\n",
        b"stop=11 line=1\n",
        b"step=1 code=0 inside=0 waiting=1 flying=1\n",
        b"# a remark\n",
        b"\0\n",
        b"\xff\xfe\n",
        b"\xef\xbb\xbfsites=1\n",
    ]);
    put_line(random, text, line)
}

/// Something after the end.
fn append(random: &mut Random, text: &[u8]) -> Vec<u8> {
    let tail: &[u8] = random.pick(&[
        &b"\n"[..],
        b" ",
        b"\0",
        b"a",
        b"ask=1",
        b"ask=1\r\n",
        b"ask=",
        b"sites=1\n",
        b"\x1a",
        b"ask=1\n\n",
    ]);
    [text, tail].concat()
}

#[cfg(test)]
mod tests {
    use super::*;

    #[test]
    fn no_damage_fails_on_small_texts() {
        let mut random = Random::new(5);
        for text in [&b""[..], b"\n", b"a", b"sites=1\nset=1\nask=1\n", b"\n\n\n"] {
            for _ in 0..2_000 {
                damage(&mut random, text);
            }
        }
    }

    #[test]
    fn long_set_lines_have_the_length_asked_for() {
        let mut random = Random::new(6);
        let mut exact = 0;
        for _ in 0..500 {
            for length in [94, 95, 96, 97, 98] {
                let line = long_set_line(&mut random, length);
                assert!(crate::model::grammar::set_line(&line).is_some());
                exact += usize::from(line.len() == length);
            }
        }
        assert!(exact > 1_000, "{exact} of 2500");
    }

    #[test]
    fn numbers_are_found() {
        assert_eq!(numbers(b"move=12,3\n9"), [5..7, 8..9, 10..11]);
    }
}
