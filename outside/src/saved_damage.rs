//! Ways to damage a saved text. Some leave the text of another state.

use crate::damage::{damage, numbers};
use crate::random::Random;

/// Damages a saved text in one random way, which is named.
pub fn damage_saved(random: &mut Random, text: &[u8]) -> (&'static str, Vec<u8>) {
    match random.below(20) {
        0..=2 => ("byte", byte(random, text)),
        3..=6 => ("line", line(random, text)),
        7..=11 => ("number", number(random, text)),
        12..=14 => ("other line", other_line(random, text)),
        15 | 16 => ("cut", cut(random, text)),
        17 | 18 => ("behind", behind(random, text)),
        _ => ("any", damage(random, text)),
    }
}

fn lines(text: &[u8]) -> Vec<&[u8]> {
    text.split_inclusive(|&byte| byte == b'\n').collect()
}

fn key(line: &[u8]) -> &[u8] {
    line.split(|&byte| byte == b'=').next().unwrap_or_default()
}

/// The place of a line: each key is as likely as the others.
fn line_place(random: &mut Random, lines: &[&[u8]]) -> usize {
    let mut keys: Vec<&[u8]> = lines.iter().map(|line| key(line)).collect();
    keys.sort_unstable();
    keys.dedup();
    if keys.is_empty() {
        return 0;
    }
    let chosen = random.pick(&keys);
    let places: Vec<usize> = (0..lines.len()).filter(|&place| key(lines[place]) == chosen).collect();
    random.pick(&places)
}

/// One byte changed, put in, taken out, or exchanged with the next.
fn byte(random: &mut Random, text: &[u8]) -> Vec<u8> {
    let mut text = text.to_vec();
    if text.len() < 2 {
        return vec![random.byte()];
    }
    let place = random.below(text.len() - 1);
    let other =
        if random.once_in(4) { random.byte() } else { random.pick(b"\n\r\0 ,,==00112359aAmM+-\x80\xff") };
    match random.below(4) {
        0 => text[place] = other,
        1 => text.insert(place, other),
        2 => {
            text.remove(place);
        }
        _ => text.swap(place, place + 1),
    }
    text
}

/// A line dropped, doubled, exchanged with a neighbour or with any other, or
/// with another end.
fn line(random: &mut Random, text: &[u8]) -> Vec<u8> {
    let mut lines = lines(text);
    if lines.is_empty() {
        return Vec::new();
    }
    let place = line_place(random, &lines);
    match random.below(9) {
        0 | 1 => {
            lines.remove(place);
        }
        2 | 3 => lines.insert(place, lines[place]),
        4 | 5 => {
            let next = (place + 1).min(lines.len() - 1);
            lines.swap(place, next);
        }
        6 => {
            let spoilt: &[u8] = random.pick(&[&b"\r\n"[..], b" \n", b",\n", b"\n\n", b"\0\n", b";", b""]);
            let line = lines[place].strip_suffix(b"\n").unwrap_or(lines[place]);
            let line = [line, spoilt].concat();
            return [lines[..place].concat(), line, lines[place + 1..].concat()].concat();
        }
        _ => {
            let other = line_place(random, &lines);
            lines.swap(place, other);
        }
    }
    lines.concat()
}

/// The digits of a number that is not the one given, or is not written as it
/// should be.
fn another_number(random: &mut Random, old: &[u8]) -> String {
    let old = String::from_utf8_lossy(old).into_owned();
    let value: u64 = old.parse().unwrap_or(0);
    match random.below(10) {
        0 | 1 => (value + 1).to_string(),
        2 | 3 => value.saturating_sub(1).to_string(),
        4 => format!("0{old}"),
        5 => random.pick(&["0", "1", "2", "3", "10", "30", "31"]).to_string(),
        6 => random.pick(&["999999", "1000000", "1999999", "2000000"]).to_string(),
        7 => random.pick(&["32", "64", "1000001", "2000001", "9999999", "10000000"]).to_string(),
        8 => (u128::from(value) + (1 << random.pick(&[8, 16, 31, 32, 63, 64]))).to_string(),
        _ => random.pick(&["", "00", "+1", "-1", " 1", "1 ", "0x1", "1e0"]).to_string(),
    }
}

/// One number of a line changed, or one more or less of them.
fn number(random: &mut Random, text: &[u8]) -> Vec<u8> {
    let mut lines: Vec<Vec<u8>> = lines(text).iter().map(|line| line.to_vec()).collect();
    let shown: Vec<&[u8]> = lines.iter().map(|line| &line[..]).collect();
    let place = line_place(random, &shown);
    if place < lines.len() {
        lines[place] = with_another_number(random, &lines[place]);
    }
    lines.concat()
}

fn with_another_number(random: &mut Random, line: &[u8]) -> Vec<u8> {
    let found = numbers(line);
    if found.is_empty() {
        return [key(line), b"=0\n"].concat();
    }
    let range = random.pick(&(0..found.len()).collect::<Vec<_>>());
    let (start, end) = (found[range].start, found[range].end);
    let new = match random.below(12) {
        0 => return [&line[..start], &line[(end + 1).min(line.len())..]].concat(),
        1 => format!("{},0", String::from_utf8_lossy(&line[start..end])),
        2 => format!("0,{}", String::from_utf8_lossy(&line[start..end])),
        3 | 4 => (most(key(line)) + random.below(2)).to_string(),
        _ => another_number(random, &line[start..end]),
    };
    [&line[..start], new.as_bytes(), &line[end..]].concat()
}

/// The largest number that a line with this key may have somewhere.
fn most(key: &[u8]) -> usize {
    match key {
        b"sites" | b"set" | b"heir" => 31,
        b"accepted" => 1_000_000,
        _ => 2_000_000,
    }
}

/// A line replaced by another one of its kind, made up.
fn other_line(random: &mut Random, text: &[u8]) -> Vec<u8> {
    let mut lines = lines(text);
    if lines.is_empty() {
        return Vec::new();
    }
    let place = line_place(random, &lines);
    let count = numbers(lines[place]).len();
    let n = String::from_utf8_lossy(lines[0]).trim_end().rsplit('=').next().and_then(|n| n.parse().ok());
    let n: usize = n.unwrap_or(1).clamp(1, 40);
    let mut some = |most: usize| random.below(most + 1);
    let made = match key(lines[place]) {
        b"mode" => match some(8) {
            0 => "mode=0".to_string(),
            1 => "mode=2".to_string(),
            2 => format!("mode=1,{}", some(3)),
            3 => format!("mode=2,{},0", some(1)),
            4 => "mode=0,0,0".to_string(),
            5 => "mode=1".to_string(),
            6 => format!("mode={}", some(5)),
            _ => format!("mode=1,{},{}", some(3), some(2)),
        },
        b"holder" => match some(6) {
            0 => "holder=0".to_string(),
            1 => format!("holder={}", some(n)),
            2 => format!("holder=0,{}", some(2)),
            _ => format!("holder={},{}", some(n + 1), some(4)),
        },
        b"message" => {
            let (kind, from, to) = (1 + some(6), some(n + 1), some(n + 1));
            match (kind, some(9)) {
                (_, 0) => format!("message={},{from},{to},{}", some(9), some(4)),
                (_, 1) => format!("message={kind},{from},{to},{},{}", some(n), some(4)),
                (1 | 4 | 6, _) => format!("message={kind},{from},{to},{}", some(4)),
                (5, 2..=6) => format!("message=5,{from},{to},{}", some(4)),
                (5, _) => format!("message=5,{from},{to}"),
                _ => format!("message={kind},{from},{to},{},{}", some(n + 1), some(4)),
            }
        }
        b"set" => {
            let list: Vec<String> =
                (1..=n + some(1)).filter(|_| some(1) == 0).map(|n| n.to_string()).collect();
            format!("set={}", list.join(","))
        }
        other => {
            let count = if some(5) == 0 { some(count + 1) } else { count };
            let most = if other == b"heir" { n + 1 } else { 4 };
            let list: Vec<String> = (0..count).map(|_| some(most).to_string()).collect();
            format!("{}={}", String::from_utf8_lossy(other), list.join(","))
        }
    };
    let made = made + "\n";
    lines[place] = made.as_bytes();
    lines.concat()
}

/// Cut at any byte, behind a line, or before the last byte 10.
fn cut(random: &mut Random, text: &[u8]) -> Vec<u8> {
    match random.below(3) {
        0 => text[..random.between(0, text.len())].to_vec(),
        1 => {
            let lines = lines(text);
            lines[..random.between(0, lines.len())].concat()
        }
        _ => text.strip_suffix(b"\n").unwrap_or(text).to_vec(),
    }
}

/// Bytes behind the end: rubbish, lines, messages that may fit.
fn behind(random: &mut Random, text: &[u8]) -> Vec<u8> {
    let again = lines(text).last().copied().unwrap_or_default().to_vec();
    let tail: Vec<u8> = match random.below(10) {
        0 => again,
        1 => text.to_vec(),
        2 => vec![0; random.between(1, 5_000)],
        3 => vec![b'\n'; random.between(1, 5_000)],
        4 => vec![random.byte()],
        5 => random.pick(&["message=5,1,1\n", "message=5,1,1,1\n", "message=5,1,1,0\n"]).into(),
        6 => b"message=1,1,1,1\n".to_vec(),
        7 => b"message=2,1,1,1,1\nmessage=6,1,1,1\n".to_vec(),
        8 => b"message=5,1,1\n".repeat(random.pick(&[1, 900, 1_022, 1_023, 1_024, 1_025])),
        _ => random
            .pick(&[&b"ask=1\n"[..], b"clock=0\n", b"queued=\n", b"sites=1\n", b"message=5,1,1", b"\r"])
            .to_vec(),
    };
    [text, &tail].concat()
}
