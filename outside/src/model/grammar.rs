//! The form of the player's lines.

use super::{Site, LONGEST_LINE};

/// An event, as a line of the text names it. The sites may not exist.
#[derive(Clone, Copy, Debug, PartialEq, Eq)]
pub enum Event {
    /// `ask=s`
    Ask(Site),
    /// `leave=s`
    Leave(Site),
    /// `move=a,b`: the first message from a to b is delivered.
    Move(Site, Site),
}

impl std::fmt::Display for Event {
    fn fmt(&self, f: &mut std::fmt::Formatter<'_>) -> std::fmt::Result {
        match self {
            Event::Ask(site) => write!(f, "ask={site}"),
            Event::Leave(site) => write!(f, "leave={site}"),
            Event::Move(from, to) => write!(f, "move={from},{to}"),
        }
    }
}

/// What is found where a line is looked for.
#[derive(Clone, Copy, Debug, PartialEq, Eq)]
pub enum Line<'a> {
    /// A line of proper length, without its byte 10.
    Whole(&'a [u8]),
    /// A line that is too long or does not end in byte 10.
    Broken,
    /// The input has ended.
    Lacking,
}

/// Reads a text line by line and counts the lines.
pub struct Lines<'a> {
    rest: &'a [u8],
    number: usize,
}

impl<'a> Lines<'a> {
    /// Starts before line 1.
    pub fn new(text: &'a [u8]) -> Lines<'a> {
        Lines { rest: text, number: 0 }
    }

    /// The number of the line last looked for.
    pub fn number(&self) -> usize {
        self.number
    }

    /// Looks for the next line.
    pub fn next_line(&mut self) -> Line<'a> {
        self.number += 1;
        if self.rest.is_empty() {
            return Line::Lacking;
        }
        match self.rest.iter().position(|&byte| byte == b'\n') {
            Some(end) => {
                let line = &self.rest[..end];
                self.rest = &self.rest[end + 1..];
                if end <= LONGEST_LINE {
                    Line::Whole(line)
                } else {
                    Line::Broken
                }
            }
            None => {
                self.rest = &[];
                Line::Broken
            }
        }
    }
}

/// A number from 0 to 999 without leading zeros.
pub fn number(text: &[u8]) -> Option<Site> {
    let formed = match text {
        [b'0'] => true,
        [b'1'..=b'9', rest @ ..] => rest.len() <= 2 && rest.iter().all(u8::is_ascii_digit),
        _ => false,
    };
    formed.then(|| text.iter().fold(0, |value, digit| value * 10 + Site::from(digit - b'0')))
}

/// A number, or a number, a comma and a list; strictly ascending.
pub fn list(text: &[u8]) -> Option<Vec<Site>> {
    let numbers: Vec<Site> = text.split(|&byte| byte == b',').map(number).collect::<Option<_>>()?;
    let ascends = numbers.windows(2).all(|pair| pair[0] < pair[1]);
    ascends.then_some(numbers)
}

/// `sites=N`
pub fn sites_line(line: &[u8]) -> Option<Site> {
    number(line.strip_prefix(b"sites=")?)
}

/// `set=` and a list
pub fn set_line(line: &[u8]) -> Option<Vec<Site>> {
    list(line.strip_prefix(b"set=")?)
}

/// `ask=s`, `leave=s` or `move=a,b`
pub fn event_line(line: &[u8]) -> Option<Event> {
    if let Some(site) = line.strip_prefix(b"ask=") {
        return Some(Event::Ask(number(site)?));
    }
    if let Some(site) = line.strip_prefix(b"leave=") {
        return Some(Event::Leave(number(site)?));
    }
    let pair = line.strip_prefix(b"move=")?;
    let comma = pair.iter().position(|&byte| byte == b',')?;
    Some(Event::Move(number(&pair[..comma])?, number(&pair[comma + 1..])?))
}

#[cfg(test)]
mod tests {
    use super::*;

    #[test]
    fn numbers() {
        for (text, value) in [("0", 0), ("7", 7), ("10", 10), ("31", 31), ("999", 999)] {
            assert_eq!(number(text.as_bytes()), Some(value));
        }
        for text in [
            "", "00", "01", "007", "1000", "0999", "-1", "+1", " 1", "1 ", "1\r", "1\0", "x", "1x", "0x1",
            "1.0", "1,2", "99999999999999999999",
        ] {
            assert_eq!(number(text.as_bytes()), None, "{text:?}");
        }
        assert_eq!(number(&[b'1', 0xb2]), None);
        assert_eq!(number("١".as_bytes()), None);
    }

    #[test]
    fn lists() {
        assert_eq!(list(b"5"), Some(vec![5]));
        assert_eq!(list(b"0,1,999"), Some(vec![0, 1, 999]));
        for text in ["", ",", "1,", ",1", "1,,2", "2,1", "1,1", "1, 2", "1;2", "1,02", "1,1000", "1,2,2"] {
            assert_eq!(list(text.as_bytes()), None, "{text:?}");
        }
    }

    #[test]
    fn events() {
        assert_eq!(event_line(b"ask=1"), Some(Event::Ask(1)));
        assert_eq!(event_line(b"leave=31"), Some(Event::Leave(31)));
        assert_eq!(event_line(b"move=2,1"), Some(Event::Move(2, 1)));
        assert_eq!(event_line(b"move=1,1"), Some(Event::Move(1, 1)));
        assert_eq!(event_line(b"move=0,999"), Some(Event::Move(0, 999)));
        for text in [
            "", "ask", "ask=", "ask=1,2", "Ask=1", "ASK=1", " ask=1", "ask =1", "ask= 1", "ask=1 ", "asks=1",
            "leave=", "leave=1,1", "move=1", "move=1,", "move=,1", "move=1,2,3", "move=1;2", "move=01,2",
            "move=1,02", "set=1", "sites=1", "ask=1\r", "#", "ask=1#",
        ] {
            assert_eq!(event_line(text.as_bytes()), None, "{text:?}");
        }
    }

    #[test]
    fn head_lines() {
        assert_eq!(sites_line(b"sites=31"), Some(31));
        assert_eq!(sites_line(b"sites=0"), Some(0));
        assert_eq!(sites_line(b"sites=1,2"), None);
        assert_eq!(sites_line(b"site=1"), None);
        assert_eq!(set_line(b"set=1,2"), Some(vec![1, 2]));
        assert_eq!(set_line(b"set="), None);
        assert_eq!(set_line(b"set"), None);
        assert_eq!(set_line(b"Set=1"), None);
    }

    #[test]
    fn lines_are_cut_at_byte_10() {
        let mut lines = Lines::new(b"a\n\nbc");
        assert_eq!(lines.next_line(), Line::Whole(b"a"));
        assert_eq!(lines.next_line(), Line::Whole(b""));
        assert_eq!(lines.next_line(), Line::Broken);
        assert_eq!(lines.number(), 3);
        assert_eq!(lines.next_line(), Line::Lacking);
        assert_eq!(Lines::new(b"").next_line(), Line::Lacking);
    }

    #[test]
    fn lines_have_at_most_96_bytes() {
        let text = [vec![b'x'; 96], vec![b'\n'], vec![b'x'; 97], vec![b'\n']].concat();
        let mut lines = Lines::new(&text);
        assert_eq!(lines.next_line(), Line::Whole(&[b'x'; 96]));
        assert_eq!(lines.next_line(), Line::Broken);
        assert_eq!(lines.next_line(), Line::Lacking);
    }

    #[test]
    fn events_print_as_they_are_read() {
        for event in [Event::Ask(3), Event::Leave(31), Event::Move(12, 0)] {
            assert_eq!(event_line(event.to_string().as_bytes()), Some(event));
        }
    }
}
