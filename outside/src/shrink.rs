//! Makes a failing text smaller while it still fails.

use std::time::{Duration, Instant};

/// Shrinks a text by taking away lines, whole sites, then bytes, for as long
/// as `fails` says it still fails and there is time left.
pub fn shrink(text: &[u8], time: Duration, fails: impl FnMut(&[u8]) -> bool) -> Vec<u8> {
    let mut shrinker = Shrinker { deadline: Instant::now() + time, fails };
    let mut best = text.to_vec();
    loop {
        let before = best.len();
        best = shrinker.without_lines(&best);
        best = shrinker.without_sites(&best);
        best = shrinker.without_bytes(&best);
        if best.len() == before || shrinker.out_of_time() {
            return best;
        }
    }
}

struct Shrinker<F> {
    deadline: Instant,
    fails: F,
}

impl<F: FnMut(&[u8]) -> bool> Shrinker<F> {
    fn out_of_time(&self) -> bool {
        Instant::now() >= self.deadline
    }

    /// Takes away runs of lines.
    fn without_lines(&mut self, text: &[u8]) -> Vec<u8> {
        let lines = text.split_inclusive(|&byte| byte == b'\n').collect();
        self.without_parts(lines, |lines: &[&[u8]]| lines.concat()).concat()
    }

    /// Takes away runs of bytes.
    fn without_bytes(&mut self, text: &[u8]) -> Vec<u8> {
        self.without_parts(text.to_vec(), <[u8]>::to_vec)
    }

    /// Takes away runs of parts, from the end forwards, long runs first.
    fn without_parts<T: Copy>(&mut self, mut parts: Vec<T>, joined: impl Fn(&[T]) -> Vec<u8>) -> Vec<T> {
        let mut run = parts.len().div_ceil(2);
        while run > 0 {
            let mut end = parts.len();
            while end > 0 {
                if self.out_of_time() {
                    return parts;
                }
                let start = end.saturating_sub(run);
                let fewer = [&parts[..start], &parts[end..]].concat();
                if (self.fails)(&joined(&fewer)) {
                    parts = fewer;
                }
                end = start;
            }
            run /= 2;
        }
        parts
    }

    /// Takes away one site after another: its set line, and one from the count.
    fn without_sites(&mut self, text: &[u8]) -> Vec<u8> {
        let mut best = text.to_vec();
        let mut line = 1;
        while let Some(fewer) = without_site(&best, line) {
            if self.out_of_time() {
                break;
            }
            if (self.fails)(&fewer) {
                best = fewer;
            } else {
                line += 1;
            }
        }
        best
    }
}

/// The text without the set on the given line (counted from 0), if it is one.
fn without_site(text: &[u8], line: usize) -> Option<Vec<u8>> {
    let mut lines: Vec<&[u8]> = text.split_inclusive(|&byte| byte == b'\n').collect();
    let count = lines.first()?.strip_prefix(b"sites=")?;
    let count: usize = std::str::from_utf8(count).ok()?.trim_end().parse().ok()?;
    if count == 0 || !lines.get(line)?.starts_with(b"set=") {
        return None;
    }
    lines.remove(line);
    let first = format!("sites={}\n", count - 1);
    lines[0] = first.as_bytes();
    Some(lines.concat())
}

#[cfg(test)]
mod tests {
    use super::*;

    const MINUTE: Duration = Duration::from_secs(60);

    #[test]
    fn only_what_matters_is_left() {
        let text: String = (0..500).map(|n| format!("line {n}\n")).collect();
        let fails = |text: &[u8]| {
            let has = |part: &[u8]| text.windows(part.len()).any(|window| window == part);
            has(b"321") && has(b"77\n")
        };
        let small = shrink(text.as_bytes(), MINUTE, fails);
        assert_eq!(small, b"77\n321");
    }

    #[test]
    fn a_text_that_never_fails_is_left_alone() {
        assert_eq!(shrink(b"a\nb\n", MINUTE, |_| false), b"a\nb\n");
        assert_eq!(shrink(b"", MINUTE, |_| true), b"");
    }

    #[test]
    fn it_ends_when_the_time_is_over() {
        let text = b"x\n".repeat(100_000);
        assert_eq!(shrink(&text, Duration::ZERO, |_| true), text);
    }

    #[test]
    fn sites_go_with_their_sets() {
        let text = b"sites=3\nset=1\nset=2\nset=3\nask=1\n";
        let small = without_site(text, 2).unwrap();
        assert_eq!(small, b"sites=2\nset=1\nset=3\nask=1\n");
        assert_eq!(without_site(text, 4), None);
        assert_eq!(without_site(b"", 1), None);
    }
}
