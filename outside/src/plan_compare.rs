//! Calls a program `plan` with many words and compares it with the reading.

use std::path::Path;
use std::time::Instant;

use crate::calls;
use crate::compare::{first_difference, shown};
use crate::plan::{answer, Answer, Printed};
use crate::subject::{Called, Ending, Subject};

/// So many differences are shown; then the comparison ends.
const MOST_SHOWN: usize = 5;

/// Of a call so many words are shown.
const MOST_WORDS: usize = 50;

/// Compares all calls, until too many differ. A script has an exit status, the
/// program itself has none but 0. The seed is that of the random votes. Gives
/// whether all was equal.
pub fn compare_calls(subject: &Subject, script: bool, seed: u64) -> Result<bool, String> {
    let started = Instant::now();
    println!("seed {seed}");
    let calls = calls::all(seed);
    let (mut sets, mut codes, mut usages) = (0, 0, 0);
    let mut differing = 0;
    for call in &calls {
        let answer = answer(call);
        let expected = answer.printed();
        let called = subject.call(call)?;
        if is_equal(&expected, &called, script) {
            match answer {
                Answer::Sets(_) => sets += 1,
                Answer::Code(_) => codes += 1,
                Answer::Usage => usages += 1,
            }
            continue;
        }
        differing += 1;
        show(subject.binary(), call, &expected, &called, script);
        if differing == MOST_SHOWN {
            break;
        }
    }
    let equal = sets + codes + usages;
    println!(
        "{} calls known, {} made in {:.1} s",
        calls.len(),
        equal + differing,
        started.elapsed().as_secs_f64()
    );
    println!("{equal} calls were equal: {sets} with sets, {codes} with a code, {usages} of wrong use");
    println!("{differing} calls differed");
    Ok(differing == 0)
}

fn ending(expected: &Printed, script: bool) -> Ending {
    Ending::Exited(if script { expected.status } else { 0 })
}

/// How standard error words it is not compared, only whether there is any.
fn is_equal(expected: &Printed, called: &Called, script: bool) -> bool {
    called.output == expected.output.as_bytes()
        && called.errors.is_empty() == expected.errors.is_empty()
        && called.ending == ending(expected, script)
}

fn show(program: &Path, call: &[Vec<u8>], expected: &Printed, called: &Called, script: bool) {
    let words: Vec<String> = call.iter().take(MOST_WORDS).map(|word| shown(word)).collect();
    let cut = if call.len() > MOST_WORDS { format!(" … ({} words)", call.len()) } else { String::new() };
    println!("DIFFERENCE at {} {}{cut}", program.display(), words.join(" "));
    let (line, ours, theirs) = first_difference(expected.output.as_bytes(), &called.output);
    if called.output != expected.output.as_bytes() {
        println!("  first differing line of standard output: {line}");
        println!("    reading: {}", shown(ours));
        println!("    program: {}", shown(theirs));
    }
    println!("  standard error and ending");
    println!("    reading: {}, {}", shown(expected.errors.as_bytes()), ending(expected, script));
    println!("    program: {}, {}", shown(&called.errors), called.ending);
}

#[cfg(test)]
mod tests {
    use super::*;

    fn called(output: &str, errors: &str, code: i32) -> Called {
        Called { output: output.into(), errors: errors.into(), ending: Ending::Exited(code) }
    }

    #[test]
    fn all_that_is_printed_counts() {
        let code = answer(&[b"grid".to_vec(), b"6".to_vec()]).printed();
        assert!(is_equal(&code, &called("code=12\n", "", 0), false));
        assert!(is_equal(&code, &called("code=12\n", "", 1), true));
        assert!(!is_equal(&code, &called("code=12\n", "", 1), false));
        assert!(!is_equal(&code, &called("code=12\n", "", 0), true));
        assert!(!is_equal(&code, &called("code=12", "", 0), false));
        assert!(!is_equal(&code, &called("code=12\n", "no", 0), false));
        assert!(!is_equal(&code, &called("", "code=12\n", 0), false));
        let usage = answer(&[]).printed();
        assert!(is_equal(&usage, &called("", "in other words\n", 0), false));
        assert!(is_equal(&usage, &called("", "in other words\n", 2), true));
        assert!(!is_equal(&usage, &called("", "", 0), false));
        assert!(!is_equal(&usage, &called("\n", "usage\n", 0), false));
        let killed = Called { output: Vec::new(), errors: b"usage\n".to_vec(), ending: Ending::Killed };
        assert!(!is_equal(&usage, &killed, false));
    }
}
