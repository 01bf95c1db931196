//! Options of the command line: `--name value` and `--name`, in any order.

/// The words after a command's name.
pub struct Options {
    words: Vec<String>,
}

impl Options {
    /// All the words still to be understood.
    pub fn new(words: impl IntoIterator<Item = String>) -> Options {
        Options { words: words.into_iter().collect() }
    }

    /// Takes the option `--name value`, if it is there.
    pub fn value<T: std::str::FromStr>(&mut self, name: &str) -> Result<Option<T>, String> {
        let Some(place) = self.words.iter().position(|word| word == name) else {
            return Ok(None);
        };
        self.words.remove(place);
        if place == self.words.len() {
            return Err(format!("{name} needs a value"));
        }
        let value = self.words.remove(place);
        match value.parse() {
            Ok(value) => Ok(Some(value)),
            Err(_) => Err(format!("{name}: {value:?} is not understood")),
        }
    }

    /// Takes the option `--name`, if it is there.
    pub fn flag(&mut self, name: &str) -> bool {
        let place = self.words.iter().position(|word| word == name);
        place.map(|place| self.words.remove(place)).is_some()
    }

    /// Takes the next word that is not an option.
    pub fn word(&mut self, what: &str) -> Result<String, String> {
        match self.words.first() {
            Some(word) if !word.starts_with("--") => Ok(self.words.remove(0)),
            _ => Err(format!("{what} is missing")),
        }
    }

    /// To be called last: nothing may be left over.
    pub fn finish(self) -> Result<(), String> {
        match self.words.first() {
            None => Ok(()),
            Some(word) => Err(format!("{word:?} is not understood")),
        }
    }
}

#[cfg(test)]
mod tests {
    use super::*;

    fn options(line: &str) -> Options {
        Options::new(line.split_whitespace().map(String::from))
    }

    #[test]
    fn options_come_in_any_order() {
        let mut options = options("--seed 5 player --no-spent --texts 7");
        assert_eq!(options.value("--seed"), Ok(Some(5)));
        assert_eq!(options.value("--texts"), Ok(Some(7)));
        assert_eq!(options.value::<u64>("--seconds"), Ok(None));
        assert!(options.flag("--no-spent"));
        assert!(!options.flag("--no-spent"));
        assert_eq!(options.word("a player").unwrap(), "player");
        assert_eq!(options.finish(), Ok(()));
    }

    #[test]
    fn mistakes_are_told() {
        assert!(options("--seed").value::<u64>("--seed").is_err());
        assert!(options("--seed x").value::<u64>("--seed").is_err());
        assert!(options("").word("a player").is_err());
        assert!(options("more").finish().is_err());
    }
}
