//! Reading command-line words: `--name value` pairs and bare words.

/// The words of a command, taken one by one.
pub struct Words {
    rest: std::vec::IntoIter<String>,
}

impl Words {
    /// The process's own words.
    pub fn of_process() -> Self {
        Words::new(std::env::args().skip(1).collect())
    }

    pub fn new(words: Vec<String>) -> Self {
        Words { rest: words.into_iter() }
    }

    pub fn next(&mut self) -> Option<String> {
        self.rest.next()
    }

    /// The word behind an option.
    pub fn value(&mut self, option: &str) -> Result<String, String> {
        self.rest.next().ok_or_else(|| format!("{option} needs a value"))
    }

    /// The number behind an option.
    pub fn number(&mut self, option: &str) -> Result<u64, String> {
        parse_number(option, &self.value(option)?)
    }
}

pub fn parse_number(name: &str, word: &str) -> Result<u64, String> {
    word.parse().map_err(|_| format!("{name} needs a number, not {word:?}"))
}

#[cfg(test)]
mod tests {
    use super::Words;

    fn words(words: &[&str]) -> Words {
        Words::new(words.iter().map(ToString::to_string).collect())
    }

    #[test]
    fn numbers_and_errors() {
        assert_eq!(words(&["12"]).number("--seed"), Ok(12));
        assert!(words(&["x"]).number("--seed").is_err());
        assert!(words(&["-1"]).number("--seed").is_err());
        assert!(words(&[]).number("--seed").is_err());
    }
}
