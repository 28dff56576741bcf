//! The lines `keep NAME` and `back NAME` of a trace.

use std::fmt::{Display, Formatter, Result};

/// The letters that a name has at most.
const MOST_LETTERS: usize = 8;

#[derive(Clone, Copy, Debug, PartialEq, Eq)]
pub enum Verb {
    Keep,
    Back,
}

/// A line that keeps the present moment by a name, or goes back to the moment of
/// one.
#[derive(Clone, Debug, PartialEq, Eq)]
pub struct Named {
    pub verb: Verb,
    pub name: String,
}

impl Named {
    /// Reads a line without its byte 10: the verb, one blank and the name.
    pub fn read(line: &[u8]) -> Option<Named> {
        let (verb, name) = std::str::from_utf8(line).ok()?.split_once(' ')?;
        let verb = [Verb::Keep, Verb::Back].into_iter().find(|one| one.text() == verb)?;
        let is_name = (1..=MOST_LETTERS).contains(&name.len()) && name.bytes().all(|letter| letter.is_ascii_lowercase());
        is_name.then(|| Named { verb, name: name.to_string() })
    }

    /// What a run after a back is called, by the name and the number of backs up to
    /// then.
    pub fn ending(&self, number: usize) -> String {
        format!("{}_{number}", self.name)
    }
}

impl Display for Named {
    fn fmt(&self, to: &mut Formatter) -> Result {
        write!(to, "{} {}", self.verb.text(), self.name)
    }
}

impl Verb {
    pub fn text(self) -> &'static str {
        match self {
            Verb::Keep => "keep",
            Verb::Back => "back",
        }
    }

    /// The verb that a line begins with, in small or capital letters, whatever
    /// stands behind it.
    pub fn meant(line: &[u8]) -> Option<Verb> {
        let begins = |verb: &Verb| line.trim_ascii_start().get(..4).is_some_and(|word| word.eq_ignore_ascii_case(verb.text().as_bytes()));
        [Verb::Keep, Verb::Back].into_iter().find(begins)
    }

    /// What a line of this verb must be.
    pub fn form(self) -> String {
        format!("{} takes one blank and one name of 1 to {MOST_LETTERS} letters a to z", self.text())
    }
}
