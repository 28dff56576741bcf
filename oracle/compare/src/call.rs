//! One call of the subject between guards, and where its outcome differs from
//! what docs/RULES.md says.

use crate::expect::{after_call, Expected};
use crate::limits::Limits;
use crate::subject::Subject;
use crate::{Answer, ACCEPTED};
use std::fmt;

/// Words before and behind each lent buffer that no call may write.
const GUARD: usize = 8;

/// Which function is called.
#[derive(Clone, Copy, Debug, PartialEq, Eq)]
pub enum What {
    Check,
    Lower,
}

/// How an outcome differs, or the two readings of the checks do.
#[derive(Clone, Debug)]
pub struct Difference {
    pub limits: Limits,
    pub expected: Answer,
    /// The second reading's answer, where it is not the reference's.
    pub second_reading: Option<Answer>,
    pub got: Answer,
    pub word: Option<WordDifference>,
}

/// The first word that differs.
#[derive(Clone, Debug)]
pub struct WordDifference {
    pub buffer: &'static str,
    /// Position in the buffer; negative or past its end for a guard.
    pub index: isize,
    pub expected: u32,
    pub got: u32,
}

impl fmt::Display for Difference {
    fn fmt(&self, f: &mut fmt::Formatter) -> fmt::Result {
        let Limits { n, p, netlist_words, scratch_words } = self.limits;
        writeln!(f, "N {n}, P {p}, netlist buffer {netlist_words} words, scratch {scratch_words} words")?;
        writeln!(f, "expected answer {:?}", self.expected)?;
        if let Some(second) = self.second_reading {
            writeln!(f, "THE TWO READINGS DIFFER: the second says {second:?}")?;
        }
        write!(f, "got answer      {:?}", self.got)?;
        match &self.word {
            Some(word) => write!(f, "\n{word}"),
            None => Ok(()),
        }
    }
}

impl fmt::Display for WordDifference {
    fn fmt(&self, f: &mut fmt::Formatter) -> fmt::Result {
        let WordDifference { buffer, index, expected, got } = self;
        write!(f, "first differing word: {buffer} word {index}: expected {expected}, got {got}")
    }
}

/// The expected answer, and the difference if there is one.
pub fn compare(subject: &dyn Subject, what: What, image: &[u8], limits: &Limits, junk: u64) -> (Answer, Option<Difference>) {
    match what {
        What::Check => compare_check(subject, image, limits, junk),
        What::Lower => compare_lower(subject, image, limits, junk),
    }
}

fn compare_check(subject: &dyn Subject, image: &[u8], limits: &Limits, junk: u64) -> (Answer, Option<Difference>) {
    let expected = reference::check(image, limits.n, limits.p, limits.netlist_words, limits.scratch_words);
    let lent = LentImage::new(image, junk);
    let got = subject.check(lent.bytes(), limits);
    let second_reading = second_reading(image, limits, expected);
    let differs = got != expected || second_reading.is_some();
    (expected, differs.then_some(Difference { limits: *limits, expected, second_reading, got, word: None }))
}

/// What the second reading says of the checks, where it is not `first`.
fn second_reading(image: &[u8], limits: &Limits, first: Answer) -> Option<Answer> {
    let second = reading::refusal(image, limits.n, limits.p, limits.netlist_words, limits.scratch_words);
    (second != first).then_some(second)
}

/// The checks' part of a call's answer: refusals 6 to 10 come after them.
fn of_checks(answer: Answer) -> Answer {
    if answer[0] > 5 { ACCEPTED } else { answer }
}

fn compare_lower(subject: &dyn Subject, image: &[u8], limits: &Limits, junk: u64) -> (Answer, Option<Difference>) {
    let expected = after_call(image, limits);
    let lent = LentImage::new(image, junk);
    let mut netlist = LentWords::new("netlist", limits.netlist_words, junk);
    let mut scratch = LentWords::new("scratch", limits.scratch_words, !junk);
    let got = subject.lower(lent.bytes(), limits.n, limits.p, netlist.words(), scratch.words());
    let word = netlist
        .first_difference(expected.netlist.as_deref().unwrap_or(&[]))
        .or_else(|| scratch.first_difference(&vec![0; expected.scratch_required]));
    let Expected { answer, .. } = expected;
    let second_reading = second_reading(image, limits, of_checks(answer));
    let differs = got != answer || word.is_some() || second_reading.is_some();
    (answer, differs.then_some(Difference { limits: *limits, expected: answer, second_reading, got, word }))
}

/// A copy of the image amid junk, at any alignment, so that reading outside it
/// does not go unseen for long.
pub(crate) struct LentImage {
    memory: Vec<u8>,
    start: usize,
    length: usize,
}

impl LentImage {
    pub(crate) fn new(image: &[u8], junk: u64) -> Self {
        let start = 16 + (junk % 4) as usize;
        let mut memory: Vec<u8> = (0..start as u64).map(|at| junk_word(junk, at) as u8).collect();
        memory.extend_from_slice(image);
        memory.extend((0..64).map(|at| junk_word(junk, at) as u8));
        LentImage { memory, start, length: image.len() }
    }

    pub(crate) fn bytes(&self) -> &[u8] {
        &self.memory[self.start..self.start + self.length]
    }
}

/// A buffer full of junk, between guards.
pub(crate) struct LentWords {
    name: &'static str,
    memory: Vec<u32>,
    junk: u64,
}

impl LentWords {
    pub(crate) fn new(name: &'static str, length: usize, junk: u64) -> Self {
        let memory = (0..(length + 2 * GUARD) as u64).map(|at| junk_word(junk, at)).collect();
        LentWords { name, memory, junk }
    }

    pub(crate) fn words(&mut self) -> &mut [u32] {
        let end = self.memory.len() - GUARD;
        &mut self.memory[GUARD..end]
    }

    /// The first word that is not as expected: `required` from the start on,
    /// all others as before.
    pub(crate) fn first_difference(&self, required: &[u32]) -> Option<WordDifference> {
        let expected_at = |at: usize| match at.checked_sub(GUARD).and_then(|index| required.get(index)) {
            Some(&word) => word,
            None => junk_word(self.junk, at as u64),
        };
        let (at, &got) = self.memory.iter().enumerate().find(|&(at, &word)| word != expected_at(at))?;
        Some(WordDifference { buffer: self.name, index: at as isize - GUARD as isize, expected: expected_at(at), got })
    }
}

/// The junk word at a position: never 0, so that a cleared word shows.
fn junk_word(junk: u64, at: u64) -> u32 {
    let mixed = (junk ^ at).wrapping_mul(0x9e37_79b9_7f4a_7c15);
    (mixed >> 32) as u32 | 1
}

#[cfg(test)]
mod tests {
    use super::{junk_word, LentWords, GUARD};

    fn lent() -> LentWords {
        LentWords::new("netlist", 5, 7)
    }

    #[test]
    fn untouched_buffer_has_no_difference() {
        assert!(lent().first_difference(&[]).is_none());
    }

    #[test]
    fn required_words_are_compared() {
        let mut words = lent();
        words.words()[..3].copy_from_slice(&[1, 2, 3]);
        assert!(words.first_difference(&[1, 2, 3]).is_none());
        let word = words.first_difference(&[1, 4, 3]).unwrap();
        assert_eq!((word.index, word.expected, word.got), (1, 4, 2));
    }

    #[test]
    fn words_beyond_and_guards_are_compared() {
        for at in [0, GUARD - 1, GUARD + 3, GUARD + 4, GUARD + 5, 2 * GUARD + 4] {
            let mut words = lent();
            words.words()[..3].fill(0);
            words.memory[at] = 0;
            let word = words.first_difference(&[0, 0, 0]).unwrap();
            assert_eq!(word.index, at as isize - GUARD as isize);
            assert_eq!(word.expected, junk_word(7, at as u64));
        }
    }
}
