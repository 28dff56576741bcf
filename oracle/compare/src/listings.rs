//! The listing program's output on many inputs, held against the oracle's
//! listing byte for byte.

use crate::call::What;
use crate::cases::{case, SizeChoice};
use crate::inputs::{at_the_limits, near_the_limits};
use crate::plan::Plan;
use crate::printed::Difference;
use crate::run::Tally;
use crate::shrunk::Shrunk;
use image::Random;
use std::fmt;
use std::io::{ErrorKind, Write};
use std::path::PathBuf;
use std::process::{Command, Stdio};

/// What prints a listing for an input.
pub trait Lister {
    fn list(&self, input: &[u8]) -> Result<Vec<u8>, String>;
}

/// A program that reads standard input.
pub struct Program(pub PathBuf);

impl Lister for Program {
    /// What the program writes. It must end well and write no error; it need
    /// not read all of its input.
    fn list(&self, input: &[u8]) -> Result<Vec<u8>, String> {
        let problem = |error: std::io::Error| format!("{}: {error}", self.0.display());
        let mut command = Command::new(&self.0);
        let command = command.stdin(Stdio::piped()).stdout(Stdio::piped()).stderr(Stdio::piped());
        let mut process = command.spawn().map_err(problem)?;
        let written = process.stdin.take().expect("a pipe").write_all(input);
        let output = process.wait_with_output().map_err(problem)?;
        match written {
            Err(error) if error.kind() != ErrorKind::BrokenPipe => Err(problem(error)),
            _ if !output.status.success() => Err(format!("{}: {}", self.0.display(), output.status)),
            _ if !output.stderr.is_empty() => Err(String::from_utf8_lossy(&output.stderr).into_owned()),
            _ => Ok(output.stdout),
        }
    }
}

/// What was compared.
#[derive(Clone, Debug, Default)]
pub struct Listed {
    pub tally: Tally,
    pub bytes: u64,
    pub longest: u64,
}

impl fmt::Display for Listed {
    fn fmt(&self, f: &mut fmt::Formatter) -> fmt::Result {
        write!(f, "{}; {} bytes of text, at most {} of an input", self.tally, self.bytes, self.longest)
    }
}

/// A difference, and where it was met.
pub struct Failure {
    pub number: u64,
    pub origin: String,
    pub shrunk: Shrunk<Difference>,
}

impl fmt::Display for Failure {
    fn fmt(&self, f: &mut fmt::Formatter) -> fmt::Result {
        let Failure { number, origin, shrunk } = self;
        writeln!(f, "DIFFERENCE at input {number} ({origin}), {} bytes", shrunk.image.len())?;
        write!(f, "{shrunk}")
    }
}

/// Compares every input of the plan, or stops at the first difference.
pub fn run(lister: &dyn Lister, plan: &Plan) -> Result<Listed, Box<Failure>> {
    let limits = at_the_limits();
    let mut listed = Listed::default();
    for number in plan.first..plan.first + plan.count {
        let mut random = Random::of_case(plan.seed, number);
        let (origin, input) = match limits.get(number as usize) {
            Some((name, input)) => (name.to_string(), input.clone()),
            None => input(&mut random, number - limits.len() as u64),
        };
        if let Some(difference) = compare(lister, &input, &mut listed) {
            let again = |candidate: &[u8]| compare(lister, candidate, &mut Listed::default());
            return Err(Box::new(Failure { number, origin, shrunk: Shrunk::new(input, difference, again) }));
        }
    }
    Ok(listed)
}

/// One in eight near the listing's own limits, the others as for the calls.
fn input(random: &mut Random, number: u64) -> (String, Vec<u8>) {
    const NEAR_IN: u64 = 8;
    if number % NEAR_IN == 0 {
        return ("near the limits".to_string(), near_the_limits(random));
    }
    let case = case(random, number - number / NEAR_IN, What::Lower, SizeChoice::Mixed);
    (case.origin.to_string(), case.image)
}

/// One input.
fn compare(lister: &dyn Lister, input: &[u8], listed: &mut Listed) -> Option<Difference> {
    let expected = driver::listing(input, &reference::check);
    listed.tally.images += 1;
    listed.tally.count(answer(&expected));
    listed.bytes += expected.len() as u64;
    listed.longest = listed.longest.max(expected.len() as u64);
    match lister.list(input) {
        Err(problem) => Some(Difference::Failed(problem)),
        Ok(got) if got == expected.as_bytes() => None,
        Ok(got) => Some(first_difference(&expected, &String::from_utf8_lossy(&got))),
    }
}

/// The answer that a listing tells: that of a refusal's line, else acceptance.
pub fn answer(text: &str) -> crate::Answer {
    let mut words = text.split_whitespace();
    if words.next() != Some("refused") {
        return crate::ACCEPTED;
    }
    [(); 3].map(|()| words.next().and_then(|word| word.parse().ok()).expect("a refusal's number"))
}

/// Two texts that differ; lines are counted from 1.
fn first_difference(expected: &str, got: &str) -> Difference {
    let (mut left, mut right) = (expected.split_inclusive('\n'), got.split_inclusive('\n'));
    let mut number = 1;
    loop {
        match (left.next(), right.next()) {
            (Some(a), Some(b)) if a == b => number += 1,
            (a, b) => return Difference::Line(number, a.unwrap_or("").to_string(), b.unwrap_or("").to_string()),
        }
    }
}
