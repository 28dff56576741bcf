//! The command line of the comparisons of parts and of the listing program:
//! which cases are compared, and what is said of the outcome.

use crate::args::Words;
use std::process::ExitCode;
use std::time::Instant;

/// Cases by the seed of a run and their numbers in it; how many there are, or
/// for sequences of operations how many operations they have at the least.
#[derive(Clone, Copy, Debug)]
pub struct Plan {
    pub seed: u64,
    pub first: u64,
    pub count: u64,
}

impl Plan {
    /// Reads `--seed S --count N [--first I]`.
    pub fn read(mut words: Words) -> Result<Plan, String> {
        let (mut seed, mut count, mut first) = (None, None, 0);
        while let Some(word) = words.next() {
            match word.as_str() {
                "--seed" => seed = Some(words.number("--seed")?),
                "--count" => count = Some(words.number("--count")?),
                "--first" => first = words.number("--first")?,
                other => return Err(format!("unknown word {other:?}")),
            }
        }
        let count: u64 = count.ok_or("--count is missing")?;
        first.checked_add(count).ok_or("--first and --count together are too large")?;
        Ok(Plan { seed: seed.ok_or("--seed is missing")?, first, count })
    }
}

/// A command that compares parts of the port, or a program, with the Rust.
pub struct Command {
    pub name: &'static str,
    /// The words behind its name.
    pub words: &'static str,
    /// What is held against what.
    pub sides: &'static str,
    /// What a case is.
    pub case: &'static str,
}

impl Command {
    /// Runs the comparison that these words ask for. `run` answers what was
    /// compared, or the first case that differs and how.
    pub fn execute(&self, words: Words, run: impl Fn(&Plan) -> Result<String, (u64, String)>) -> ExitCode {
        match Plan::read(words) {
            Ok(plan) => self.report(&plan, run),
            Err(error) => self.misused(&error),
        }
    }

    /// Says what is wrong with the words.
    pub fn misused(&self, error: &str) -> ExitCode {
        self.refuse(&format!("{error}\nusage: {} {}", self.name, self.words))
    }

    /// Says why nothing is compared.
    fn refuse(&self, reason: &str) -> ExitCode {
        eprintln!("{}: {reason}", self.name);
        ExitCode::from(2)
    }

    fn report(&self, plan: &Plan, run: impl Fn(&Plan) -> Result<String, (u64, String)>) -> ExitCode {
        let start = Instant::now();
        match run(plan) {
            Ok(tally) => {
                let seconds = start.elapsed().as_secs_f64();
                println!("equal: {}: {tally}; seed {}; {seconds:.1} s", self.sides, plan.seed);
                ExitCode::SUCCESS
            }
            Err((number, failure)) => {
                println!("{failure}\nnot equal: seed {}, {} {number}", plan.seed, self.case);
                ExitCode::FAILURE
            }
        }
    }
}
