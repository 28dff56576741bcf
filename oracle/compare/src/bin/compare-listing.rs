//! Compares what the listing program prints with the oracle's listing, on inputs
//! at and near the program's limits, border cases, random and damaged images.

use compare::args::Words;
use compare::listings::{run, Program};
use compare::plan::Command;
use std::process::ExitCode;

const COMMAND: Command = Command {
    name: "compare-listing",
    words: "PROGRAM --seed S --count INPUTS [--first I]",
    sides: "the listing program, and the oracle's listing",
    case: "input",
};

fn main() -> ExitCode {
    let mut words = Words::of_process();
    let Some(program) = words.next() else {
        return COMMAND.misused("no program");
    };
    let program = Program(program.into());
    COMMAND.execute(words, |plan| match driver::with_big_stack(|| run(&program, plan)) {
        Ok(listed) => Ok(listed.to_string()),
        Err(failure) => Err((failure.number, failure.to_string())),
    })
}
