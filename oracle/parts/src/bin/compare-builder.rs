//! Compares the port's netlist builder with struo's own, on random sequences of
//! operations under exact and short limits.

use compare::args::Words;
use compare::builds::run;
use compare::plan::Command;
use parts::Library;
use std::process::ExitCode;

const COMMAND: Command = Command {
    name: "compare-builder",
    words: "--seed S --count OPERATIONS [--first I]",
    sides: "the library's builder, and struo's",
    case: "sequence",
};

fn main() -> ExitCode {
    COMMAND.execute(Words::of_process(), |plan| match run(&Library, plan) {
        Ok(tally) => Ok(tally.to_string()),
        Err(failure) => Err((failure.number, failure.to_string())),
    })
}
