//! Compares the port's range analysis and fusion test with struo's own, on
//! random expression tables.

use compare::args::Words;
use compare::plan::Command;
use compare::tables::run;
use parts::Library;
use std::process::ExitCode;

const COMMAND: Command = Command {
    name: "compare-ranges",
    words: "--seed S --count TABLES [--first I]",
    sides: "ranges and fusion of the library, and struo's with the rows of Or and Xor",
    case: "table",
};

fn main() -> ExitCode {
    COMMAND.execute(Words::of_process(), |plan| match driver::with_big_stack(|| run(&Library, plan)) {
        Ok(tally) => Ok(tally.to_string()),
        Err(failure) => Err((failure.number, failure.to_string())),
    })
}
