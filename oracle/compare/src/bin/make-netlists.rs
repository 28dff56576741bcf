//! Makes the stored runs of netlists taken back in, or describes them: what
//! `compare::netlists::stored` writes, as `stdin` and `stdout`.

use compare::args::parse_number;
use compare::netlists::stored::{describe, make, read, stdin, stdout};
use image::command;
use std::process::ExitCode;

const USAGE: &str = "usage: make-netlists SEED -o FOLDER
       make-netlists describe FOLDER";

fn main() -> ExitCode {
    command::main("make-netlists", USAGE, |words| driver::with_big_stack(|| execute(words)))
}

fn execute(words: &[&str]) -> Result<String, String> {
    match words {
        ["describe", folder] => {
            let slices = read(&command::read(&format!("{folder}/stdin"))?)?;
            let answers: String = slices.iter().map(|slice| stdout(&[(slice.clone(), reference::netlist_answer(slice))])).collect();
            match command::read(&format!("{folder}/stdout"))? == answers.as_bytes() {
                true => Ok(describe(&slices)),
                false => Err(format!("{folder}/stdout holds other answers")),
            }
        }
        [seed, "-o", folder] => {
            let entries = make(parse_number("SEED", seed)?);
            command::write(&format!("{folder}/stdin"), &stdin(&entries))?;
            command::write(&format!("{folder}/stdout"), stdout(&entries).as_bytes())?;
            Ok(describe(&entries.into_iter().map(|(slice, _)| slice).collect::<Vec<_>>()))
        }
        _ => Err(command::unknown("make-netlists")),
    }
}
