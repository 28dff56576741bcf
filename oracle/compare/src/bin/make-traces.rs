//! Makes the stored runs of the trace program, or describes them: what
//! `compare::traces::stored` writes, as `stdin` and `stdout`. Also the run of the
//! controller, whose files are the program's own input and output. The folders are
//! crates/trace_runs and crates/trace.

use compare::args::parse_number;
use compare::traces::stored::{controller, describe, make, read, stdin, stdout};
use image::command;
use std::process::ExitCode;

const USAGE: &str = "usage: make-traces SEED -o FOLDER
       make-traces controller TEXT -o FOLDER
       make-traces describe FOLDER";

fn main() -> ExitCode {
    command::main("make-traces", USAGE, |words| driver::with_big_stack(|| execute(words)))
}

fn execute(words: &[&str]) -> Result<String, String> {
    match words {
        ["describe", folder] => {
            let inputs = read(&command::read(&format!("{folder}/stdin"))?)?;
            match command::read(&format!("{folder}/stdout"))? == stdout(&inputs) {
                true => Ok(describe(&inputs)),
                false => Err(format!("{folder}/stdout holds other texts")),
            }
        }
        ["controller", text, "-o", folder] => {
            let source = String::from_utf8(command::read(text)?).map_err(|error| format!("{text}: {error}"))?;
            let image = image::assemble(&source).map_err(|error| format!("{text}: {error}"))?;
            let input = controller(&image).ok_or_else(|| format!("{text} is refused"))?;
            command::write(&format!("{folder}/stdin"), &input)?;
            command::write(&format!("{folder}/stdout"), &driver::trace(&input))
        }
        [seed, "-o", folder] => {
            let inputs = make(parse_number("SEED", seed)?);
            command::write(&format!("{folder}/stdin"), &stdin(&inputs))?;
            command::write(&format!("{folder}/stdout"), &stdout(&inputs))?;
            Ok(describe(&inputs))
        }
        _ => Err(command::unknown("make-traces")),
    }
}
