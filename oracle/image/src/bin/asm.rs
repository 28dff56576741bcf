//! asm: turns a text description into a module image.

use image::command;
use std::process::ExitCode;

const HELP: &str = "usage: asm TEXT -o IMAGE

Reads the text form of a module image (corpus/README.md describes it) and
writes its bytes. TEXT may be - for standard input. A text with a mistake is
answered with the number of its line, and nothing is written.";

fn main() -> ExitCode {
    command::main("asm", HELP, |words| match words {
        [text, "-o", target] | ["-o", target, text] => run(text, target),
        _ => Err(command::unknown("asm")),
    })
}

fn run(source: &str, target: &str) -> Result<String, String> {
    let text = String::from_utf8(command::read(source)?).map_err(|error| format!("{source}: {error}"))?;
    let bytes = image::assemble(&text).map_err(|error| format!("{source}: {error}"))?;
    command::write(target, &bytes)
}
