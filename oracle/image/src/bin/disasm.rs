//! disasm: prints a module image in its text form.

use image::command;
use std::process::ExitCode;

const HELP: &str = "usage: disasm IMAGE

Prints the text form of a module image, which asm turns back into the same
bytes. IMAGE may be - for standard input. Only images whose header lays out
all sections rightly have a text form; any record is fine.";

fn main() -> ExitCode {
    command::main("disasm", HELP, |words| match words {
        [source] => run(source),
        _ => Err(command::unknown("disasm")),
    })
}

fn run(source: &str) -> Result<String, String> {
    let image = image::Image::decode(&command::read(source)?);
    let image = image.ok_or(format!("{source}: the header does not lay out an image"))?;
    Ok(image::disassemble(&image))
}
