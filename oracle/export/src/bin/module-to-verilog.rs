//! Writes behavioural Verilog of a module image. Stands outside the proof.

use std::process::ExitCode;

use export::{Style, cli, module_verilog};
use image::command;

const HELP: &str = "usage: module-to-verilog IMAGE [--step] -o FILE

Writes the module of an image as a Verilog module `rtl`, each expression with
the operator of IEEE 1800. Assignments that no output, register or memory needs
are written as comments.
--step brings clocks and asynchronous resets in on one more port `events`, so
that a bench can change all of them before the other inputs change.";

fn main() -> ExitCode {
    command::main("module-to-verilog", HELP, |words| match words {
        [image, "-o", target] => convert(image, Style::Plain, target),
        [image, "--step", "-o", target] => convert(image, Style::Step, target),
        _ => Err(command::unknown("module-to-verilog")),
    })
}

fn convert(path: &str, style: Style, target: &str) -> Result<String, String> {
    let image = cli::read_image(path)?;
    let verilog =
        module_verilog(&image, "rtl", style).map_err(|problem| format!("{path}: {problem}"))?;
    command::write(target, verilog.text.as_bytes())
}
