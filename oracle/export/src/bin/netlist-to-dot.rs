//! Writes a picture of a netlist as graphviz text. Stands outside the proof.

use std::process::ExitCode;

use export::{cli, dot};
use image::command;

const HELP: &str = "usage: netlist-to-dot WORDS [--image IMAGE] -o FILE

Writes the netlist words of WORDS (see oracle lower) as a graph for dot:
inputs left, outputs right. Names come from the module image if it is given.";

fn main() -> ExitCode {
    command::main("netlist-to-dot", HELP, |words| match words {
        [netlist, "-o", target] => convert(netlist, None, target),
        [netlist, "--image", image, "-o", target] => convert(netlist, Some(image), target),
        _ => Err(command::unknown("netlist-to-dot")),
    })
}

fn convert(path: &str, image: Option<&str>, target: &str) -> Result<String, String> {
    let (netlist, image) = cli::read_netlist(path, image)?;
    let text =
        dot::dot(&netlist, image.as_ref()).map_err(|problem| format!("{path}: {problem}"))?;
    command::write(target, text.as_bytes())
}
