//! Writes structural Verilog of a netlist. Stands outside the proof.

use std::process::ExitCode;

use export::{Style, cli, netlist_verilog};
use image::command;

const HELP: &str = "usage: netlist-to-verilog WORDS [--image IMAGE] [--step] -o FILE

Writes the netlist words of WORDS (see oracle lower) as a Verilog module
`netlist`. Ports, registers and memories have the names of the module image if
it is given, else s0, r0, m0 and so on.
--step brings clocks and asynchronous resets in on one more port `events`, so
that a bench can change all of them before the other inputs change.";

fn main() -> ExitCode {
    command::main("netlist-to-verilog", HELP, |words| match words {
        [netlist, "-o", target] => convert(netlist, None, Style::Plain, target),
        [netlist, "--step", "-o", target] => convert(netlist, None, Style::Step, target),
        [netlist, "--image", image, "-o", target] => {
            convert(netlist, Some(image), Style::Plain, target)
        }
        [netlist, "--image", image, "--step", "-o", target] => {
            convert(netlist, Some(image), Style::Step, target)
        }
        _ => Err(command::unknown("netlist-to-verilog")),
    })
}

fn convert(path: &str, image: Option<&str>, style: Style, target: &str) -> Result<String, String> {
    let (netlist, image) = cli::read_netlist(path, image)?;
    let verilog = netlist_verilog(&netlist, image.as_ref(), "netlist", style);
    command::write(
        target,
        verilog
            .map_err(|problem| format!("{path}: {problem}"))?
            .text
            .as_bytes(),
    )
}
