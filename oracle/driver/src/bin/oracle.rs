//! Command line of the oracle: lowers or lists one module image.

use std::process::ExitCode;

use driver::Answer;
use image::command;

const HELP: &str = "\
Runs struo's lowering on a module image.

oracle lower IMAGE N P [--observable]
    Prints the 16 + 6N + P words of the netlist image, one a line, or
    `refused` and three numbers. Both buffers are taken to be large enough.
    --observable sets resolve_observable_dependencies.
oracle lower IMAGE N P -o WORDS
    Writes these words to a file, four bytes each, low first. A refusal is
    told and nothing is written.
oracle list IMAGE
    Prints what the listing program prints.
oracle --help
    Prints this text.
";

fn main() -> ExitCode {
    // A panic is told in one line below.
    std::panic::set_hook(Box::new(|_| {}));
    command::main("oracle", HELP, |words| match words {
        ["lower", image, n, p] => Ok(printed(lower(image, n, p, false)?)),
        ["lower", image, n, p, "--observable"] => Ok(printed(lower(image, n, p, true)?)),
        ["lower", image, n, p, "-o", target] => written(image, lower(image, n, p, false)?, target),
        ["list", image] => list(image),
        _ => Err(command::unknown("oracle")),
    })
}

/// The words of the netlist image, or a refusal.
type Outcome = Result<Vec<u32>, [u32; 3]>;

fn lower(path: &str, n: &str, p: &str, observable: bool) -> Result<Outcome, String> {
    let (n, p) = (limit("N", n)?, limit("P", p)?);
    let image = command::read(path)?;
    let refusal = reference::check(&image, n, p, usize::MAX, usize::MAX);
    if refusal != [0; 3] {
        return Ok(Err(refusal));
    }
    match driver::lower_limited(&image, n, p, observable) {
        Answer::Refused(refusal) => Ok(Err(refusal)),
        Answer::Crash(text) => Err(format!("{path}: the lowering crashed: {text}")),
        netlist => Ok(Ok(driver::words(&netlist, n, p))),
    }
}

fn printed(outcome: Outcome) -> String {
    match outcome {
        Ok(words) => words.into_iter().map(|word| format!("{word}\n")).collect(),
        Err(refusal) => format!("{}\n", refused(refusal)),
    }
}

fn written(path: &str, outcome: Outcome, target: &str) -> Result<String, String> {
    let words = outcome.map_err(|refusal| format!("{path}: {}", refused(refusal)))?;
    let bytes: Vec<u8> = words.into_iter().flat_map(u32::to_le_bytes).collect();
    command::write(target, &bytes)
}

fn list(path: &str) -> Result<String, String> {
    let image = command::read(path)?;
    let listing = || driver::listing(&image, &reference::check);
    std::panic::catch_unwind(listing).map_err(|_| format!("{path}: the lowering crashed"))
}

fn refused([number, first, second]: [u32; 3]) -> String {
    format!("refused {number} {first} {second}")
}

fn limit(name: &str, text: &str) -> Result<u32, String> {
    text.parse()
        .map_err(|_| format!("{name} must be a number of 32 bits, not `{text}`"))
}
