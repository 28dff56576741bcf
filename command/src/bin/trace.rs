//! `trace FILE TRACE`: see `--help`. The script ./trace builds and starts it.

use command::shell::{on_deep_stack, print, status};
use command::trace::arguments::{FromVcd, HELP, Request, Source, Wish, request};
use command::trace::given::{Given, Refused, given_in};
use command::trace::records::wished;
use command::trace::refusal::in_words;
use command::trace::running::{End, Trace, program, run};
use command::trace::vcd::reading::VcdTrace;
use command::{ACCEPTED, Answer};
use std::fs::File;
use std::io::{BufReader, Read, empty, stdin};
use std::process::ExitCode;

fn main() -> ExitCode {
    let words: Vec<String> = std::env::args().skip(1).collect();
    let ended = match request(&words) {
        Ok(Request::Help) => print(HELP).map(|()| ACCEPTED),
        Ok(Request::Run(wish)) => on_deep_stack(|| run_over(&wish)),
        Err(problem) => Err(format!("{problem}; see ./trace --help")),
    };
    status("trace", ended)
}

fn run_over(wish: &Wish) -> Result<Answer, String> {
    let given = match given_in(&wish.file, wish.names.as_deref())? {
        Ok(given) => given,
        Err(Refused(answer, words)) => return print(&words).map(|()| answer),
    };
    let trace = trace_of(wish, &given)?;
    let written = given.ports.as_ref().map_or(Ok(Vec::new()), |ports| wished(wish, ports))?;
    match run(&program(), &given, trace, written)? {
        End::Answered => Ok(ACCEPTED),
        End::Refused(answer, stopped) => print(&in_words(answer, &given, &stopped)).map(|()| answer),
    }
}

/// The trace that a wish names. A netlist that is refused has none: where it is
/// too short, the trace's bytes would be taken for its words.
fn trace_of(wish: &Wish, given: &Given) -> Result<Trace, String> {
    let (Source::Lines(file) | Source::Vcd(FromVcd { file, .. })) = &wish.trace;
    let told = |problem: String| format!("{file}: {problem}");
    let from: Box<dyn Read + Send> = match (&wish.trace, &given.ports) {
        (_, None) => Box::new(empty()),
        (Source::Lines(file), _) => opened(file)?,
        (Source::Vcd(vcd), Some(ports)) => Box::new(VcdTrace::new(BufReader::new(opened(file)?), vcd, &ports.inputs).map_err(told)?),
    };
    Ok(Trace { file: file.clone(), from })
}

/// A file, or standard input.
fn opened(file: &str) -> Result<Box<dyn Read + Send>, String> {
    if file == "-" {
        return Ok(Box::new(stdin()));
    }
    let file_opened = File::open(file).map_err(|error| format!("{file}: {error}"))?;
    Ok(Box::new(file_opened))
}
