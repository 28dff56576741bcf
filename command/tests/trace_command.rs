//! The command trace as people meet it, where its program does not answer:
//! help, files that are no good, modules that are refused, other programs in the
//! program's place. examples/test-trace has its runs.

mod common;

use common::text;
use std::process::{Command, Output};

const CONTROLLER: &str = concat!(env!("CARGO_MANIFEST_DIR"), "/../corpus/controller.txt");

/// Runs the command with a program; the trace is on standard input.
fn run(program: &str, words: &[&str], stdin: &str) -> Output {
    common::run(Command::new(env!("CARGO_BIN_EXE_trace")).env("TRACE_PROGRAM", program).args(words), stdin.as_bytes())
}

/// The command is an error that begins so.
fn error(program: &str, words: &[&str], stdin: &str, told: &str) {
    let output = run(program, words, stdin);
    assert!(text(&output.stderr).starts_with(&format!("trace: {told}")), "{words:?}: {}", text(&output.stderr));
    assert_eq!((output.status.code(), text(&output.stdout)), (Some(2), ""), "{words:?}");
}

#[test]
fn help() {
    let output = run("false", &[CONTROLLER, "--help"], "");
    assert_eq!(output.status.code(), Some(0));
    assert_eq!(text(&output.stdout), include_str!("../help-trace.txt"));
}

#[test]
fn bad_command_lines_and_files() {
    error("false", &[CONTROLLER], "", "no trace is named; see ./trace --help\n");
    error("false", &["nowhere.txt", "-"], "", "nowhere.txt: No such file");
    error("false", &[CONTROLLER, "nowhere.trace"], "", "nowhere.trace: No such file");
    error("false", &[CONTROLLER, "nowhere.vcd"], "", "nowhere.vcd: No such file");
    error("false", &[CONTROLLER, "--from-vcd", "-"], "010000\n", "-: no VCD: it has no $enddefinitions\n");
    error("false", &[CONTROLLER, "-", "--vcd", "/nowhere/file"], "", "/nowhere/file: No such file");
    let own = format!("{CONTROLLER} is a module and has its own names: --names goes with a netlist\n");
    error("false", &[CONTROLLER, "-", "--names", CONTROLLER], "", &own);
}

#[test]
fn a_module_that_is_refused_needs_no_program() {
    let output = run("/nowhere/program", &["-", CONTROLLER], "output s 1\nassign s = not s\n");
    assert_eq!(text(&output.stdout), "refused 7 0 0: combinational loop through bit 0 of signal s\n");
    assert_eq!((output.status.code(), text(&output.stderr)), (Some(1), ""));
}

#[test]
fn other_programs() {
    let trace = "010000\n110000\n";
    let built = "it is the program trace, which ./trace builds\n";
    let output = run("/nowhere/program", &[CONTROLLER, "-"], trace);
    assert!(text(&output.stderr).starts_with("trace: /nowhere/program: No such file") && text(&output.stderr).ends_with(built));
    error("false", &[CONTROLLER, "-"], trace, "false: it ended with exit status: 1\n");
    error("cat", &[CONTROLLER, "-"], trace, "cat: it prints \"\\u{1}\\0\\0\\0");
    // It may be gone before or after the trace was sent.
    let output = run("true", &[CONTROLLER, "-"], trace);
    assert!(text(&output.stderr).contains("ended before"), "{}", text(&output.stderr));
    assert_eq!((output.status.code(), text(&output.stdout)), (Some(2), ""));
}
