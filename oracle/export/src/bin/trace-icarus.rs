//! Runs netlists over traces by Icarus Verilog, by the oracle's trace program and, where
//! TRACE_PROGRAM names it, by the port's. Stands outside the proof.
//! `oracle/run-trace-icarus` builds and starts it.

use std::process::ExitCode;
use std::time::Instant;

use compare::args::Words;
use compare::plan::Plan;
use compare::traces::run::{Program, Tracer};
use compare::traces::variants::{FAULTS, Fault, Variant};
use export::tools::is_installed;
use export::traces::{Traced, first_difference, icarus, traced};

const HELP: &str = "usage: trace-icarus --seed S --count TRACES [--first I]
       trace-icarus --self-test

Writes netlists (lowered, and made by hand) as Verilog, has Icarus Verilog run
them over traces, many in one simulation, and compares the output bits after each
line with the oracle's trace program, and with the program that the variable
TRACE_PROGRAM names, if it does. Where both ports of a memory write to one word, the
Verilog tells line and memory, which must be the programs'. A trace with keeps and
backs is simulated once for each run that it stands for. With --self-test, rules
of the step and of values read wrongly on purpose must each differ from Icarus. Exits
with 1 at the first difference, with 2 where a tool is missing.";

/// Traces in one simulation.
const TOGETHER: usize = 40;
/// Traces that the self-test looks at.
const SELF_TEST: usize = 800;

fn main() -> ExitCode {
    let words: Vec<String> = std::env::args().skip(1).collect();
    if words == ["--help"] || words == ["-h"] {
        println!("{HELP}");
        return ExitCode::SUCCESS;
    }
    if !["iverilog", "vvp"].into_iter().all(is_installed) {
        return fail("not installed: iverilog, vvp", 2);
    }
    let result = driver::with_big_stack(|| {
        if words == ["--self-test"] {
            return self_test();
        }
        let plan = Plan::read(Words::new(words)).map_err(|problem| (problem, 2))?;
        run(&plan).map_err(|difference| (difference, 1))
    });
    match result {
        Ok(text) => {
            println!("{text}");
            ExitCode::SUCCESS
        }
        Err((problem, code)) => fail(&problem, code),
    }
}

fn fail(problem: &str, code: u8) -> ExitCode {
    eprintln!("trace-icarus: {problem}");
    ExitCode::from(code)
}

/// The first difference of a trace: Icarus and the oracle, then the program and Icarus.
fn differs(traced: &Traced, theirs: &str, program: Option<&Program>) -> Result<Option<String>, String> {
    let oracle = first_difference(&traced.text, theirs);
    if oracle.is_some() {
        return Ok(oracle);
    }
    let Some(program) = program else { return Ok(None) };
    let text = program.trace(&traced.input)?;
    Ok(first_difference(&String::from_utf8_lossy(&text), theirs).map(|difference| format!("the program: {difference}")))
}

fn run(plan: &Plan) -> Result<String, String> {
    let start = Instant::now();
    let program = std::env::var_os("TRACE_PROGRAM").map(|path| Program(path.into()));
    let (mut next, mut left) = (plan.first, plan.count as usize);
    let (mut lines, mut nets, mut stored, mut clashes, mut backs) = (0, 0, 0, 0, 0);
    while left > 0 {
        let batch = traced(plan.seed, next, left.min(TOGETHER));
        for (traced, theirs) in batch.iter().zip(icarus(&batch)?) {
            if let Some(difference) = differs(traced, &theirs, program.as_ref())? {
                return Err(format!("seed {}, trace {}: {difference}", plan.seed, traced.number));
            }
            lines += traced.text.lines().count();
            clashes += usize::from(traced.is_clash());
            backs += traced.endings.len() - 1;
            nets += traced.netlist.nodes.len();
            stored += usize::from(!traced.netlist.registers.is_empty() || !traced.netlist.memories.is_empty());
        }
        left -= batch.len();
        next = batch.last().map_or(next, |traced| traced.number + 1);
    }
    let (count, seconds) = (plan.count, start.elapsed().as_secs_f64());
    let port = if program.is_some() { ", the trace program" } else { "" };
    Ok(format!(
        "equal: Icarus{port}, and the oracle's trace program: {count} traces, {stored} of them with registers or memories, \
         {clashes} of them up to a write clash, {backs} backs, {lines} lines, {nets} nets; seed {}; {seconds:.1} s",
        plan.seed
    ))
}

/// Each fault of the step or of values shows in some trace.
fn self_test() -> Result<String, (String, u8)> {
    let batch = traced(1, 0, SELF_TEST);
    let theirs = icarus(&batch).map_err(|problem| (problem, 1))?;
    let first = FAULTS.iter().position(|fault| *fault == Fault::BySignal).expect("a fault of the list");
    for fault in &FAULTS[first..] {
        let differs = |(traced, theirs): (&Traced, &String)| {
            let ours = Variant(Some(*fault)).trace(&traced.input).expect("a text");
            first_difference(&String::from_utf8_lossy(&ours), theirs)
        };
        match batch.iter().zip(&theirs).find_map(differs) {
            Some(_) => println!("self-test: {fault:?} found"),
            None => return Err((format!("self-test: {fault:?} NOT FOUND"), 1)),
        }
    }
    match batch.iter().zip(&theirs).find_map(|(traced, theirs)| first_difference(&traced.text, theirs)) {
        None => Ok("self-test: all faults found, and without fault it passes".to_string()),
        Some(difference) => Err((format!("self-test: without fault it is BLAMED: {difference}"), 1)),
    }
}
