//! Benchmarks of the trace program beside the oracle's and beside Icarus Verilog, on
//! netlists about as large as it takes, and of its keeps and backs beside its lines. It
//! measures; it judges nothing.

use std::fs::File;
use std::io::Write;
use std::path::{Path, PathBuf};
use std::process::{Command, ExitCode, Stdio};
use std::time::Instant;

use compare::args::Words;
use compare::netlists::draft::Draft;
use compare::timing::least_of;
use compare::traces::heavy::HEAVY;
use compare::traces::limits::bytes;
use compare::traces::lines::Inputs;
use compare::traces::run::{Program, Tracer};
use driver::TraceProgram;
use export::tools::{Workplace, is_installed, simulate_benches};
use export::trace_bench::{Run, trace_bench};
use image::Random;
use image::netlist::Netlist;

const USAGE: &str = "bench-trace [--program PROGRAM] [--most LINES]
    Lines a second of the trace program, run as a process over a file: of 1,000 lines,
    ten times as many, and so on up to LINES (100,000). Beside it the oracle's
    trace program in this process, and vvp on the netlist as Verilog, where it is
    installed: 1,000 lines, without what it takes to compile. PROGRAM is
    TRACE_PROGRAM, or target/bin/trace. A process's time is from its start to its
    end, the least of three; the oracle's is processor time. Then the nanoseconds of
    a keep and of a back, by what one behind each of LINES lines adds to their time.";

/// Different lines; longer traces repeat them.
const LINES: usize = 1_000;

/// Netlists whose keeps and backs are timed: one without memory bits, one with as many
/// as there may be.
const KEPT: [&str; 2] = ["counters, 3 of 32 bits", "a memory of 1,024 words of 64 bits"];

struct Plan {
    program: PathBuf,
    most: usize,
}

fn main() -> ExitCode {
    match plan(Words::of_process()).and_then(|plan| bench(&plan).and_then(|()| bench_names(&plan))) {
        Ok(()) => ExitCode::SUCCESS,
        Err(problem) => {
            eprintln!("bench-trace: {problem}\n\n{USAGE}");
            ExitCode::FAILURE
        }
    }
}

fn plan(mut words: Words) -> Result<Plan, String> {
    let built = Path::new(env!("CARGO_MANIFEST_DIR")).join("../../target/bin/trace");
    let mut plan = Plan { program: std::env::var_os("TRACE_PROGRAM").map_or(built, PathBuf::from), most: 100_000 };
    while let Some(word) = words.next() {
        match word.as_str() {
            "--program" => plan.program = words.value("--program")?.into(),
            "--most" => plan.most = words.number("--most")? as usize,
            other => return Err(format!("unknown word {other:?}")),
        }
    }
    Ok(plan)
}

fn bench(plan: &Plan) -> Result<(), String> {
    let has_icarus = ["iverilog", "vvp"].into_iter().all(is_installed);
    let counts: Vec<usize> = std::iter::successors(Some(LINES), |count| Some(10 * count)).take_while(|count| *count <= plan.most).collect();
    let heads: String = counts.iter().map(|count| format!(" {count} lines |")).collect();
    println!(
        "| netlist | nets | list words | bits in, out |{heads} lines a second | million nets a second | \
         oracle, lines a second | program / oracle | vvp, lines a second | program / vvp |"
    );
    println!("|---|---|---|---|{}---|---|---|---|---|---|", "---|".repeat(counts.len()));
    for (name, draft) in HEAVY {
        let load = Load::new(&draft());
        load.is_run_by(&plan.program).map_err(|problem| format!("{name}: {problem}"))?;
        let seconds = counts.iter().map(|&count| load.program_seconds(&plan.program, count)).collect::<Result<Vec<f64>, _>>()?;
        let most = *counts.last().ok_or("--most is at least 1,000")?;
        let program = most as f64 / seconds[seconds.len() - 1];
        let oracle = LINES as f64 / load.oracle_seconds();
        let icarus = if has_icarus { Some(LINES as f64 / load.icarus_seconds()?) } else { None };
        let times: String = seconds.iter().map(|seconds| format!(" {} |", time(*seconds))).collect();
        let millions = program * load.nets() as f64 / 1e6;
        let beside = icarus.map_or("| - | - |".to_string(), |icarus| format!("| {icarus:.0} | {:.2} |", program / icarus));
        println!("| {name} | {} |{times} {program:.0} | {millions:.1} | {oracle:.0} | {:.3} {beside}", load.sizes(), program / oracle);
    }
    Ok(())
}

/// Keeps and backs: a line of a table for each netlist.
fn bench_names(plan: &Plan) -> Result<(), String> {
    println!("\n| netlist | register bits | memory bits | a line, ns | a keep, ns | a back, ns |");
    println!("|---|---|---|---|---|---|");
    let count = plan.most - plan.most % LINES;
    for (name, draft) in HEAVY.into_iter().filter(|(name, _)| KEPT.contains(name)) {
        let load = Load::new(&draft());
        let nanoseconds = |load: &Load| {
            load.is_run_by(&plan.program).map_err(|problem| format!("{name}: {problem}"))?;
            Ok::<_, String>(1e9 * load.program_seconds(&plan.program, count)? / count as f64)
        };
        let line = nanoseconds(&load)?;
        let [keep, back] = ["keep a\n", "back a\n"].map(|behind| nanoseconds(&load.with_behind_each(behind)));
        let words = load.netlist.memories.iter().map(|memory| memory.depth as usize * memory.ports[0].read_data.len());
        let (registers, memory) = (load.netlist.registers.len(), words.sum::<usize>());
        println!("| {name} | {registers} | {memory} | {line:.0} | {:.0} | {:.0} |", keep? - line, back? - line);
    }
    Ok(())
}

fn time(seconds: f64) -> String {
    match seconds {
        ..0.01 => format!("{:.2} ms", seconds * 1e3),
        ..10.0 => format!("{:.0} ms", seconds * 1e3),
        _ => format!("{seconds:.1} s"),
    }
}

/// A netlist and the lines of its traces.
struct Load {
    words: Vec<u32>,
    netlist: Netlist,
    lines: Vec<Vec<u8>>,
}

impl Load {
    fn new(draft: &Draft) -> Load {
        let words = draft.words();
        let netlist = Netlist::decode(&words).expect("a right netlist");
        let lines = Inputs::of(&netlist).busy_lines(&mut Random::new(1), LINES);
        Load { words, netlist, lines }
    }

    /// The same, with a keep behind the first line and then this line behind each.
    fn with_behind_each(&self, behind: &str) -> Load {
        let netlist = Netlist::decode(&self.words).expect("a right netlist");
        let mut lines: Vec<Vec<u8>> = self.lines.iter().map(|line| [line, behind.as_bytes()].concat()).collect();
        lines[0] = [&self.lines[0][..], b"keep a\n", behind.as_bytes()].concat();
        Load { words: self.words.clone(), netlist, lines }
    }

    fn nets(&self) -> usize {
        self.netlist.nodes.len()
    }

    fn sizes(&self) -> String {
        let bits = |input: bool| self.netlist.ports.iter().filter(|port| port.input == input).map(|port| port.nets.len()).sum::<usize>();
        format!("{} | {} | {}, {}", self.nets(), self.words[3], bits(true), bits(false))
    }

    /// The least of three runs over a file of so many lines.
    fn program_seconds(&self, program: &Path, count: usize) -> Result<f64, String> {
        let place = Workplace::new()?;
        let file = place.path().join("input");
        self.write(&file, count).map_err(|error| format!("{}: {error}", file.display()))?;
        let mut least = f64::INFINITY;
        for _ in 0..3 {
            least = least.min(timed(program, &file)?);
        }
        Ok(least)
    }

    fn write(&self, file: &Path, count: usize) -> std::io::Result<()> {
        let (mut file, lines) = (File::create(file)?, self.lines.concat());
        file.write_all(&bytes(&self.words, b""))?;
        (0..count / LINES).try_for_each(|_| file.write_all(&lines))
    }

    /// Whether the program prints what the oracle prints.
    fn is_run_by(&self, program: &Path) -> Result<(), String> {
        let input = bytes(&self.words, &self.lines.concat());
        match Program(program.to_path_buf()).trace(&input)? == driver::trace(&input) {
            true => Ok(()),
            false => Err("the program prints other lines than the oracle".to_string()),
        }
    }

    /// Parsing, running and printing in this process.
    fn oracle_seconds(&self) -> f64 {
        let (mut program, mut text) = (TraceProgram::default(), Vec::new());
        program.take(&bytes(&self.words, b""), &mut text);
        let lines = self.lines.concat();
        let nanoseconds = least_of(5, 1, || {
            text.clear();
            program.take(&lines, &mut text);
            text.len()
        });
        nanoseconds / 1e9
    }

    /// What a thousand lines take vvp beyond what one takes.
    fn icarus_seconds(&self) -> Result<f64, String> {
        let lines: Vec<String> = self.lines.iter().map(|line| String::from_utf8_lossy(line).trim_end().to_string()).collect();
        let seconds = |count: usize| {
            let bench = trace_bench(&[Run { netlist: &self.netlist, lines: &lines[..count] }])?;
            let place = Workplace::new()?;
            simulate_benches(&place, &bench.files, &bench.tops)?;
            (0..3).map(|_| run_again(&place)).try_fold(f64::INFINITY, |least, seconds| seconds.map(|seconds| least.min(seconds)))
        };
        Ok((seconds(LINES)? - seconds(1)?).max(1e-6))
    }
}

/// Seconds of the program from its start to its end.
fn timed(program: &Path, input: &Path) -> Result<f64, String> {
    let problem = |error: std::io::Error| format!("{}: {error}", program.display());
    let input = File::open(input).map_err(problem)?;
    let start = Instant::now();
    let status = Command::new(program).stdin(input).stdout(Stdio::null()).status().map_err(problem)?;
    let seconds = start.elapsed().as_secs_f64();
    if status.success() { Ok(seconds) } else { Err(format!("{}: {status}", program.display())) }
}

/// Seconds of vvp on what is compiled here.
fn run_again(place: &Workplace) -> Result<f64, String> {
    let start = Instant::now();
    let status = Command::new("vvp").args(["-n", "bench.vvp"]).current_dir(place.path()).stdin(Stdio::null()).stdout(Stdio::null()).status();
    let status = status.map_err(|error| format!("vvp: {error}"))?;
    if status.success() { Ok(start.elapsed().as_secs_f64()) } else { Err(format!("vvp: {status}")) }
}
