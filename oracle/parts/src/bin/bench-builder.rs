//! Benchmarks of the port's netlist builder beside struo's `Netlist`, in one
//! run, on the same operations: time per operation and ratio. Before a row is
//! timed, the answers of both are compared.

use compare::args::{parse_number, Words};
use compare::parts::{BuildPlan, Parts};
use compare::timing::least_of;
use image::Random;
use parts::Library;
use std::collections::HashSet;
use std::hint::black_box;
use std::num::NonZeroU32;
use struo_ir::{NetId, Netlist};

const USAGE: &str = "bench-builder [repeat port|rust NETS LIMIT LOOKUPS]
    Times the builder of the port's library beside struo's Netlist.
    repeat   Makes NETS nets and looks for their gates, LOOKUPS times and at most
             1,000,000: for a counter of instructions. What is done before the
             first lookup does not depend on LOOKUPS. LIMIT is the port's N.";

const INPUT: u32 = 14;
const NOT: u32 = 1;
const MUX: u32 = 5;
const PORT_WIDTH: u32 = 1_024;
const MOST_NETS: u32 = 65_535;
/// Ten million lookups, in runs; the least time counts, since the machine may
/// be shared.
const LOOKUPS: usize = 50_000;
const RUNS: u64 = 200;
/// Lookups that one run may repeat.
const MOST_LOOKUPS: usize = 1_000_000;

fn main() {
    let mut words = Words::of_process();
    let done = match words.next().as_deref() {
        None => Ok(times()),
        Some("repeat") => repeat(&mut words),
        Some(_) => Err(USAGE.to_string()),
    };
    if let Err(text) = done {
        eprintln!("{text}");
        std::process::exit(2);
    }
}

fn times() {
    println!("{:<40} {:>6} {:>11} {:>11} {:>6} {:>6}", "operations", "N", "port ns/op", "Rust ns/op", "ratio", "steps");
    build_row("60,000 distinct gates", &distinct_gates(PORT_WIDTH, 60_000));
    build_row("mux tree on one select, 16,383 muxes", &mux_tree(14, false));
    build_row("the same on the select's inverse", &mux_tree(14, true));
    for nets in [1_000, 4_000, 16_000, 60_000] {
        lookup_rows(nets);
    }
}

/// Operations of the builder: an input port, or a gate.
type Operations = Vec<[u32; 5]>;

fn input_ports(bits: u32) -> Operations {
    let ports = (0..bits).step_by(PORT_WIDTH as usize);
    ports.map(|done| [INPUT, (bits - done).min(PORT_WIDTH) - 1, 0, 0, 0]).collect()
}

/// And, Or and Xor of different pairs of inputs.
fn distinct_gates(inputs: u32, count: usize) -> Operations {
    let mut operations = input_ports(inputs);
    let mut random = Random::new(1);
    let mut seen = HashSet::new();
    while seen.len() < count {
        let [a, b] = [0; 2].map(|_| random.range(0, inputs - 1));
        let gate = [random.range(2, 4), a.min(b), a.max(b), 0, 0];
        if a != b && seen.insert(gate) {
            operations.push(gate);
        }
    }
    operations
}

/// Muxes of the nets two by two, level by level, all on the last input, or on
/// its inverse.
fn mux_tree(levels: u32, inverse: bool) -> Operations {
    let leaves = 1 << levels;
    let mut operations = input_ports(leaves + 1);
    if inverse {
        operations.push([NOT, leaves, 0, 0, 0]);
    }
    let select = leaves + u32::from(inverse);
    let mut level: Vec<u32> = (0..leaves).collect();
    let mut next = select + 1;
    while level.len() > 1 {
        operations.extend(level.chunks(2).map(|pair| [MUX, select, pair[0], pair[1], 0]));
        level = (next..).take(level.len() / 2).collect();
        next += level.len() as u32;
    }
    operations
}

fn build_row(name: &str, operations: &Operations) {
    let count = operations.len();
    let mut port = Port::new(MOST_NETS, count);
    assert_eq!(port.run(operations, count), rust_run(operations), "{name}");
    let port_time = least_seconds(|| port.run(operations, count).len());
    let rust_time = least_seconds(|| rust_run(operations).len());
    row(name, MOST_NETS, port_time, rust_time, count);
    println!();
}

/// Operations that make so many nets, inputs and gates, and how many these are;
/// then the gates that are there, looked for in random order.
fn lookups(nets: usize, count: usize) -> (Operations, usize) {
    let inputs = PORT_WIDTH.min(nets as u32 / 2);
    let ports = input_ports(inputs).len();
    let mut operations = distinct_gates(inputs, nets - inputs as usize);
    let made = operations.len();
    let mut random = Random::new(2);
    for _ in 0..count {
        operations.push(operations[ports + random.below(made - ports)]);
    }
    (operations, made)
}

/// The port's call begins with an empty netlist: the time to make the gates is
/// taken off.
fn lookup_rows(nets: usize) {
    let (operations, made) = lookups(nets, LOOKUPS);
    let all = operations.len();
    let mut netlist = Netlist::new("t");
    rust_steps(&mut netlist, &operations[..made]);
    let rust_time = least_seconds(|| rust_steps(&mut netlist, &operations[made..]).len());
    for n in [MOST_NETS, nets as u32] {
        let mut port = Port::new(n, all);
        assert_eq!(port.run(&operations, all), rust_run(&operations));
        let mut time = |turns| least_seconds(|| port.run(&operations, turns).len());
        let port_time = time(all) - time(made);
        row(&format!("10 million lookups among {nets} nets"), n, port_time, rust_time, LOOKUPS);
        println!(" {:>6.2}", port.steps(made));
    }
}

fn repeat(words: &mut Words) -> Result<(), String> {
    let side = words.value("repeat")?;
    let mut number = |name, least: u64, most: u64| match parse_number(name, &words.value("repeat")?)? {
        number if (least..=most).contains(&number) => Ok(number as usize),
        number => Err(format!("{name} is {least} to {most}, not {number}")),
    };
    let nets = number("NETS", 10, u64::from(MOST_NETS))?;
    let limit = number("LIMIT", nets as u64, u64::from(MOST_NETS))?;
    let count = number("LOOKUPS", 0, MOST_LOOKUPS as u64)?;
    let (operations, made) = lookups(nets, MOST_LOOKUPS);
    match side.as_str() {
        "port" => drop(black_box(Port::new(limit as u32, operations.len()).run(&operations, made + count))),
        "rust" => drop(black_box(rust_run(&operations[..made + count]))),
        _ => return Err(USAGE.to_string()),
    }
    Ok(())
}

/// Begins a line.
fn row(name: &str, n: u32, port: f64, rust: f64, operations: usize) {
    let each = 1e9 / operations as f64;
    print!("{name:<40} {n:>6} {:>11.1} {:>11.1} {:>6.2}", port * each, rust * each, port / rust);
}

/// The least time of all runs.
fn least_seconds<T>(run: impl FnMut() -> T) -> f64 {
    least_of(RUNS, 1, run) / 1e9
}

/// The buffers that the port's builder is lent.
struct Port {
    n: u32,
    netlist: Vec<u32>,
    index: Vec<u32>,
    answers: Vec<u32>,
}

impl Port {
    fn new(n: u32, operations: usize) -> Self {
        let nets = n as usize;
        Port { n, netlist: vec![0; 16 + 6 * nets + 65_535], index: vec![0; 4 * nets], answers: vec![0; operations] }
    }

    fn run(&mut self, operations: &Operations, turns: usize) -> &[u32] {
        let plan = BuildPlan { n: self.n, operations, turns, pool: &[] };
        let end = Library.build(&plan, &mut self.netlist, &mut self.index, &mut self.answers);
        assert_eq!(end, [0, 0]);
        &self.answers
    }

    /// How many gates the index has a lookup compare, on average over the
    /// answers from a place on.
    fn steps(&self, from: usize) -> f64 {
        let (heads, next) = self.index.split_at(self.n as usize);
        let mut steps = vec![0; self.n as usize];
        for &head in heads {
            let (mut place, mut step) = (head as usize, 1);
            while place > 0 {
                steps[place - 1] = step;
                (place, step) = (next[place - 1] as usize, step + 1);
            }
        }
        let lookups = &self.answers[from..];
        let total: u64 = lookups.iter().map(|&net| steps[net as usize]).sum();
        total as f64 / lookups.len() as f64
    }
}

/// The same operations, with their words taken in the same way.
fn rust_run(operations: &[[u32; 5]]) -> Vec<u32> {
    rust_steps(&mut Netlist::new("t"), operations)
}

fn rust_steps(netlist: &mut Netlist, operations: &[[u32; 5]]) -> Vec<u32> {
    operations.iter().map(|operation| rust_step(netlist, operation).index()).collect()
}

fn rust_step(netlist: &mut Netlist, &[code, a, b, c, _]: &[u32; 5]) -> NetId {
    if code == INPUT {
        let name = format!("p{}", netlist.ports().len());
        let width = NonZeroU32::new(1 + a % PORT_WIDTH).expect("a width is not 0");
        return netlist.add_input_port(name, width)[0];
    }
    let nodes = netlist.nodes();
    let [a, b, c] = [a, b, c].map(|word| nodes[word as usize % nodes.len()].output());
    match code {
        NOT => netlist.add_not(a),
        2 => netlist.add_and(a, b),
        3 => netlist.add_or(a, b),
        4 => netlist.add_xor(a, b),
        _ => netlist.add_mux(a, b, c),
    }
}
