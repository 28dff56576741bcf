//! Holds the oracle's trace program to Icarus Verilog: netlists lowered and made by
//! hand are written as Verilog and run over traces; the lines must be the oracle's, and
//! so must be line and memory of a write clash. A trace with keeps and backs is run as
//! the plain traces that it stands for, each from its start.

use compare::traces::cases::right;
use compare::traces::clashes;
use compare::traces::limits::bytes;
use compare::traces::names::{Ending, endings, joined, with_names};
use image::Random;
use image::netlist::Netlist;

use crate::tools::{Workplace, simulate_benches};
use crate::trace_bench::{Run, trace_bench};

/// A netlist that the trace program takes, and a trace.
pub struct Traced {
    pub number: u64,
    pub netlist: Netlist,
    /// The plain traces that it stands for; one, if it has no back.
    pub endings: Vec<Ending>,
    /// The trace program's input.
    pub input: Vec<u8>,
    /// What the oracle prints.
    pub text: String,
}

impl Traced {
    /// Whether both ports of a memory write to one word.
    pub fn is_clash(&self) -> bool {
        self.text.contains("refused 14 ")
    }
}

/// Traces that stand for more plain ones are run without their keeps and backs.
const MOST_ENDINGS: usize = 5;

/// The next so many that the trace program runs to the end or to a write clash, from
/// this number on.
pub fn traced(seed: u64, first: u64, count: usize) -> Vec<Traced> {
    (first..).filter_map(|number| one(seed, number)).take(count).collect()
}

fn one(seed: u64, number: u64) -> Option<Traced> {
    let random = &mut Random::of_case(seed, number);
    let (words, lines) = match number % 5 {
        0 => clashes::right(random),
        1 | 2 => right(random, true),
        _ => right(random, false),
    };
    let named = with_names(random, lines.clone());
    let has_names = number % 7 < 3 && endings(&named).len() <= MOST_ENDINGS;
    let lines = if has_names { named } else { lines };
    let input = bytes(&words, &lines.concat());
    let text = String::from_utf8(driver::trace(&input)).expect("a text");
    let netlist = Netlist::decode(&words).expect("a right netlist");
    let traced = Traced { number, netlist, endings: endings(&lines), input, text };
    (!traced.text.contains("refused") || traced.is_clash()).then_some(traced)
}

fn runs(traced: &Traced) -> impl Iterator<Item = Run<'_>> {
    traced.endings.iter().map(|ending| Run { netlist: &traced.netlist, lines: &ending.lines })
}

/// What Icarus prints for each of them, run together.
///
/// # Errors
///
/// Says what the tools complain of; their files stay.
pub fn icarus(traced: &[Traced]) -> Result<Vec<String>, String> {
    let runs: Vec<Run> = traced.iter().flat_map(runs).collect();
    let bench = trace_bench(&runs)?;
    let mut place = Workplace::new()?;
    let printed = simulate_benches(&place, &bench.files, &bench.tops).map_err(|problem| {
        place.keep();
        format!("{problem}\nfiles: {}", place.path().display())
    })?;
    let mut texts = vec![String::new(); runs.len()];
    for line in printed.lines() {
        let (number, bits) = line.split_once(' ').ok_or_else(|| format!("Icarus prints {line:?}"))?;
        let number: usize = number.parse().map_err(|_| format!("Icarus prints {line:?}"))?;
        texts[number] += &format!("{bits}\n");
    }
    let mut texts = &texts[..];
    let whole = |traced: &Traced| joined(&traced.endings, texts.split_off(..traced.endings.len()).expect("a text of each ending"));
    Ok(traced.iter().map(whole).collect())
}

/// The first line in which two texts differ, from 0.
pub fn first_difference(ours: &str, theirs: &str) -> Option<String> {
    if ours == theirs {
        return None;
    }
    let number = ours.lines().zip(theirs.lines()).take_while(|(ours, theirs)| ours == theirs).count();
    let line = |text: &str| text.lines().nth(number).unwrap_or("nothing").to_string();
    Some(format!("line {number}: ours `{}`, Icarus `{}`", line(ours), line(theirs)))
}
