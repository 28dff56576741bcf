//! Holds images to outside tools: Icarus runs module and netlist and must show
//! what our simulators show; Yosys proves both equal for all settings.

use image::netlist::Netlist;
use driver::{Answer, ModuleSim, NetlistSim, NoRun, Observation, Run, lower, words};
use image::memory_field::{DEPTH, WORD_WIDTH};
use image::{Image, MEMORY_FIELDS, MOST_LIMIT, Random, disassemble, kind};

use crate::bench::bench;
use crate::opened::opened;
use crate::tools::{Proof, Workplace, prove_equal, simulate};
use crate::verilog::{Style, Verilog};
use crate::{module_verilog, netlist_verilog};

/// Memories with more bits than this are left out: their contents are shown
/// and kept bit by bit.
const MOST_MEMORY_BITS: usize = 1 << 20;
/// Larger netlists and wider multipliers are not given to the prover.
const MOST_PROOF_NETS: usize = 6_000;
const MOST_PROOF_FACTOR: u32 = 64;

/// What came of the images so far.
#[derive(Default, Debug)]
pub struct Counts {
    pub images: usize,
    pub refused: usize,
    pub controls_not_inputs: usize,
    pub memory_too_large: usize,
    pub simulated: usize,
    /// Of those, the ones whose contents changed in the run.
    pub changing: usize,
    pub settings: usize,
    /// Steps without a defined end; the next setting starts a run anew.
    pub clashes: usize,
    pub proved: usize,
    pub proved_opened: usize,
    pub proof_left_out: usize,
    pub proof_open: usize,
}

/// How much is done for each image.
#[derive(Clone, Copy)]
pub struct Effort {
    pub settings: usize,
    pub proof_seconds: u32,
}

/// Holds one image to both tools; an error is a difference with its image.
pub fn witness(
    image: &Image,
    random: &mut Random,
    effort: Effort,
    counts: &mut Counts,
) -> Result<(), String> {
    counts.images += 1;
    let told = |difference: String| format!("{difference}\nthe image:\n{}", disassemble(image));
    let Some(words) = netlist_words(image).map_err(told)? else {
        counts.refused += 1;
        return Ok(());
    };
    witness_run(image, &words, random, effort.settings, counts).map_err(told)?;
    witness_proof(image, effort.proof_seconds, counts).map_err(told)
}

/// The netlist's words, or nothing where the image is refused.
fn netlist_words(image: &Image) -> Result<Option<Vec<u32>>, String> {
    let bytes = image.encode();
    if reference::check(&bytes, MOST_LIMIT, MOST_LIMIT, usize::MAX, usize::MAX) != reference::FINE {
        return Ok(None);
    }
    let answer = lower(&bytes, false);
    match &answer {
        Answer::Refused(_) => Ok(None),
        Answer::Crash(text) => Err(format!("the lowering crashed: {text}")),
        Answer::Netlist { nodes, records } => {
            let most = MOST_LIMIT as usize;
            let fits = nodes.len() <= most && records.iter().map(Vec::len).sum::<usize>() <= most;
            Ok(fits.then(|| words(&answer, MOST_LIMIT, MOST_LIMIT)))
        }
    }
}

fn witness_run(
    image: &Image,
    words: &[u32],
    random: &mut Random,
    settings: usize,
    counts: &mut Counts,
) -> Result<(), String> {
    if memory_bits(image) > MOST_MEMORY_BITS {
        counts.memory_too_large += 1;
        return Ok(());
    }
    let Some(runs) = our_runs(image, words, random, settings)? else {
        counts.controls_not_inputs += 1;
        return Ok(());
    };
    let [rtl, netlist] = both(image, words, Style::Step)?;
    let [in_module, in_netlist] = [&rtl, &netlist].map(|verilog| &verilog.event_port.events);
    if in_module != in_netlist {
        return Err(format!(
            "the module has events {in_module:?}, the netlist {in_netlist:?}"
        ));
    }
    for run in &runs {
        let bench = bench(image, [&rtl, &netlist], run);
        let mut place = Workplace::new()?;
        let printed = simulate(&place, &rtl.text, &netlist.text, &bench);
        let agreed = printed.and_then(|printed| compare(&printed, &bench.expected));
        agreed.map_err(|difference| kept(&mut place, &difference))?;
    }
    counts.simulated += 1;
    counts.settings += settings;
    counts.clashes += runs.len() - 1;
    let changes = |seen: &Observation| seen.contents != runs[0].first;
    counts.changing += usize::from(runs.iter().flat_map(|run| &run.seen.observations).any(changes));
    Ok(())
}

fn memory_bits(image: &Image) -> usize {
    let bits =
        |memory: &[u32; MEMORY_FIELDS]| memory[DEPTH] as usize * memory[WORD_WIDTH] as usize;
    image.memories.iter().map(bits).sum()
}

/// The Verilog of module and netlist.
fn both(image: &Image, words: &[u32], style: Style) -> Result<[Verilog; 2], String> {
    let netlist =
        Netlist::decode(words).map_err(|problem| format!("the words are no netlist: {problem}"))?;
    let rtl = module_verilog(image, "rtl", style)?;
    Ok([
        rtl,
        netlist_verilog(&netlist, Some(image), "netlist", style)?,
    ])
}

/// Files stay where something differs.
fn kept(place: &mut Workplace, difference: &str) -> String {
    place.keep();
    format!("{difference}\nfiles: {}", place.path().display())
}

/// Runs over random settings by both our simulators, up to a write clash and on behind
/// it; nothing where a clock is no input.
fn our_runs(
    image: &Image,
    words: &[u32],
    random: &mut Random,
    count: usize,
) -> Result<Option<Vec<Run>>, String> {
    let module = ModuleSim::new(&image.encode())?;
    let mut first = module.zero_contents();
    first.randomise(random);
    let settings = module.random_settings(count, random);
    let runs = match module.runs(&first, &settings) {
        Err(NoRun::ControlNotInput) => return Ok(None),
        runs => runs.map_err(|problem| format!("no run of the module: {problem:?}"))?,
    };
    let netlist = NetlistSim::new(words);
    if runs.iter().any(|run| netlist.run(&run.first, &run.settings).as_ref() != Ok(&run.seen)) {
        return Err("our two simulators differ".to_string());
    }
    Ok(Some(runs))
}

/// The first line in which they differ, if there is one.
fn compare(printed: &str, expected: &str) -> Result<(), String> {
    if printed == expected {
        return Ok(());
    }
    let (mut ours, mut theirs) = (expected.lines(), printed.lines());
    for line in 1.. {
        let (our, their) = (ours.next(), theirs.next());
        if our != their {
            let shown = |line: Option<&str>| line.unwrap_or("nothing").to_string();
            return Err(format!(
                "line {line}: ours `{}`, Icarus `{}`",
                shown(our),
                shown(their)
            ));
        }
    }
    unreachable!("texts that differ do so in a line")
}

fn witness_proof(image: &Image, seconds: u32, counts: &mut Counts) -> Result<(), String> {
    let sequential = !image.registers.is_empty() || !image.memories.is_empty();
    let image = &if sequential {
        opened(image)
    } else {
        image.clone()
    };
    let words = match netlist_words(image)? {
        Some(words) if is_small(image, &words) => words,
        _ => {
            counts.proof_left_out += 1;
            return Ok(());
        }
    };
    let [rtl, netlist] = both(image, &words, Style::Plain)?;
    let mut place = Workplace::new()?;
    let proof = prove_equal(&place, &rtl.text, &netlist.text, seconds);
    match proof.map_err(|difference| kept(&mut place, &difference))? {
        Proof::Open => counts.proof_open += 1,
        Proof::Equal if sequential => counts.proved_opened += 1,
        Proof::Equal => counts.proved += 1,
    }
    Ok(())
}

/// Small enough for the prover, and with an output.
fn is_small(image: &Image, words: &[u32]) -> bool {
    let is_wide_product =
        |e: &[u32; 5]| e[0] == kind::BINARY && e[2] == 5 && e[1] > MOST_PROOF_FACTOR;
    words[1] as usize <= MOST_PROOF_NETS
        && !image.expressions.iter().any(is_wide_product)
        && image.signals.iter().any(|signal| signal[3] == 2)
}
