//! Runs the outside witness on random images and on the corpus. Stands outside
//! the proof. `oracle/witness` builds and starts it.

use std::process::ExitCode;

use export::tools::is_installed;
use export::witness::{Counts, Effort, witness};
use image::{Image, Random, Size, bring_near_clash, corpus, deepest, generate, lower_depths};

const HELP: &str = "usage: witness [--images N] [--seed S] [--corpus] [--settings K] [--seconds T]

Holds module and netlist of random images (N, default 40, from seed S on,
default 1), and of the corpus, to tools that are not ours:
- Icarus Verilog runs both over K settings (default 16) from random contents;
  outputs, registers, read data and memory words must be those of our
  simulators after each setting. Where both ports of a memory write to one word,
  all must tell so; the next setting then starts a run from the contents before.
- Yosys proves both equal for all settings, with T seconds for each image
  (default 10). Registers and memories are opened for this: contents become
  inputs, what registers and memories take becomes outputs.
Exits with 1 at the first difference, with 2 where a tool is missing.";

const TOOLS: [&str; 3] = ["iverilog", "vvp", "yosys"];

struct Plan {
    images: u64,
    seed: u64,
    corpus: bool,
    effort: Effort,
}

fn main() -> ExitCode {
    std::panic::set_hook(Box::new(|_| {}));
    let words: Vec<String> = std::env::args().skip(1).collect();
    if words == ["--help"] || words == ["-h"] {
        println!("{HELP}");
        return ExitCode::SUCCESS;
    }
    let plan = match plan(&words) {
        Ok(plan) => plan,
        Err(problem) => return fail(&problem, 2),
    };
    let missing: Vec<&str> = TOOLS
        .into_iter()
        .filter(|tool| !is_installed(tool))
        .collect();
    if !missing.is_empty() {
        return fail(&format!("not installed: {}", missing.join(", ")), 2);
    }
    let mut counts = Counts::default();
    let result = driver::with_big_stack(|| run(&plan, &mut counts));
    print_counts(&counts);
    match result {
        Ok(()) => ExitCode::SUCCESS,
        Err(difference) => {
            println!("{difference}");
            fail("a difference", 1)
        }
    }
}

fn fail(problem: &str, code: u8) -> ExitCode {
    eprintln!("witness: {problem}");
    ExitCode::from(code)
}

fn plan(words: &[String]) -> Result<Plan, String> {
    let effort = Effort {
        settings: 16,
        proof_seconds: 10,
    };
    let mut plan = Plan {
        images: 40,
        seed: 1,
        corpus: false,
        effort,
    };
    let mut words = words.iter();
    while let Some(word) = words.next() {
        if word == "--corpus" {
            plan.corpus = true;
            continue;
        }
        let known = ["--images", "--seed", "--settings", "--seconds"].contains(&word.as_str());
        if !known {
            return Err(format!("unknown argument `{word}`; see witness --help"));
        }
        let number = words.next().and_then(|text| text.parse::<u64>().ok());
        let number = number.ok_or_else(|| format!("{word} needs a number"))?;
        match word.as_str() {
            "--images" => plan.images = number,
            "--seed" => plan.seed = number,
            "--settings" => plan.effort.settings = number.clamp(1, 1_000) as usize,
            _ => plan.effort.proof_seconds = number.clamp(1, 100) as u32,
        }
    }
    Ok(plan)
}

fn run(plan: &Plan, counts: &mut Counts) -> Result<(), String> {
    for seed in plan.seed..plan.seed + plan.images {
        let image = random_image(seed);
        let result = witness(&image, &mut Random::new(seed), plan.effort, counts);
        result.map_err(|difference| format!("seed {seed}: {difference}"))?;
    }
    if plan.corpus {
        for (name, image) in corpus()? {
            let result = witness(&image, &mut Random::new(plan.seed), plan.effort, counts);
            result.map_err(|difference| format!("{name}: {difference}"))?;
        }
    }
    Ok(())
}

/// Every second one has small memories, whose ports often write to one word.
fn random_image(seed: u64) -> Image {
    let mut image = generate(seed, size(seed));
    if seed.is_multiple_of(2) {
        lower_depths(&mut image);
        bring_near_clash(&mut image, &mut Random::new(seed));
    }
    image
}

/// Mostly small images.
fn size(seed: u64) -> Size {
    match seed % 8 {
        0 | 1 => Size::Tiny,
        7 => Size::Medium,
        _ => Size::Small,
    }
}

/// The corpus texts that are images at all, and the two deepest chains.
fn corpus() -> Result<Vec<(String, Image)>, String> {
    let texts = corpus::texts(&corpus::folder())?.into_iter();
    let images = texts.filter_map(|text| Some((text.name, Image::decode(&text.image)?)));
    let deepest = [
        ("deepest-32-1000".to_string(), deepest(32, 1_000)),
        ("deepest-128-250".to_string(), deepest(128, 250)),
    ];
    Ok(images.chain(deepest).collect())
}

fn print_counts(counts: &Counts) {
    println!("{} images", counts.images);
    println!("  {} refused", counts.refused);
    println!(
        "  {} with a clock or asynchronous reset that is no input, not simulated",
        counts.controls_not_inputs
    );
    println!(
        "  {} with too large memories, not simulated",
        counts.memory_too_large
    );
    println!(
        "Icarus: {} images ({} of them with changing contents), {} settings, {} write clashes",
        counts.simulated, counts.changing, counts.settings, counts.clashes
    );
    println!(
        "Yosys: {} equivalences, {} more with contents opened; {} too large or without outputs, {} out of time",
        counts.proved, counts.proved_opened, counts.proof_left_out, counts.proof_open
    );
}
