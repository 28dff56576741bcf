//! Compares the library's calls with both readings of the checks and struo's
//! lowering, on many images and limits.

use calls::Library;
use compare::args::Words;
use compare::call::What;
use compare::cases::SizeChoice;
use compare::run::{run, Plan};
use compare::selftest::self_test;
use std::process::ExitCode;
use std::time::Instant;

const USAGE: &str = "usage: compare --images N --seed S [--what check|lower] [--size tiny|small|medium|large|mixed] [--first I]
       compare --self-test [--seed S]";

/// Images that the self-test looks at for each fault.
const SELF_TEST_IMAGES: u64 = 4_000;

enum Command {
    Compare(Vec<What>, Plan),
    SelfTest(Plan),
}

fn main() -> ExitCode {
    match command(Words::of_process()) {
        Ok(command) => driver::with_big_stack(|| execute(command)),
        Err(error) => {
            eprintln!("compare: {error}\n{USAGE}");
            ExitCode::from(2)
        }
    }
}

fn command(mut words: Words) -> Result<Command, String> {
    let (mut images, mut seed, mut first) = (None, None, 0);
    let (mut size, mut what, mut is_self_test) = (SizeChoice::Mixed, vec![What::Check, What::Lower], false);
    while let Some(word) = words.next() {
        match word.as_str() {
            "--images" => images = Some(words.number("--images")?),
            "--seed" => seed = Some(words.number("--seed")?),
            "--first" => first = words.number("--first")?,
            "--what" => what = vec![parse_what(&words.value("--what")?)?],
            "--size" => size = parse_size(&words.value("--size")?)?,
            "--self-test" => is_self_test = true,
            other => return Err(format!("unknown word {other:?}")),
        }
    }
    if is_self_test {
        let images = images.unwrap_or(SELF_TEST_IMAGES);
        return Ok(Command::SelfTest(Plan { seed: seed.unwrap_or(1), first, images, size }));
    }
    let images = images.ok_or("--images is missing")?;
    let seed = seed.ok_or("--seed is missing")?;
    first.checked_add(images).ok_or("--first and --images together are too large")?;
    Ok(Command::Compare(what, Plan { seed, first, images, size }))
}

fn parse_what(word: &str) -> Result<What, String> {
    match word {
        "check" => Ok(What::Check),
        "lower" => Ok(What::Lower),
        other => Err(format!("--what is check or lower, not {other:?}")),
    }
}

fn parse_size(word: &str) -> Result<SizeChoice, String> {
    match word {
        "mixed" => Ok(SizeChoice::Mixed),
        other => other.parse().map(SizeChoice::Only),
    }
}

fn execute(command: Command) -> ExitCode {
    let good = match command {
        Command::SelfTest(plan) => report_self_test(&plan),
        Command::Compare(whats, plan) => whats.into_iter().all(|what| report_run(what, &plan)),
    };
    if good { ExitCode::SUCCESS } else { ExitCode::FAILURE }
}

fn report_self_test(plan: &Plan) -> bool {
    let good = self_test(plan);
    println!("self-test: {}", if good { "all faults found" } else { "FAILED" });
    good
}

fn report_run(what: What, plan: &Plan) -> bool {
    let start = Instant::now();
    let sides = sides(what);
    match run(&Library, what, plan) {
        Ok(tally) => {
            println!("equal: {sides}: {tally}; seed {}; {:.1} s", plan.seed, start.elapsed().as_secs_f64());
            true
        }
        Err(failure) => {
            println!("{failure}\nnot equal: {sides}; seed {}, image {}", plan.seed, failure.number);
            false
        }
    }
}

/// Says what is held against what.
fn sides(what: What) -> &'static str {
    match what {
        What::Check => "struo_check of the library, and both readings of the checks",
        What::Lower => "struo_lower of the library, and both readings of the checks with struo's lowering and the rows of Or and Xor",
    }
}
