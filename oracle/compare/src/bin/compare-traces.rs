//! Compares what the trace program prints with the oracle's trace program, on inputs
//! at the limits, lowered, made by hand and damaged, byte for byte; and sees whether
//! it answers each line before the next is there. With --line-limit, as many lines as
//! there may be, and one more. With --self-test, rules read wrongly on purpose must
//! each be found. With --shapes no program is needed: the oracle's two are compared.

use compare::args::Words;
use compare::plan::{Command, Plan};
use compare::traces::longest::longest;
use compare::traces::run::{run, Program, Tracer};
use compare::traces::selftest::self_test;
use compare::traces::stream::stream;
use compare::traces::variants::Variant;
use std::process::ExitCode;

/// What is held against what, where no program is needed.
const SHAPES: &str = "the oracle's trace program, and the one of the self-test";

const COMMAND: Command = Command {
    name: "compare-traces",
    words: "PROGRAM --seed S --count INPUTS [--first I]
       compare-traces PROGRAM --line-limit
       compare-traces --shapes --seed S --count INPUTS [--first I]
       compare-traces --self-test",
    sides: "the trace program, and the oracle's trace program",
    case: "input",
};

/// Inputs that the self-test looks at for each fault.
const SELF_TEST: Plan = Plan { seed: 1, first: 0, count: 6_000 };

/// Netlists that are fed line by line.
const STREAMED: u64 = 40;

fn main() -> ExitCode {
    let words: Vec<String> = std::env::args().skip(1).collect();
    match &words[..] {
        [] => COMMAND.misused("no program"),
        [word] if word == "--self-test" => {
            let good = driver::with_big_stack(|| self_test(&SELF_TEST));
            let told = if good { Ok("all faults found".to_string()) } else { Err("FAILED".to_string()) };
            tell("self-test", told)
        }
        [word, rest @ ..] if word == "--shapes" => {
            let command = Command { sides: SHAPES, ..COMMAND };
            command.execute(Words::new(rest.to_vec()), |plan| driver::with_big_stack(|| compared(&Variant(None), plan)))
        }
        [program, word] if word == "--line-limit" => tell("line limit", longest(&Program(program.into()))),
        [program, rest @ ..] => {
            let program = Program(program.into());
            COMMAND.execute(Words::new(rest.to_vec()), |plan| driver::with_big_stack(|| both(&program, plan)))
        }
    }
}

fn tell(what: &str, result: Result<String, String>) -> ExitCode {
    match result {
        Ok(text) => {
            println!("{what}: {text}");
            ExitCode::SUCCESS
        }
        Err(problem) => {
            println!("{what}: {problem}");
            ExitCode::FAILURE
        }
    }
}

fn compared(tracer: &dyn Tracer, plan: &Plan) -> Result<String, (u64, String)> {
    run(tracer, plan).map(|tally| tally.to_string()).map_err(|failure| (failure.number, failure.to_string()))
}

fn both(program: &Program, plan: &Plan) -> Result<String, (u64, String)> {
    let tally = compared(program, plan)?;
    let answered = stream(program, plan.seed, STREAMED).map_err(|problem| (plan.first, format!("line by line: {problem}")))?;
    Ok(format!("{tally}; {answered} lines answered before the next was there"))
}
