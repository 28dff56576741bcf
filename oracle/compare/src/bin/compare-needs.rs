//! Compares struo's refusals 6 to 10 with what the rules say that they mean: which
//! bits are needed, which of these have no driver or need themselves, and how many
//! nets and list words are made. With --self-test, sentences read wrongly on purpose
//! must each be found.

use compare::args::Words;
use compare::needs::run::run;
use compare::needs::selftest::self_test;
use compare::plan::{Command, Plan};
use std::process::ExitCode;

const COMMAND: Command = Command {
    name: "compare-needs",
    words: "--seed S --count IMAGES [--first I]
       compare-needs --self-test",
    sides: "struo's refusals 6 to 10, and the reading of needed bits and limits",
    case: "image",
};

/// Images that the self-test looks at for each fault.
const SELF_TEST: Plan = Plan { seed: 1, first: 0, count: 5_000 };

fn main() -> ExitCode {
    if std::env::args().skip(1).eq(["--self-test".to_string()]) {
        let good = driver::with_big_stack(|| self_test(&SELF_TEST));
        println!("self-test: {}", if good { "all faults found" } else { "FAILED" });
        return if good { ExitCode::SUCCESS } else { ExitCode::FAILURE };
    }
    COMMAND.execute(Words::of_process(), |plan| match driver::with_big_stack(|| run(None, plan)) {
        Ok(tally) => Ok(tally.to_string()),
        Err(failure) => Err((failure.number, failure.to_string())),
    })
}
