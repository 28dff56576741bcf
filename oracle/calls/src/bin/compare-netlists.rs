//! Compares struo_netlist_check, struo_netlist_node and struo_netlist_record of the
//! library with the reading of refusal 11, on netlists that are lowered, made by
//! hand and damaged: every number of every answer, a slice ending where memory
//! ends. Prints how often each sort of wrong word was met. With --self-test, rules
//! read wrongly on purpose must each be found.

use calls::NetlistLibrary;
use compare::args::Words;
use compare::netlists::run::run;
use compare::netlists::selftest::self_test;
use compare::plan::{Command, Plan};
use std::process::ExitCode;

const COMMAND: Command = Command {
    name: "compare-netlists",
    words: "--seed S --count SLICES [--first I]
       compare-netlists --self-test",
    sides: "the library's calls that take a netlist back in, and the reading of refusal 11",
    case: "slice",
};

/// Slices that the self-test looks at for each fault.
const SELF_TEST: Plan = Plan { seed: 1, first: 0, count: 15_000 };

fn main() -> ExitCode {
    if std::env::args().skip(1).eq(["--self-test".to_string()]) {
        let good = driver::with_big_stack(|| self_test(&SELF_TEST));
        println!("self-test: {}", if good { "all faults found" } else { "FAILED" });
        return if good { ExitCode::SUCCESS } else { ExitCode::FAILURE };
    }
    COMMAND.execute(Words::of_process(), |plan| match driver::with_big_stack(|| run(&NetlistLibrary::default(), plan)) {
        Ok(tally) => {
            println!("{}", tally.hits);
            Ok(tally.to_string())
        }
        Err(failure) => Err((failure.number, failure.to_string())),
    })
}
