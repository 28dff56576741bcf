//! The self-test: each deliberate fault must be found and shrunk, and a subject
//! without fault must pass. Also what the self-tests of netlists and traces share.

use crate::call::What;
use crate::faults::{Fault, Faulty, CHECK_FAULTS, LOWER_FAULTS};
use crate::run::{run, Plan};
use crate::subject::Witness;
use std::fmt::{Debug, Display};

/// A shrunk image larger than this was not shrunk well.
const MOST_SMALL_BYTES: usize = 450;

/// Prints a line for each fault; whether all is as it must be.
pub fn self_test(plan: &Plan) -> bool {
    let faults = CHECK_FAULTS.map(|fault| (What::Check, fault)).into_iter().chain(LOWER_FAULTS.map(|fault| (What::Lower, fault)));
    let mut good = true;
    for (what, fault) in faults {
        good &= fault_is_found(what, fault, plan);
    }
    for what in [What::Check, What::Lower] {
        good &= witness_passes(what, plan);
    }
    good
}

fn fault_is_found(what: What, fault: Fault, plan: &Plan) -> bool {
    match run(&Faulty(fault), what, plan) {
        Ok(tally) => {
            println!("self-test: {fault:?} NOT FOUND in {tally}");
            false
        }
        Err(failure) => {
            let good = failure.shrunk.small.len() <= MOST_SMALL_BYTES;
            let verdict = if good { "found" } else { "found but NOT SHRUNK WELL" };
            let (from, to) = (failure.shrunk.image.len(), failure.shrunk.small.len());
            println!("self-test: {fault:?} {verdict} at image {}, {from} bytes shrunk to {to}", failure.number);
            println!("{failure}");
            good
        }
    }
}

fn witness_passes(what: What, plan: &Plan) -> bool {
    match run(&Witness, what, plan) {
        Ok(tally) => {
            println!("self-test: {what:?} without fault passes: {tally}");
            true
        }
        Err(failure) => {
            println!("self-test: {what:?} without fault is BLAMED: {failure}");
            false
        }
    }
}

/// The self-test of another comparison: `run_with` compares with a fault, or with
/// none; `told` says where a fault was found. Prints a line for each fault; whether
/// all is as it must be.
pub fn self_test_with<F: Copy + Debug, T: Display, D: Display>(
    faults: &[F],
    run_with: impl Fn(Option<F>) -> Result<T, Box<D>>,
    told: impl Fn(&D) -> String,
) -> bool {
    let mut good = true;
    for &fault in faults {
        match run_with(Some(fault)) {
            Ok(tally) => {
                good = false;
                println!("self-test: {fault:?} NOT FOUND in {tally}");
            }
            Err(failure) => println!("self-test: {fault:?} found at {}", told(&failure)),
        }
    }
    match run_with(None) {
        Ok(tally) => println!("self-test: without fault it passes: {tally}"),
        Err(failure) => {
            good = false;
            println!("self-test: without fault it is BLAMED: {failure}");
        }
    }
    good
}
