//! The self-test of the comparison: rules read wrongly on purpose, each of which
//! must be found; the other trace program without a fault must pass.

use super::run::{run, Failure};
use super::variants::{Variant, FAULTS};
use crate::plan::Plan;
use crate::selftest::self_test_with;

/// Prints a line for each fault; whether all is as it must be.
pub fn self_test(plan: &Plan) -> bool {
    let told = |failure: &Failure| format!("input {}, shrunk to {} bytes: {}", failure.number, failure.small.len(), failure.small_difference);
    self_test_with(&FAULTS, |fault| run(&Variant(fault), plan), told)
}
