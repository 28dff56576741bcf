//! The self-test of the comparison: sentences read wrongly on purpose, each of which
//! must be found; the reading without a fault must pass.

use super::run::{run, Failure};
use crate::plan::Plan;
use crate::selftest::self_test_with;

/// A sentence read wrongly.
#[derive(Clone, Copy, Debug, PartialEq, Eq)]
pub enum Fault {
    /// A signal bit needs its own bit of the assignment's expression.
    DriverByBit,
    /// A register's target bit needs next.
    TargetNeedsNext,
    /// A read data bit needs the read address.
    ReadDataNeedAddress,
    /// A Slice needs its operand whole.
    SliceNeedsWhole,
    /// A bit taken of an And, Or or Xor needs the operands whole.
    AndTakenWhole,
    /// A bit taken of a Mux needs the sides whole.
    MuxTakenWhole,
    /// A bit taken of an Add or Sub needs the operands' bits at its place.
    AddByBit,
    /// A bit taken of a shift needs the left side's bit at its place.
    ShiftByBit,
    /// A Mux needs its condition alone.
    ConditionAlone,
    /// A Mux needs its sides alone.
    SidesAlone,
    /// A Concat's first part is the least significant.
    FirstPartLowest,
    /// Of a register, the clock is not needed.
    ClocksUnneeded,
    /// The reset value is not needed.
    ResetValueUnneeded,
    /// Of a memory, the addresses are not needed.
    AddressesUnneeded,
    /// The write data are not needed.
    WriteDataUnneeded,
    /// Of a memory, the enables are not needed.
    EnablesUnneeded,
    /// A memory's second port needs nothing.
    SecondPortUnneeded,
    /// The second port's clock comes before its enables.
    SecondClockEarly,
    /// Of a register, reset value and signal come first.
    ResetFirst,
    /// Outputs come before registers and memories.
    OutputsFirst,
    /// Exactly N nets are too many.
    NetLimitExcluded,
    /// Exactly P list words are too many.
    ListLimitExcluded,
}

pub const FAULTS: [Fault; 22] = [
    Fault::DriverByBit,
    Fault::TargetNeedsNext,
    Fault::ReadDataNeedAddress,
    Fault::SliceNeedsWhole,
    Fault::AndTakenWhole,
    Fault::MuxTakenWhole,
    Fault::AddByBit,
    Fault::ShiftByBit,
    Fault::ConditionAlone,
    Fault::SidesAlone,
    Fault::FirstPartLowest,
    Fault::ClocksUnneeded,
    Fault::ResetValueUnneeded,
    Fault::AddressesUnneeded,
    Fault::WriteDataUnneeded,
    Fault::EnablesUnneeded,
    Fault::SecondPortUnneeded,
    Fault::SecondClockEarly,
    Fault::ResetFirst,
    Fault::OutputsFirst,
    Fault::NetLimitExcluded,
    Fault::ListLimitExcluded,
];

/// Prints a line for each fault; whether all is as it must be.
pub fn self_test(plan: &Plan) -> bool {
    let told = |failure: &Failure| format!("image {}, shrunk to {} bytes: {}", failure.number, failure.shrunk.small.len(), failure.shrunk.small_difference);
    self_test_with(&FAULTS, |fault| run(fault, plan), told)
}
