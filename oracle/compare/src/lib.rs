//! Comparing the port with docs/RULES.md: cases, limits, the call with guarded
//! buffers, what must be in them afterwards, shrinking, and the replay list; parts
//! of the port with struo's own functions; netlists taken back in with the reading
//! of refusal 11; and the trace program with the oracle's. Also how calls are timed.

pub mod args;
pub mod builds;
pub mod call;
pub mod cases;
pub mod expect;
pub mod faults;
pub mod inputs;
pub mod limits;
pub mod listings;
pub mod needs;
pub mod netlists;
pub mod parts;
pub mod plan;
pub mod printed;
pub mod replay;
pub mod run;
pub mod scratch;
pub mod selftest;
pub mod shrink;
pub mod shrunk;
pub mod subject;
pub mod tables;
pub mod timing;
pub mod traces;

/// Number and two places; all 0 for acceptance.
pub type Answer = [u32; 3];

pub const ACCEPTED: Answer = [0, 0, 0];
