//! Runs of netlists over traces (requests ): inputs of the trace program that are
//! lowered, made by hand or damaged, and what it prints, held against the oracle's
//! trace program.

pub mod cases;
pub mod clashes;
pub mod heavy;
pub mod limits;
pub mod lines;
pub mod longest;
pub mod machine;
pub mod name_limits;
pub mod names;
pub mod run;
pub mod selftest;
pub mod stored;
pub mod stream;
pub mod variants;
