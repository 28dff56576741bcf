//! Refusals 6 to 10 as docs/RULES.md says what they mean: which bits are needed,
//! which of these have no driver or need themselves, what the limits count. Read
//! from its sentences, and held against struo's lowering.

pub mod judge;
pub mod reading;
pub mod run;
pub mod selftest;
