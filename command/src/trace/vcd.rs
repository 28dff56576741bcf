//! VCD (value change dump, IEEE 1800, 21.7): written of a run, and read as a trace.

mod endings;
pub mod reading;
pub mod writing;
