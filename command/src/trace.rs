//! The parts of the command `trace`. The bits come from the proved program
//! trace, which runs as a child; here they are only translated: a module's text
//! to a netlist, a VCD to lines, lines to a VCD, a table or a drawing by signal
//! names, and refusals to words. Stands outside the proof.

pub mod arguments;
pub mod given;
pub mod history;
pub mod lines;
pub mod named;
pub mod ports;
pub mod records;
pub mod refusal;
pub mod running;
pub mod svg;
pub mod table;
pub mod vcd;

/// The net limit of the netlists that the program takes.
pub const NETS: u32 = 1_024;
/// The most list words of these.
pub const LIST_WORDS: u32 = 2_048;
/// The most bits of all their memories.
pub const MEMORY_BITS: u64 = 65_536;
