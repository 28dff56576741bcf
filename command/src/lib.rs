//! The command `lower`: lowers a module by the port's library and lists its
//! netlist, or says in words why it is refused; the same for a stored netlist.
//! The command `trace`: runs a module or a netlist over a trace by the program
//! trace, and translates what it reads and prints.
//! Stands outside the proof, and links nothing of struo.

pub mod arguments;
pub mod input;
pub mod lowering;
pub mod refusal;
pub mod shell;
pub mod stored;
pub mod trace;

pub use port::{ACCEPTED, Answer};

/// The most nets and list words that a call may allow.
pub const MOST: u32 = 65_535;
