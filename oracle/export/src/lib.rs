//! Verilog and pictures of module images and netlist images, and a witness that
//! holds them to simulators and provers that are not ours. All of this stands
//! outside the proof: nothing here is proved, and no proof rests on it.

pub mod bench;
pub mod cli;
mod clocked;
pub mod dot;
mod fit;
mod module_verilog;
mod names;
mod needed;
mod netlist_verilog;
pub mod opened;
pub mod tools;
pub mod trace_bench;
pub mod traces;
mod verilog;
pub mod witness;

pub use image::netlist::Netlist;
pub use module_verilog::module_verilog;
pub use netlist_verilog::netlist_verilog;
pub use verilog::{Event, EventPort, Style, Verilog};
