//! Module images of edition 2: the records, their bytes, and tools to make,
//! write, read and damage them; nothing here judges a module image. Also a reader
//! of netlist images, their listing, and netlist images put together from parts.

mod assemble;
mod borders;
mod builder;
mod chain;
mod clash;
pub mod command;
pub mod corpus;
mod disassemble;
mod edition;
mod format;
mod generate;
pub mod heavy;
mod input;
mod listing;
mod mutate;
pub mod netlist;
mod netlist_borders;
pub mod netlist_parts;
mod random;
mod shapes;
mod tables;
mod tangle;
mod text;

pub use assemble::{assemble, AsmError};
pub use borders::{borders, inverter, port, Border};
pub use builder::{Builder, Control, Expr, Memory, Port, Register, Reset, Signal};
pub use chain::{deepest, deepest_behind};
pub use clash::{bring_near_clash, lower_depths};
pub use disassemble::disassemble;
pub use edition::{from_edition_1, to_edition_1};
pub use format::*;
pub use generate::{generate, Size};
pub use input::read;
pub use listing::{bit_name, listing, read_data_bit_name, KINDS, SORTS};
pub use mutate::mutate;
pub use netlist_borders::{every_kind, netlist_borders};
pub use random::Random;
pub use tables::table;
pub use tangle::{tangle, tangled};
