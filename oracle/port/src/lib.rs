//! The port's library, linked: its calls as the example in Rust has them.

#[path = "../../../examples/rust/struo.rs"]
mod struo;

pub use struo::*;
