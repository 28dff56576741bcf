//! Netlists taken back in (request Q-2): slices of words that are lowered, made by
//! hand or damaged, and the library's three functions on them, held against the
//! reading of refusal 11.

pub mod cases;
pub mod crowded;
pub mod damage;
pub mod draft;
pub mod free;
pub mod item;
pub mod places;
pub mod run;
pub mod selftest;
pub mod stored;
pub mod variants;
