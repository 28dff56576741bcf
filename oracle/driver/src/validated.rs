//! struo's own validation of a netlist that stands as words.

use crate::opened_ir::{Netlist, rebuilt};

/// struo's netlist of a netlist image's words.
pub struct Rebuilt(Netlist);

impl Rebuilt {
    /// Builds the netlist, without judging it.
    ///
    /// # Errors
    ///
    /// Says what struo's types have no place for.
    pub fn new(words: &[u32]) -> Result<Self, String> {
        rebuilt::netlist(words).map(Rebuilt)
    }

    /// `Netlist::validate`.
    ///
    /// # Errors
    ///
    /// What it finds.
    pub fn validate(&self) -> Result<(), String> {
        self.0.validate().map_err(|error| format!("{error:?}"))
    }
}
