//! Where a run stands, and the moments that it can come back to.

use super::named::{Named, Verb};

/// The names that are held at most.
pub const MOST_NAMES: usize = 4;

/// A run after one of its settings lines.
#[derive(Clone, Debug, PartialEq, Eq)]
pub struct Moment {
    /// The settings lines of its history before this one.
    pub time: u64,
    pub inputs: Vec<u8>,
    pub outputs: Vec<u8>,
}

/// The present moment, and those that are kept by name.
#[derive(Default)]
pub struct History {
    now: Option<Moment>,
    held: Vec<(String, Moment)>,
}

impl History {
    /// Follows a settings line.
    pub fn line(&mut self, inputs: &[u8], outputs: &[u8]) {
        let time = self.now.as_ref().map_or(0, |now| now.time + 1);
        self.now = Some(Moment { time, inputs: inputs.to_vec(), outputs: outputs.to_vec() });
    }

    /// Follows a line `keep` or `back`, and gives its moment. There is none where
    /// the line is to be refused.
    pub fn named(&mut self, line: &Named) -> Option<&Moment> {
        let is_full = self.held.len() == MOST_NAMES;
        let held = self.held.iter_mut().find(|(name, _)| *name == line.name);
        match (line.verb, held) {
            (Verb::Back, held) => self.now = Some(held?.1.clone()),
            (Verb::Keep, Some((_, moment))) => *moment = self.now.clone()?,
            (Verb::Keep, None) if is_full => return None,
            (Verb::Keep, None) => self.held.push((line.name.clone(), self.now.clone()?)),
        }
        self.now.as_ref()
    }

    /// The names that are held, in the order of their first keep.
    pub fn names(&self) -> Vec<String> {
        self.held.iter().map(|(name, _)| name.clone()).collect()
    }
}
