//! The runs after a `back`, as they are held for the end of a VCD: its scopes are
//! declared before all values, and its times rise.

use std::collections::BTreeMap;
use std::io::{Result as Io, Write};

#[derive(Default)]
pub struct Endings {
    /// Their scopes, in the order of the backs.
    pub scopes: Vec<String>,
    /// The values that change at a time, as they are written.
    values: BTreeMap<u64, Vec<u8>>,
}

impl Endings {
    /// Takes the values of a time.
    pub fn at(&mut self, time: u64) -> &mut Vec<u8> {
        self.values.entry(time).or_default()
    }

    /// Writes the values of the first run, which has all times from 0 to its end,
    /// with those held behind them, time by time.
    ///
    /// # Errors
    ///
    /// Writing failed.
    pub fn write(&mut self, first_run: &[u8], to: &mut impl Write) -> Io<()> {
        let (mut left, mut time) = (first_run, 0);
        while !left.is_empty() {
            let next = left.windows(2).position(|bytes| bytes == b"\n#");
            let (values, behind) = left.split_at(next.map_or(left.len(), |at| at + 1));
            to.write_all(values)?;
            to.write_all(&self.values.remove(&time).unwrap_or_default())?;
            (left, time) = (behind, time + 1);
        }
        for (time, values) in &self.values {
            writeln!(to, "#{time}")?;
            to.write_all(values)?;
        }
        Ok(())
    }
}
