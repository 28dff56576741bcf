//! How what a program prints differs from what it must print.

use std::fmt;

/// How an output differs.
#[derive(Clone, Debug)]
pub enum Difference {
    /// The program did not end well.
    Failed(String),
    /// The first line that differs, counted as the caller counts, as expected and as printed.
    Line(usize, String, String),
}

impl fmt::Display for Difference {
    fn fmt(&self, f: &mut fmt::Formatter) -> fmt::Result {
        match self {
            Difference::Failed(problem) => write!(f, "{problem}"),
            Difference::Line(number, expected, got) => write!(f, "line {number}: expected {expected:?}, got {got:?}"),
        }
    }
}
