//! A difference that an image shows, and the smallest image found that shows
//! one.

use crate::expect::hex;
use crate::shrink::shrink;
use image::{disassemble, Image};
use std::fmt;

/// A difference, with its image before and after shrinking.
pub struct Shrunk<D> {
    pub image: Vec<u8>,
    pub difference: D,
    pub small: Vec<u8>,
    pub small_difference: D,
}

impl<D: Clone> Shrunk<D> {
    /// Shrinks an image with a difference; `again` looks for one in a smaller
    /// image. What is not always alike may show none again: then the first
    /// difference stands.
    pub fn new(image: Vec<u8>, difference: D, again: impl Fn(&[u8]) -> Option<D>) -> Self {
        let small = shrink(&image, &mut |candidate| again(candidate).is_some());
        let small_difference = again(&small).unwrap_or_else(|| difference.clone());
        Shrunk { image, difference, small, small_difference }
    }
}

impl<D: fmt::Display> fmt::Display for Shrunk<D> {
    fn fmt(&self, f: &mut fmt::Formatter) -> fmt::Result {
        writeln!(f, "{}", self.difference)?;
        writeln!(f, "smallest image found, {} bytes:", self.small.len())?;
        match Image::decode(&self.small) {
            Some(image) => write!(f, "{}", disassemble(&image))?,
            None => writeln!(f, "(its header is wrong: no text)")?,
        }
        writeln!(f, "hex {}", hex(&self.small))?;
        write!(f, "{}", self.small_difference)
    }
}
