//! The image whose lowering goes deepest, of those known by construction.

use image::{Builder, Expr, Image, MOST, MOST_EXPRESSION_BITS};

/// The numbers that a looped image is made of.
#[derive(Clone, Copy, PartialEq, Eq, Debug)]
pub struct Shape {
    /// Bits of the word, and inversions of it.
    pub width: u32,
    pub inversions: u32,
    /// Slices of one bit, each of a LogicNot of the next.
    pub pairs: u32,
}

impl Shape {
    /// Expressions and expression bits: the word and its inversions, the
    /// slices that drive it, the pairs, the slice below them, more inversions
    /// of one bit that fill up what is left.
    fn takes(self) -> (usize, usize) {
        let [width, inversions, pairs] = [self.width, self.inversions, self.pairs].map(|number| number as usize);
        (inversions + 1 + width + 2 * pairs, (inversions + 1) * width + width + 2 * pairs)
    }

    pub fn fits(self) -> bool {
        let (expressions, bits) = self.takes();
        self.width >= 2 && expressions <= MOST[1] && bits <= MOST_EXPRESSION_BITS
    }

    /// The most pairs for a width and inversions.
    pub fn with(width: u32, inversions: u32) -> Option<Self> {
        let (expressions, bits) = Shape { width, inversions, pairs: 0 }.takes();
        let left = MOST[1].checked_sub(expressions)?.min(MOST_EXPRESSION_BITS.checked_sub(bits)?);
        Some(Shape { width, inversions, pairs: left as u32 / 2 })
    }
}

/// A combinational loop, met as late as can be. Bit i + 1 of a word depends on
/// bit i through all inversions of the word; the word's last bit is what a
/// chain of slices and LogicNots leads to, each slice taking a LogicNot by
/// range, which is then lowered whole; and the word's first bit is driven by
/// that chain's begin, so that the chain is gone through a second time before
/// the loop is found.
pub fn looped(shape: Shape) -> Image {
    let mut builder = Builder::new();
    let output = builder.output("y", 1);
    let word = builder.wire("s", shape.width);
    let mut end = builder.read(word);
    for _ in 0..shape.inversions {
        end = builder.not(end);
    }
    let mut chain = builder.slice(end, shape.width - 1, 1);
    let drivers: Vec<Expr> = (0..shape.width - 1).map(|bit| builder.slice(end, bit, 1)).collect();
    for _ in 0..shape.pairs {
        let inverse = builder.logic_not(chain);
        chain = builder.slice(inverse, 0, 1);
    }
    builder.assign(output, chain);
    builder.assign_range(word, 0, chain);
    for (bit, driver) in drivers.into_iter().enumerate() {
        builder.assign_range(word, bit as u32 + 1, driver);
    }
    builder.finish()
}
