//! The words of scratch that an image asks for, beside the larger sum before
//! request Q-10, the former one; and which of them calls lend.

use crate::limits::Limits;
use crate::Answer;
use image::Image;
use std::fmt;

/// Words of scratch for an image that passes 3 and 4.
#[derive(Clone, Copy, Debug, PartialEq, Eq)]
pub struct Scratch {
    pub required: usize,
    /// By the former sum; never fewer.
    pub former: usize,
}

impl Scratch {
    /// `None` for an image that is refused by 3 or 4.
    pub fn of(image: &[u8], n: u32) -> Option<Scratch> {
        let required = reference::scratch_words(image, n)?;
        let former = Image::decode(image)?.former_scratch_words(n);
        Some(Scratch { required, former })
    }
}

/// Calls that are not refused by 1 to 4, by the scratch that they lend.
#[derive(Clone, Debug, Default, PartialEq, Eq)]
pub struct Lent {
    pub exact: u64,
    pub one_short: u64,
    /// Longer, and below the former sum.
    pub between: u64,
    /// Longer, and not below the former sum.
    pub former: u64,
}

impl Lent {
    /// Counts a call with this answer.
    pub fn count(&mut self, image: &[u8], limits: &Limits, answer: Answer) {
        if !matches!(answer[0], 1..=4) {
            let scratch = Scratch::of(image, limits.n).expect("a checked image");
            self.count_words(scratch, limits.scratch_words);
        }
    }

    fn count_words(&mut self, scratch: Scratch, words: usize) {
        let Scratch { required, former } = scratch;
        if words == required {
            self.exact += 1;
        } else if words + 1 == required {
            self.one_short += 1;
        } else if words > required && words < former {
            self.between += 1;
        } else if words > required {
            self.former += 1;
        }
    }
}

impl fmt::Display for Lent {
    fn fmt(&self, f: &mut fmt::Formatter) -> fmt::Result {
        let Lent { exact, one_short, between, former } = self;
        write!(f, "scratch exact in {exact} calls, one word short in {one_short}, ")?;
        write!(f, "longer in {}, {between} of them below the former sum", between + former)
    }
}

#[cfg(test)]
mod tests {
    use super::{Lent, Scratch};

    #[test]
    fn calls_are_told_apart_at_both_sums() {
        let mut lent = Lent::default();
        for words in [0, 98, 99, 100, 101, 107, 108, 120] {
            lent.count_words(Scratch { required: 100, former: 108 }, words);
        }
        assert_eq!(lent, Lent { exact: 1, one_short: 1, between: 2, former: 2 });
    }
}
