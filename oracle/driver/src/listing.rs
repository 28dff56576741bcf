//! The text of the listing program.

use crate::{Answer, lower_limited, words};

/// The checks 1 to 5: image, net limit, list limit, netlist buffer words and
/// scratch words; the refusal, or zeros.
pub type Check<'a> = &'a dyn Fn(&[u8], u32, u32, usize, usize) -> [u32; 3];

/// The listing's net limit and list limit.
pub const LISTING_LIMITS: (u32, u32) = (1_024, 2_048);

const MOST_BYTES: usize = 32_768;
const NETLIST_WORDS: usize = 16 + 6 * 1_024 + 2_048;
const SCRATCH_WORDS: usize = 8_192;

/// What the listing program prints for these bytes, of which it reads at most
/// 32,768.
///
/// # Panics
///
/// Panics when the Rust crashes on an image that `check` passes.
#[must_use]
pub fn listing(image: &[u8], check: Check) -> String {
    let image = &image[..image.len().min(MOST_BYTES)];
    let (n, p) = LISTING_LIMITS;
    let refusal = check(image, n, p, NETLIST_WORDS, SCRATCH_WORDS);
    if refusal != [0; 3] {
        return refused(refusal);
    }
    match lower_limited(image, n, p, false) {
        Answer::Refused(refusal) => refused(refusal),
        Answer::Crash(text) => panic!("the lowering crashed: {text}"),
        netlist => image::listing(image, &words(&netlist, n, p)).expect("a netlist of the image"),
    }
}

fn refused([number, first, second]: [u32; 3]) -> String {
    format!("refused {number} {first} {second}\n")
}
