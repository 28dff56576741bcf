//! What is compared, and what it is compared with in the same form.

use crate::expect::{after_call, Expected};
use crate::limits::Limits;
use crate::Answer;

/// The two exported functions, over plain slices.
pub trait Subject {
    fn check(&self, image: &[u8], limits: &Limits) -> Answer;
    fn lower(&self, image: &[u8], n: u32, p: u32, netlist: &mut [u32], scratch: &mut [u32]) -> Answer;
}

/// The reference checks and struo's lowering as a subject: tests of the
/// comparison itself start from it.
pub struct Witness;

impl Subject for Witness {
    fn check(&self, image: &[u8], limits: &Limits) -> Answer {
        reference::check(image, limits.n, limits.p, limits.netlist_words, limits.scratch_words)
    }

    fn lower(&self, image: &[u8], n: u32, p: u32, netlist: &mut [u32], scratch: &mut [u32]) -> Answer {
        let limits = Limits { n, p, netlist_words: netlist.len(), scratch_words: scratch.len() };
        let Expected { answer, netlist: words, scratch_required } = after_call(image, &limits);
        if let Some(words) = words {
            netlist[..words.len()].copy_from_slice(&words);
            scratch[..scratch_required].fill(0);
        }
        answer
    }
}
