//! The calls of the port's library as what is compared and timed.

mod guarded;
pub mod speed;

use compare::limits::Limits;
use compare::netlists::run::Reader;
use compare::subject::Subject;
use compare::Answer;
use guarded::Guarded;

/// The library's calls.
pub struct Library;

/// The library's calls that take a netlist back in. Each sees its slice at the end
/// of memory that can be read: a word read past it ends the program.
#[derive(Default)]
pub struct NetlistLibrary(Guarded);

impl Reader for NetlistLibrary {
    fn check(&self, slice: &[u32]) -> Answer {
        self.0.with(slice, port::netlist_check)
    }

    fn node(&self, slice: &[u32], net: u32) -> (u32, [u32; 6]) {
        self.0.with(slice, |slice| port::netlist_node_numbers(slice, net))
    }

    fn record(&self, slice: &[u32], at: u32) -> (u32, [u32; 3]) {
        self.0.with(slice, |slice| port::netlist_record_numbers(slice, at))
    }
}

impl Subject for Library {
    fn check(&self, image: &[u8], limits: &Limits) -> Answer {
        port::check(image, limits.n, limits.p, limits.netlist_words, limits.scratch_words)
    }

    fn lower(&self, image: &[u8], n: u32, p: u32, netlist: &mut [u32], scratch: &mut [u32]) -> Answer {
        port::lower(image, n, p, netlist, scratch)
    }
}

#[cfg(test)]
mod tests {
    use image::{Image, EXPRESSIONS, MOST, MOST_EXPRESSION_BITS, MOST_LIMIT, MOST_SIGNAL_BITS, SIGNALS};

    #[test]
    fn most_scratch_is_what_the_largest_image_asks_for() {
        let (signals, expressions) = (MOST[SIGNALS], MOST[EXPRESSIONS]);
        let image = Image {
            signals: vec![[0, 1, (MOST_SIGNAL_BITS / signals) as u32, 1]; signals],
            expressions: vec![[0, (MOST_EXPRESSION_BITS / expressions) as u32, 0, 0, 0]; expressions],
            ..Image::default()
        };
        assert_eq!(port::most_scratch_words(MOST_LIMIT), image.scratch_words(MOST_LIMIT));
    }
}
