//! Images, limits and buffers at every border: the most, one past it, one
//! short of it, and each field wrong alone and in pairs.

mod bases;
mod calls;
mod drivers;
mod fields;
mod header;
mod lists;
mod memories;
mod names;
mod widths;

pub use bases::inverter;
pub use memories::port;

use crate::format::{netlist_words, Image};

/// A description, an image, net limit, list limit, netlist words, scratch words.
pub type Border = (String, Vec<u8>, u32, u32, usize, usize);

/// Limits of cases that are not about limits.
const NETS: u32 = 1024;
const LIST_WORDS: u32 = 2048;
/// No valid image asks for more scratch.
const MOST_SCRATCH: usize = 400_000;

/// All border cases, in a fixed order.
pub fn borders() -> Vec<Border> {
    let mut cases = Cases { cases: Vec::new() };
    calls::add(&mut cases);
    header::add(&mut cases);
    fields::add(&mut cases);
    names::add(&mut cases);
    widths::add(&mut cases);
    lists::add(&mut cases);
    memories::add(&mut cases);
    drivers::add(&mut cases);
    cases.cases
}

struct Cases {
    cases: Vec<Border>,
}

impl Cases {
    /// An image with middling limits and buffers that just serve.
    fn image(&mut self, name: impl Into<String>, image: &Image) {
        self.limits(name, image, NETS, LIST_WORDS);
    }

    /// An image with these limits and buffers that just serve.
    fn limits(&mut self, name: impl Into<String>, image: &Image, n: u32, p: u32) {
        let scratch = image.scratch_words(n).min(MOST_SCRATCH);
        self.cases.push((
            name.into(),
            image.encode(),
            n,
            p,
            netlist_words(n, p),
            scratch,
        ));
    }

    /// Bytes that may lay out nothing, with more than enough scratch.
    fn bytes(&mut self, name: impl Into<String>, bytes: Vec<u8>) {
        let netlist = netlist_words(NETS, LIST_WORDS);
        self.cases
            .push((name.into(), bytes, NETS, LIST_WORDS, netlist, MOST_SCRATCH));
    }
}
