//! The images that drive a recursive lowering deepest.

use crate::builder::{Builder, Expr};
use crate::format::Image;

/// A signal of `width` bits whose bit i + 1 depends on bit i through `length`
/// inversions of the whole signal: the walk goes through all of them for
/// every bit. 32 and 1,000 stay within the limits.
pub fn deepest(width: u32, length: u32) -> Image {
    deepest_behind(width, length, 0)
}

/// The same behind `conditions` muxes, each the condition of the next, the
/// first of them led by the signal's last bit. 512, 59 and 1,450 take the most
/// stack of all images tried.
pub fn deepest_behind(width: u32, length: u32, conditions: u32) -> Image {
    let mut builder = Builder::new();
    let input = builder.input("a", 1);
    let output = builder.output("y", 1);
    let signal = builder.wire("s", width);
    let mut end = builder.read(signal);
    for _ in 0..length {
        end = builder.not(end);
    }
    let first = builder.read(input);
    let slices: Vec<Expr> = (0..width - 1)
        .map(|bit| builder.slice(end, bit, 1))
        .collect();
    let mut last = builder.read_range(signal, width - 1, 1);
    if conditions > 0 {
        let inverse = builder.not(first);
        for _ in 0..conditions {
            last = builder.mux(last, first, inverse);
        }
    }
    builder.assign_range(signal, 0, first);
    for (bit, slice) in slices.into_iter().enumerate() {
        builder.assign_range(signal, bit as u32 + 1, slice);
    }
    builder.assign(output, last);
    builder.finish()
}
