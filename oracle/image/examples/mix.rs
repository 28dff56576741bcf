//! Counts what struo's lowering says to generated images:
//! `mix COUNT [SIZE]`, all sizes in turn where none is given.

use image::{generate, netlist_words, Size};
use std::collections::BTreeMap;

fn main() {
    let arguments: Vec<String> = std::env::args().skip(1).collect();
    let count: u64 = arguments
        .first()
        .and_then(|text| text.parse().ok())
        .unwrap_or(1000);
    let only: Option<Size> = arguments.get(1).and_then(|text| text.parse().ok());
    let mut mix: BTreeMap<String, usize> = BTreeMap::new();
    for seed in 0..count {
        let size = only.unwrap_or(Size::ALL[(seed % 4) as usize]);
        *mix.entry(outcome(seed, size)).or_default() += 1;
    }
    for (outcome, times) in mix {
        println!("{times:8} {outcome}");
    }
}

fn outcome(seed: u64, size: Size) -> String {
    let image = generate(seed, size);
    let bytes = image.encode();
    let limit = image::MOST_LIMIT;
    let words = netlist_words(limit, limit);
    let check = reference::check(&bytes, limit, limit, words, image.scratch_words(limit));
    if check != [0, 0, 0] {
        return format!("INVALID {check:?} seed {seed} {size:?}");
    }
    match driver::lower_limited(&bytes, limit, limit, false) {
        driver::Answer::Netlist { .. } => "accepted".to_string(),
        driver::Answer::Refused([number, ..]) => format!("refused {number}"),
        driver::Answer::Crash(message) => format!("CRASH {message} seed {seed} {size:?}"),
    }
}
