//! Limits, buffers, and the order of the checks.

use super::bases::{full, inverter, swept};
use super::{Cases, LIST_WORDS, MOST_SCRATCH, NETS};
use crate::format::{netlist_words, set_word, Image, ABSENT, EDITION, MOST_LIMIT};
use std::collections::BTreeSet;

pub fn add(cases: &mut Cases) {
    limits(cases);
    buffers(cases);
    order(cases);
    sweeps(cases);
}

fn limits(cases: &mut Cases) {
    let image = inverter();
    let values = [
        0,
        1,
        2,
        3,
        8,
        MOST_LIMIT - 1,
        MOST_LIMIT,
        MOST_LIMIT + 1,
        0x8000_0000,
        ABSENT,
    ];
    for n in values {
        for p in values {
            let scratch = image.scratch_words(n).min(MOST_SCRATCH);
            let netlist = netlist_words(n.min(MOST_LIMIT + 1), p.min(MOST_LIMIT + 1));
            let name = format!("limits {n} {p}");
            cases
                .cases
                .push((name, image.encode(), n, p, netlist, scratch));
        }
    }
}

fn buffers(cases: &mut Cases) {
    for (label, image) in [
        ("empty", Image::default()),
        ("inverter", inverter()),
        ("full", full()),
    ] {
        for (n, p) in [
            (1, 0),
            (16, 16),
            (NETS, LIST_WORDS),
            (MOST_LIMIT, MOST_LIMIT),
        ] {
            let netlist = netlist_words(n, p);
            for netlist in [0, 15, netlist - 1, netlist, netlist + 1] {
                for scratch in scratch_lengths(&image, n) {
                    let name = format!(
                        "{label}, limits {n} {p}, {netlist} netlist and {scratch} scratch words"
                    );
                    cases
                        .cases
                        .push((name, image.encode(), n, p, netlist, scratch));
                }
            }
        }
    }
}

/// Next to what is required, and to the former sum.
fn scratch_lengths(image: &Image, n: u32) -> BTreeSet<usize> {
    let (required, former) = (image.scratch_words(n), image.former_scratch_words(n));
    BTreeSet::from([0, 63, required - 1, required, required + 1, former - 1, former])
}

/// Every set of checks failing at once: the first one answers.
fn order(cases: &mut Cases) {
    for set in 0..32 {
        let wrong = |check: u32| set >> (check - 1) & 1 == 1;
        let mut image = inverter();
        if wrong(4) {
            image.signals[1][3] = 3;
        }
        let n = if wrong(1) { MOST_LIMIT + 1 } else { NETS };
        let netlist = netlist_words(n, LIST_WORDS) - usize::from(wrong(2));
        let scratch = image.scratch_words(n) - usize::from(wrong(5));
        let mut bytes = image.encode();
        if wrong(3) {
            set_word(&mut bytes, 0, EDITION - 1);
        }
        cases.cases.push((
            format!("checks wrong {set:05b}"),
            bytes,
            n,
            LIST_WORDS,
            netlist,
            scratch,
        ));
    }
}

/// Small images under each small limit: 9 and 10 where they are met.
fn sweeps(cases: &mut Cases) {
    for (label, image) in swept() {
        for n in 1..=12 {
            cases.limits(format!("{label}, {n} nets"), &image, n, LIST_WORDS);
        }
        for p in 0..=40 {
            cases.limits(format!("{label}, {p} list words"), &image, NETS, p);
        }
        for both in 1..=12 {
            cases.limits(
                format!("{label}, {both} nets and list words"),
                &image,
                both,
                both,
            );
        }
    }
}
