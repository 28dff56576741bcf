//! What the generator promises: valid images, mostly accepted, every kind
//! and operator among them; and what damage does to them.

use image::{
    deepest, generate, kind, memory_field, mutate, netlist_words, table, tangle, tangled, Image,
    Random, Size,
};
use std::collections::BTreeMap;

const N: u32 = 65_535;
const P: u32 = 65_535;

fn size(seed: u64) -> Size {
    Size::ALL[if seed % 40 == 0 {
        3
    } else {
        (seed % 3) as usize
    }]
}

fn check(bytes: &[u8], scratch: usize) -> [u32; 3] {
    reference::check(bytes, N, P, netlist_words(N, P), scratch)
}

#[test]
fn generated_images_keep_every_rule() {
    for seed in 0..4000 {
        let image = generate(seed, size(seed));
        let scratch = image.scratch_words(N);
        assert_eq!(check(&image.encode(), scratch), [0, 0, 0], "seed {seed}");
        assert_eq!(
            check(&image.encode(), scratch - 1),
            [5, 0, 0],
            "seed {seed}"
        );
    }
}

#[test]
fn large_images_keep_every_rule() {
    for seed in 0..150 {
        let image = generate(seed, Size::Large);
        let scratch = image.scratch_words(N);
        assert_eq!(check(&image.encode(), scratch), [0, 0, 0], "seed {seed}");
    }
}

#[test]
fn tangled_images_keep_every_rule() {
    for seed in 0..4000 {
        let mut random = Random::new(seed);
        let mut image = if seed % 2 == 0 {
            tangled(&mut random)
        } else {
            generate(seed, size(seed))
        };
        for _ in 0..3 {
            let scratch = image.scratch_words(N);
            assert_eq!(check(&image.encode(), scratch), [0, 0, 0], "seed {seed}");
            tangle(&mut random, &mut image);
        }
    }
}

#[test]
fn equal_seeds_give_equal_images() {
    for seed in 0..50 {
        assert_eq!(generate(seed, size(seed)), generate(seed, size(seed)));
    }
    assert_ne!(generate(1, Size::Small), generate(2, Size::Small));
}

#[test]
fn every_kind_operator_control_and_port_comes_up() {
    let mut seen = BTreeMap::new();
    for seed in 0..600 {
        note(&generate(seed, size(seed)), &mut seen);
    }
    let missing: Vec<String> = wanted()
        .into_iter()
        .filter(|want| !seen.contains_key(want))
        .collect();
    assert!(missing.is_empty(), "never seen: {missing:?}");
}

fn wanted() -> Vec<String> {
    let mut wanted: Vec<String> = (0..7).map(|kind| format!("kind {kind}")).collect();
    wanted.extend((0..5).map(|op| format!("unary {op}")));
    wanted.extend((0..19).map(|op| format!("binary {op}")));
    wanted.extend([1, 2, 63, 64, 65, 1023, 1024].map(|width| format!("width {width}")));
    for enable in ["absent", "0", "1"] {
        for reset in ["absent", "00", "01", "10", "11"] {
            wanted.push(format!("register {enable} {reset}"));
        }
    }
    wanted.extend(["ports 0", "ports 1", "style 0", "style 1", "style 2"].map(str::to_string));
    wanted.extend(["internal clock", "internal enable", "internal reset"].map(str::to_string));
    wanted
}

fn note(image: &Image, seen: &mut BTreeMap<String, usize>) {
    let mut note = |what: String| *seen.entry(what).or_default() += 1;
    for [kind, width, op, ..] in &image.expressions {
        note(format!("kind {kind}"));
        note(format!("width {width}"));
        match *kind {
            kind::UNARY => note(format!("unary {op}")),
            kind::BINARY => note(format!("binary {op}")),
            _ => {}
        }
    }
    let internal = |signal: u32| {
        image
            .signals
            .get(signal as usize)
            .is_some_and(|signal| signal[3] == 0)
    };
    for register in &image.registers {
        let absent = |field: usize, text: String| {
            if register[field] == u32::MAX {
                "absent".into()
            } else {
                text
            }
        };
        let enable = absent(6, register[7].to_string());
        let reset = absent(8, format!("{}{}", register[9], register[10]));
        note(format!("register {enable} {reset}"));
        for (field, sort) in [(4, "clock"), (6, "enable"), (8, "reset")] {
            if internal(register[field]) {
                note(format!("internal {sort}"));
            }
        }
    }
    for memory in &image.memories {
        note(format!("ports {}", memory[memory_field::HAS_SECOND]));
        note(format!("style {}", memory[memory_field::STYLE]));
    }
}

#[test]
fn most_generated_images_are_accepted_and_some_meet_each_refusal() {
    let mut counts: BTreeMap<u32, usize> = BTreeMap::new();
    for seed in 0..1500 {
        let bytes = generate(seed, size(seed)).encode();
        *counts.entry(outcome(&bytes)).or_default() += 1;
    }
    let count = |number: u32| counts.get(&number).copied().unwrap_or(0);
    assert!(count(0) > 900 && count(0) < 1400, "{counts:?}");
    for number in [6, 7, 8] {
        assert!(count(number) > 15, "{counts:?}");
    }
}

/// 0 for an accepted image, else the number of its refusal.
fn outcome(bytes: &[u8]) -> u32 {
    match driver::lower_limited(bytes, N, P, false) {
        driver::Answer::Netlist { .. } => 0,
        driver::Answer::Refused([number, ..]) => number,
        driver::Answer::Crash(message) => panic!("{message}"),
    }
}

#[test]
fn deepest_chains_are_valid_and_accepted() {
    for (width, length) in [(1, 0), (2, 1), (32, 1000), (128, 250)] {
        let image = deepest(width, length);
        let bytes = image.encode();
        assert_eq!(
            check(&bytes, image.scratch_words(N)),
            [0, 0, 0],
            "{width} {length}"
        );
        assert_eq!(outcome(&bytes), 0, "{width} {length}");
    }
    assert_eq!(deepest(32, 1000).expressions.len(), 1034);
    assert_eq!(deepest(32, 1000).expression_bits(), 32_065);
}

#[test]
fn damage_is_mostly_refused_but_not_always() {
    let mut counts: BTreeMap<u32, usize> = BTreeMap::new();
    for seed in 0..4000 {
        let bytes = mutate(seed, &generate(seed % 97, size(seed)).encode());
        *counts.entry(check(&bytes, usize::MAX)[0]).or_default() += 1;
    }
    let count = |number: u32| counts.get(&number).copied().unwrap_or(0);
    assert!(
        count(3) > 400 && count(4) > 1200 && count(0) > 300,
        "{counts:?}"
    );
}

/// Some of the damage is a word width that alone makes the image wrong.
#[test]
fn damage_reaches_the_word_width() {
    let mut alone = 0;
    for seed in 0..20_000 {
        let image = generate(seed % 97, size(seed));
        let Some(damaged) = Image::decode(&mutate(seed, &image.encode())) else {
            continue;
        };
        let mut mended = damaged.clone();
        mended.set_word_widths();
        let answer = check(&damaged.encode(), usize::MAX);
        if check(&mended.encode(), usize::MAX)[0] == 0 && answer[0] != 0 {
            assert_eq!(answer[..2], [4, 5], "seed {seed}");
            alone += 1;
        }
    }
    assert!(alone > 100, "only {alone}");
}

#[test]
fn tables_keep_every_rule() {
    for seed in 0..100_000 {
        let image = table(seed);
        let scratch = image.scratch_words(N);
        assert_eq!(check(&image.encode(), scratch), [0, 0, 0], "seed {seed}");
        assert!(!image.expressions.is_empty(), "seed {seed}");
    }
}
