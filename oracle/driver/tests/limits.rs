//! The copy with limits against the one without: the same answers and the same
//! record order where no limit is met, and 9 and 10 exactly at the limits.

use driver::{Answer, lower, lower_limited, with_big_stack, words};
use image::{ABSENT, Random, Size, assemble, deepest, generate, inverter};

const IMAGES: u64 = 4_000;
const NO_LIMIT: u32 = u32::MAX;

fn image(seed: u64) -> Vec<u8> {
    let size = if seed.is_multiple_of(2) { Size::Tiny } else { Size::Small };
    generate(seed, size).encode()
}

fn assembled(text: &str) -> Vec<u8> {
    assemble(text).unwrap_or_else(|error| panic!("{error}: {text}"))
}

fn list_words(records: &[Vec<u32>]) -> u32 {
    records.iter().map(|record| record.len() as u32).sum()
}

#[test]
fn without_limits_both_copies_agree() {
    let mut outcomes = [0; 9];
    with_big_stack(|| {
        for seed in 0..IMAGES {
            let image = image(seed);
            assert_eq!(
                reference::check(&image, 1, 0, usize::MAX, usize::MAX),
                [0; 3]
            );
            for observable in [false, true] {
                let plain = lower(&image, observable);
                let limited = lower_limited(&image, NO_LIMIT, NO_LIMIT, observable);
                assert_eq!(plain, limited, "seed {seed}");
                match plain {
                    Answer::Netlist { .. } => outcomes[0] += 1,
                    Answer::Refused([number, ..]) => outcomes[number as usize] += 1,
                    Answer::Crash(text) => panic!("seed {seed}: {text}"),
                }
            }
        }
    });
    println!("accepted, then refused by number: {outcomes:?}");
    assert!(
        [0, 6, 7, 8].iter().all(|&outcome| outcomes[outcome] > 100),
        "{outcomes:?}"
    );
}

/// Nets made when a port's or cell's record is pushed; others are not told.
fn nets_at_push(record: &[u32]) -> Option<u32> {
    matches!(record[0], 0 | 3 | 4).then(|| record[record.len() - 1] + 1)
}

/// The refusal with both limits short, where the netlist alone tells it.
fn refusal_with(n: u32, p: u32, records: &[Vec<u32>]) -> Option<[u32; 3]> {
    let mut used = 0;
    let too_long = records.iter().find(|record| {
        used += record.len() as u32;
        used > p
    })?;
    let number = if nets_at_push(too_long)? > n { 9 } else { 10 };
    Some([number, 0, 0])
}

#[test]
fn limits_are_exact() {
    let mut accepted = 0;
    let mut both_short = [0; 2];
    with_big_stack(|| {
        for seed in 0..IMAGES / 4 {
            let random = &mut Random::new(seed);
            let image = image(seed);
            let answer = lower(&image, false);
            let Answer::Netlist { nodes, records } = &answer else {
                continue;
            };
            accepted += 1;
            let (n, p) = (nodes.len() as u32, list_words(records));
            assert_eq!(lower_limited(&image, n, p, false), answer, "seed {seed}");
            let limited = |n, p| lower_limited(&image, n, p, false);
            assert_eq!(limited(n - 1, p), Answer::Refused([9, 0, 0]), "seed {seed}");
            assert_eq!(
                limited(n, p - 1),
                Answer::Refused([10, 0, 0]),
                "seed {seed}"
            );
            for _ in 0..10 {
                let (n, p) = (random.below(n as usize) as u32, random.below(p as usize) as u32);
                if let Some(refusal) = refusal_with(n, p, records) {
                    assert_eq!(limited(n, p), Answer::Refused(refusal), "seed {seed}");
                    both_short[refusal[0] as usize - 9] += 1;
                }
            }
        }
    });
    println!("accepted {accepted}, both limits short: 9 and 10 {both_short:?}");
    assert!(accepted > 100 && both_short.iter().all(|&count| count > 100));
}

/// Growing net limits: 9 up to some limit, from there the refusal of its own.
#[test]
fn a_limit_met_before_another_refusal_comes_first() {
    let mut refused = 0;
    with_big_stack(|| {
        for seed in 0..IMAGES / 4 {
            let image = image(seed);
            let answer = lower(&image, false);
            if !matches!(answer, Answer::Refused(_)) {
                continue;
            }
            refused += 1;
            let mut limits = (1..).map(|n| lower_limited(&image, n, NO_LIMIT, false));
            let first = limits.find(|a| *a != Answer::Refused([9, 0, 0]));
            assert_eq!(first, Some(answer), "seed {seed}");
        }
    });
    assert!(refused > 100);
}

#[test]
fn nodes_are_made_before_their_record() {
    let two = assembled("input a 2\n");
    assert_eq!(lower_limited(&two, 1, 0, false), Answer::Refused([9, 0, 0]));
    let one = assembled("input a 1\n");
    assert_eq!(lower_limited(&one, 1, 0, false), Answer::Refused([10, 0, 0]));
    assert!(matches!(lower_limited(&one, 1, 4, false), Answer::Netlist { .. }));
}

/// Cells that no register reads still stand before the register that made them.
#[test]
fn records_of_unread_cells_keep_their_place() {
    let image = assembled(
        "input clk 1\ninput x 2\ninput y 2\noutput q 1\noutput r 1\n\
         register q target q next (and 1'd0 (ltu x y)) clock clk\n\
         register r target r next (and 1'd0 (ltu y x)) clock clk\n",
    );
    let answer = lower(&image, false);
    assert_eq!(answer, lower_limited(&image, NO_LIMIT, NO_LIMIT, false));
    let Answer::Netlist { records, .. } = answer else {
        panic!("accepted")
    };
    let sorts: Vec<u32> = records.iter().map(|record| record[0]).collect();
    assert_eq!(sorts, [0, 0, 0, 4, 1, 4, 1, 0, 0]);
}

/// Reset bit 0 constant, bit 1 not: the record of bit 0 is pushed in between.
#[test]
fn a_reset_bit_is_judged_after_the_records_before_it() {
    let image = assembled(
        "input clk 1\ninput rst 1\ninput a 1\noutput q 2\n\
         register r target q next q clock clk reset rst value (concat a 1'd1)\n",
    );
    let ports = 3 * 4;
    assert_eq!(lower_limited(&image, 100, ports + 13, false), Answer::Refused([8, 0, 1]));
    assert_eq!(lower_limited(&image, 100, ports + 12, false), Answer::Refused([10, 0, 0]));
}

/// The deepest chain: every bit of a word rests on the bit below through all
/// expressions. It overflows usual stacks.
#[test]
fn the_deepest_chain_is_answered() {
    let image = deepest(32, 1_000).encode();
    assert_eq!(reference::check(&image, 1, 0, usize::MAX, usize::MAX), [0; 3]);
    let answer = lower(&image, false);
    assert!(matches!(answer, Answer::Netlist { .. }));
    assert_eq!(answer, lower_limited(&image, NO_LIMIT, NO_LIMIT, false));
}

#[test]
fn words_hold_header_nodes_and_list() {
    let answer = lower(&inverter().encode(), false);
    let mut expected = vec![1, 3, 16, 8, 40, 2, 0, 0, 0, 0, 0, 0, 0, 0, 0, 0];
    expected.extend([0, 0, 0, ABSENT, ABSENT, ABSENT]);
    expected.extend([5, ABSENT, ABSENT, 0, ABSENT, ABSENT]);
    expected.extend([8, 1, 0, 1, ABSENT, ABSENT]);
    expected.extend([0; 6]);
    expected.extend([0, 0, 1, 0, 0, 1, 1, 2, 0, 0]);
    assert_eq!(words(&answer, 4, 10), expected);
    assert_eq!(words(&Answer::Refused([9, 0, 0]), 1, 2), [0; 24]);
}
