//! The rows of Or and Xor of request Q-5 in the Rust that everything is compared
//! with: they are the request's, nothing else changes, and random images and
//! tables meet them often.

use driver::{expressions, lower, lower_unchanged, with_big_stack};
use image::{generate, kind, table, Builder, Expr, Image, Size};

const AND: u32 = 0;
const OR: u32 = 1;
const XOR: u32 = 2;

/// "The number with all ones up to the bit length" of a number.
fn all_ones(number: u64) -> u64 {
    let mut ones = 0;
    while ones < number {
        ones = 2 * ones + 1;
    }
    ones
}

/// Numbers at and around powers of two.
fn maxima() -> Vec<u64> {
    let powers = [5, 31, 32, 33, 62, 63].map(|bit| 1 << bit);
    let around = powers.into_iter().flat_map(|power: u64| [power - 1, power, power + 1]);
    (0..=17).chain(around).chain([u64::MAX - 1, u64::MAX]).collect()
}

/// The range of the last expression of a 64-bit image.
fn last_range(make: impl Fn(&mut Builder) -> Expr) -> Option<(u64, u64)> {
    let mut builder = Builder::new();
    make(&mut builder);
    let (ranged, _) = expressions(&builder.finish().encode(), &[]).expect("a right image");
    ranged.last().expect("an expression").range
}

/// A word from 0 to the number: an input under a mask.
fn up_to(builder: &mut Builder, name: &str, most: u64) -> Expr {
    let input = builder.input(name, 64);
    let word = builder.read(input);
    let mask = builder.constant(64, most);
    builder.and(word, mask)
}

#[test]
fn minimum_0_and_all_ones_up_to_the_bit_length_of_the_larger_maximum() {
    for op in [OR, XOR] {
        for lhs in maxima() {
            for rhs in maxima() {
                let masked = last_range(|builder| {
                    let operands = [up_to(builder, "a", lhs), up_to(builder, "b", rhs)];
                    builder.binary(op, operands[0], operands[1])
                });
                let constant = last_range(|builder| {
                    let operands = [lhs, rhs].map(|value| builder.constant(64, value));
                    builder.binary(op, operands[0], operands[1])
                });
                let expected = Some((0, all_ones(lhs.max(rhs))));
                assert_eq!([masked, constant], [expected; 2], "{op} of {lhs} and {rhs}");
            }
        }
    }
}

fn is_row(fields: &[u32; 5]) -> bool {
    fields[0] == kind::BINARY && [OR, XOR].contains(&fields[2])
}

fn images() -> impl Iterator<Item = Image> {
    (0..3_000).map(|seed| generate(seed, if seed % 3 == 0 { Size::Small } else { Size::Tiny }))
}

#[test]
fn without_or_and_xor_nothing_changes() {
    with_big_stack(|| {
        for mut image in images() {
            let rows = image.expressions.iter_mut().filter(|fields| is_row(fields));
            rows.for_each(|fields| fields[2] = AND);
            let bytes = image.encode();
            for observable in [false, true] {
                assert_eq!(lower(&bytes, observable), lower_unchanged(&bytes, observable));
            }
        }
    });
}

#[test]
fn random_images_meet_the_rows() {
    let changed = with_big_stack(|| {
        let images = images().map(|image| image.encode());
        images.filter(|bytes| lower(bytes, false) != lower_unchanged(bytes, false)).count()
    });
    assert!(changed > 200, "the answer to {changed} images");
}

#[test]
fn random_tables_meet_the_rows() {
    let narrowed: usize = (0..3_000)
        .map(|seed| {
            let (ranged, _) = expressions(&table(seed).encode(), &[]).expect("a right table");
            ranged.iter().filter(|row| row.by_rows).count()
        })
        .sum();
    assert!(narrowed > 300, "{narrowed} adders");
}
