//! List stretches of constants and concats, and operand numbers.

use super::Cases;
use crate::builder::Builder;
use crate::format::*;

pub fn add(cases: &mut Cases) {
    constants(cases);
    concats(cases);
    parts(cases);
    operands(cases);
}

/// A constant of each width at the very end of the list and one past it.
fn constants(cases: &mut Cases) {
    for width in [
        1, 31, 32, 33, 63, 64, 65, 127, 128, 129, 960, 961, 1023, 1024,
    ] {
        let words = constant_words(width) as u32;
        for (start, length) in [
            (0, words),
            (0, words - 1),
            (5, 5 + words),
            (5, 4 + words),
            (6, 5 + words),
            (ABSENT, 40),
            (ABSENT - words + 1, 40),
            (40, 40),
            (39, 40),
        ] {
            let mut image = Image {
                list: vec![ABSENT; length as usize],
                ..Image::default()
            };
            image.expressions.push([kind::CONSTANT, width, start, 0, 0]);
            cases.image(
                format!("constant of {width} at {start} of {length} words"),
                &image,
            );
        }
    }
}

fn concats(cases: &mut Cases) {
    for (start, count, length) in [
        (0, 0, 4),
        (0, 1, 4),
        (0, 4, 4),
        (0, 5, 4),
        (3, 1, 4),
        (3, 2, 4),
        (4, 0, 4),
        (4, 1, 4),
        (0, 0, 0),
        (ABSENT, 1, 4),
        (ABSENT, 2, 4),
        (1, ABSENT, 4),
        (2, ABSENT, 4),
        (0, ABSENT, 4),
        (0x8000_0000, 0x8000_0000, 4),
        (0, 1024, 1024),
        (0, 1025, 1025),
        (0, 8192, 8192),
        (0, 8193, 8192),
    ] {
        let mut image = one_bit();
        image.list = vec![0; length];
        let width = count.min(1025);
        image
            .expressions
            .push([kind::CONCAT, width, start, count, 0]);
        cases.image(
            format!("concat of {count} at {start} of {length} words"),
            &image,
        );
    }
}

fn one_bit() -> Image {
    let mut builder = Builder::new();
    let a = builder.input("a", 1);
    builder.read(a);
    builder.finish()
}

/// Concat parts that are or are not there.
fn parts(cases: &mut Cases) {
    for part in [0, 1, 2, 3, 4, 0x8000_0000, ABSENT] {
        for place in 0..3 {
            let mut image = one_bit();
            image.expressions.push([kind::SIGNAL, 1, 0, 0, 0]);
            image.list = vec![0; 3];
            image.list[place] = part;
            image.expressions.push([kind::CONCAT, 3, 0, 3, 0]);
            image.expressions.push([kind::SIGNAL, 1, 0, 0, 0]);
            cases.image(format!("concat part {place} is expression {part}"), &image);
        }
    }
    for widths in [
        vec![1023, 1],
        vec![1024],
        vec![1024, 1],
        vec![1024; 3],
        vec![512; 2],
        vec![1; 3],
    ] {
        let mut builder = Builder::new();
        let parts: Vec<_> = widths
            .iter()
            .map(|width| builder.constant(*width, 5))
            .collect();
        builder.concat(&parts);
        cases.image(format!("concat of parts {widths:?}"), &builder.finish());
    }
}

/// Operands with lower, the same and higher numbers.
fn operands(cases: &mut Cases) {
    let forms: [(&str, [u32; 5], &[usize]); 5] = [
        ("not", [kind::UNARY, 1, 0, 0, 0], &[3]),
        ("and", [kind::BINARY, 1, 0, 0, 0], &[3, 4]),
        ("shl", [kind::BINARY, 1, 16, 0, 0], &[3, 4]),
        ("mux", [kind::MUX, 1, 0, 0, 0], &[2, 3, 4]),
        ("slice", [kind::SLICE, 1, 0, 0, 0], &[2]),
    ];
    for (name, record, fields) in forms {
        for field in fields {
            for number in 0..4 {
                let mut image = one_bit();
                image.expressions.push([kind::SIGNAL, 1, 0, 0, 0]);
                image.expressions.push(record);
                image.expressions.push([kind::SIGNAL, 1, 0, 0, 0]);
                image.expressions[2][*field] = number;
                cases.image(
                    format!("{name} as expression 2, field {field} is {number}"),
                    &image,
                );
            }
        }
    }
}
