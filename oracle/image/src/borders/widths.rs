//! Widths, their sums, and the width rule of each operator.

use super::Cases;
use crate::builder::{Builder, Expr};
use crate::format::*;

pub fn add(cases: &mut Cases) {
    single(cases);
    signal_sums(cases);
    expression_sums(cases);
    for width in [1, 2, 63, 64, 65, 1023, 1024] {
        operators(cases, width);
    }
    ranges(cases);
}

fn single(cases: &mut Cases) {
    for width in [0, 1, 2, 1023, 1024, 1025, 2048, ABSENT] {
        let mut signal = Image {
            names: b"ab".to_vec(),
            ..Image::default()
        };
        signal.signals.push([0, 1, width, 1]);
        cases.image(format!("signal of width {width}"), &signal);
        let mut expression = Image {
            list: vec![1; 64],
            ..Image::default()
        };
        expression
            .expressions
            .push([kind::CONSTANT, width, 0, 0, 0]);
        cases.image(format!("constant of width {width}"), &expression);
    }
}

fn signal_sums(cases: &mut Cases) {
    for widths in [
        vec![1024; 4],
        [vec![1024; 4], vec![1]].concat(),
        [vec![1024; 3], vec![1023, 1]].concat(),
        [vec![1024; 3], vec![1023, 2]].concat(),
        [vec![1], vec![1024; 4]].concat(),
        [vec![1024; 6], vec![0]].concat(),
        vec![8; 512],
        [vec![8; 511], vec![9]].concat(),
    ] {
        let mut builder = Builder::new();
        for (number, width) in widths.iter().enumerate() {
            builder.input(&format!("a{number}"), *width);
        }
        cases.image(
            format!("signals of {}", sum_name(&widths)),
            &builder.finish(),
        );
    }
}

fn expression_sums(cases: &mut Cases) {
    for widths in [
        vec![1024; 32],
        [vec![1024; 32], vec![1]].concat(),
        [vec![1024; 31], vec![1023, 1]].concat(),
        [vec![1024; 31], vec![1023, 2]].concat(),
        [vec![1024; 40], vec![0]].concat(),
        vec![16; 2048],
        [vec![16; 2047], vec![17]].concat(),
    ] {
        let mut image = Image {
            list: vec![7; 32],
            ..Image::default()
        };
        image.expressions = widths
            .iter()
            .map(|width| [kind::CONSTANT, *width, 0, 0, 0])
            .collect();
        cases.image(format!("expressions of {}", sum_name(&widths)), &image);
    }
}

fn sum_name(widths: &[u32]) -> String {
    let sum: u32 = widths.iter().sum();
    let [first, .., last] = widths else {
        return sum.to_string();
    };
    format!("{first} to {last} bits, {} of {sum}", widths.len())
}

/// Each operator with right widths and with one of three widths off by one.
fn operators(cases: &mut Cases, width: u32) {
    for (op, name) in UNARY_OPS.iter().enumerate() {
        variants(
            cases,
            &format!("{name} of {width} bits"),
            width,
            |builder, x, _| builder.unary(op as u32, x),
        );
    }
    for (op, name) in BINARY_OPS.iter().enumerate() {
        variants(
            cases,
            &format!("{name} of {width} bits"),
            width,
            |builder, x, y| builder.binary(op as u32, x, y),
        );
    }
    variants(
        cases,
        &format!("mux of {width} bits"),
        width,
        |builder, x, y| {
            let condition = builder.constant(1, 1);
            builder.mux(condition, x, y)
        },
    );
    variants(
        cases,
        &format!("mux with a condition of {width} bits"),
        width,
        |builder, x, y| builder.mux(x, y, y),
    );
    variants(
        cases,
        &format!("concat of {width} bits"),
        width,
        |builder, x, y| builder.concat(&[x, y]),
    );
    variants(
        cases,
        &format!("slice of {width} bits"),
        width,
        |builder, x, _| builder.slice(x, 0, width),
    );
}

/// The form over operands of widths around `width` and with its own width
/// around what it should be.
fn variants(
    cases: &mut Cases,
    name: &str,
    width: u32,
    form: impl Fn(&mut Builder, Expr, Expr) -> Expr,
) {
    for (left, right) in [(0i64, 0), (1, 0), (-1, 0), (0, 1), (0, -1), (1, 1)] {
        for own in [0i64, 1, -1] {
            let moved = |by: i64| (i64::from(width) + by) as u32;
            if own != 0 && (left, right) != (0, 0) || moved(left) == 0 || moved(right) == 0 {
                continue;
            }
            let mut builder = Builder::new();
            let x = builder.constant_limbs(moved(left), &[0x1234_5678_9abc_def0; 17]);
            let y = builder.constant_limbs(moved(right), &[0xfedc_ba98_7654_3210; 17]);
            form(&mut builder, x, y);
            let mut image = builder.finish();
            let last = image.expressions.len() - 1;
            let width = &mut image.expressions[last][1];
            *width = (i64::from(*width) + own).max(0) as u32;
            cases.image(
                format!("{name}, operands {left:+} {right:+}, result {own:+}"),
                &image,
            );
        }
    }
}

/// Stretches of signals, slices and assignments at their ends, with sums
/// that would wrap.
const STRETCHES: [(u32, u32); 14] = [
    (0, 8),
    (0, 9),
    (1, 7),
    (1, 8),
    (7, 1),
    (8, 1),
    (8, 0),
    (0, 0),
    (ABSENT, 1),
    (ABSENT, 2),
    (ABSENT - 6, 8),
    (0x8000_0000, 8),
    (ABSENT - 7, 8),
    (1, ABSENT),
];

fn ranges(cases: &mut Cases) {
    for (lsb, width) in STRETCHES {
        let mut builder = Builder::new();
        let a = builder.input("a", 8);
        let y = builder.output("y", 8);
        let read = builder.read(a);
        builder.assign(y, read);
        let base = builder.finish();
        let mut signal = base.clone();
        signal.expressions.push([kind::SIGNAL, width, 0, lsb, 0]);
        cases.image(format!("signal expression at {lsb} of {width}"), &signal);
        let mut slice = base.clone();
        slice.expressions.push([kind::SLICE, width, 0, lsb, 0]);
        cases.image(format!("slice at {lsb} of {width}"), &slice);
        let mut assignment = base;
        if width > 0 && width <= 1024 {
            let constant = [kind::CONSTANT, width, 0, 0, 0];
            assignment.list = vec![0; 32];
            assignment.expressions.push(constant);
        }
        let value = assignment.expressions.len() as u32 - 1;
        assignment.assignments[0] = [1, lsb, width, value];
        cases.image(format!("assignment at {lsb} of {width}"), &assignment);
    }
}
