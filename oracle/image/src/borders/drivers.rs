//! Drivers that meet, end next to each other, or drive an input; controls
//! of registers.

use super::memories::port;
use super::Cases;
use crate::builder::{Builder, Control, Expr, Memory, Register, Reset, Signal};
use crate::format::{Image, ABSENT};

pub fn add(cases: &mut Cases) {
    overlaps(cases);
    meetings(cases);
    registers(cases);
    register_widths(cases);
    control_widths(cases);
}

/// Two assignments to one signal of eight bits.
fn overlaps(cases: &mut Cases) {
    for (first, second) in [
        ((0, 4), (4, 4)),
        ((0, 5), (4, 4)),
        ((0, 4), (3, 5)),
        ((4, 4), (0, 4)),
        ((4, 4), (0, 5)),
        ((0, 8), (7, 1)),
        ((7, 1), (0, 7)),
        ((2, 2), (2, 2)),
        ((0, 1), (7, 1)),
        ((2, 4), (3, 1)),
    ] {
        for direction in 0..3 {
            let mut builder = Builder::new();
            let y = builder.signal("y", 8, direction);
            let z = builder.output("z", 8);
            for (lsb, width) in [first, second] {
                let value = builder.constant(width, 1);
                builder.assign_range(y, lsb, value);
            }
            let value = builder.constant(8, 1);
            builder.assign(z, value);
            cases.image(
                format!("direction {direction}, assignments {first:?} and {second:?}"),
                &builder.finish(),
            );
        }
    }
}

/// Drivers of one signal, by the letters of their sorts.
fn meetings(cases: &mut Cases) {
    for sorts in [
        "a", "r", "m", "s", "aa", "ar", "am", "as", "rr", "rm", "rs", "mm", "ms", "b", "arm",
    ] {
        for direction in 0..3 {
            let image = driven(sorts, direction);
            cases.image(format!("direction {direction}, drivers {sorts}"), &image);
        }
    }
}

/// `a` assignment, `r` register, `m` first port, `s` second port, `b` both
/// ports of one memory.
fn driven(sorts: &str, direction: u32) -> Image {
    let mut builder = Builder::new();
    let clock = builder.input("clk", 1);
    let target = builder.signal("t", 1, direction);
    let spares: Vec<Signal> = (0..4)
        .map(|number| builder.wire(&format!("s{number}"), 1))
        .collect();
    let read = builder.read(clock);
    for (number, sort) in sorts.chars().enumerate() {
        let spare = spares[number];
        let name = format!("n{number}");
        match sort {
            'a' => builder.assign(target, read),
            'r' => builder.register(&name, Register::new(target, read, clock)),
            'm' => add_memory(&mut builder, &name, [target, spare], read, clock),
            's' => add_memory(&mut builder, &name, [spare, target], read, clock),
            _ => add_memory(&mut builder, &name, [target, target], read, clock),
        }
    }
    builder.finish()
}

fn add_memory(builder: &mut Builder, name: &str, data: [Signal; 2], read: Expr, clock: Signal) {
    let [first, second] = data.map(|data| port(read, data, read, clock));
    builder.memory(
        name,
        Memory {
            depth: 2,
            style: 0,
            first,
            second: Some(second),
        },
    );
}

/// Each control of a register there or absent, with each of its fields 0,
/// at its most and one past it.
fn registers(cases: &mut Cases) {
    for enable in [ABSENT, 0, 2, 9] {
        for polarity in [0, 1, 2, ABSENT] {
            changed(cases, format!("enable {enable} {polarity}"), |register| {
                (register[6], register[7]) = (enable, polarity);
            });
        }
    }
    for reset in [ABSENT, 0, 2, 9] {
        for fields in [
            [0, 0, 0],
            [1, 0, 0],
            [0, 1, 0],
            [1, 1, 1],
            [2, 0, 0],
            [0, 2, 0],
            [0, 0, 1],
            [0, 0, 2],
            [0, 0, ABSENT],
        ] {
            changed(cases, format!("reset {reset} {fields:?}"), |register| {
                register[8] = reset;
                register[9..].copy_from_slice(&fields);
            });
        }
    }
    for edge in [0, 1, 2, ABSENT] {
        changed(cases, format!("edge {edge}"), |register| register[5] = edge);
    }
}

/// Signals: 0 one-bit input, 1 one-bit target, 2 eight-bit input.
/// Expressions: 0 one bit, 1 eight bits.
fn changed(cases: &mut Cases, name: String, change: impl Fn(&mut [u32; 12])) {
    let mut builder = Builder::new();
    let clock = builder.input("clk", 1);
    let target = builder.output("q", 1);
    let wide = builder.input("w", 8);
    let bit = builder.constant(1, 1);
    builder.read(wide);
    builder.register("q", Register::new(target, bit, clock));
    let mut image = builder.finish();
    change(&mut image.registers[0]);
    cases.image(format!("register, {name}"), &image);
}

/// Target, next and reset value of equal and unequal widths.
fn register_widths(cases: &mut Cases) {
    for (target, next, value) in [
        (8, 8, 8),
        (7, 8, 8),
        (9, 8, 8),
        (8, 7, 8),
        (8, 9, 8),
        (8, 8, 7),
        (8, 8, 9),
        (1024, 1024, 1024),
        (7, 7, 8),
    ] {
        let mut builder = Builder::new();
        let clock = builder.input("clk", 1);
        let signal = builder.output("q", target);
        let next_value = builder.constant(next, 1);
        let reset_value = builder.constant(value, 1);
        let mut register = Register::new(signal, next_value, clock);
        let control = Control {
            signal: clock,
            low: true,
        };
        register.reset = Some(Reset {
            control,
            asynchronous: false,
            value: reset_value,
        });
        builder.register("q", register);
        cases.image(
            format!("register widths {target} {next} {value}"),
            &builder.finish(),
        );
    }
}

/// Clocks and controls of one and two bits, of each direction.
fn control_widths(cases: &mut Cases) {
    for field in [4, 6, 8] {
        for width in [1, 2] {
            for direction in 0..3 {
                let mut builder = Builder::new();
                let clock = builder.input("clk", 1);
                let target = builder.output("q", 1);
                let control = builder.signal("c", width, direction);
                let bit = builder.constant(1, 0);
                if direction != 1 {
                    let value = builder.constant(width, 1);
                    builder.assign(control, value);
                }
                builder.register("q", Register::new(target, bit, clock));
                let mut image = builder.finish();
                image.registers[0][field] = control.0;
                cases.image(
                    format!("register field {field} names {width} bits of direction {direction}"),
                    &image,
                );
            }
        }
    }
}
