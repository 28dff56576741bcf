//! Images in which bits have no driver or need themselves, or nearly so: made anew,
//! and by changes that keep the rules of the format.

use crate::builder::{Builder, Expr, Signal};
use crate::format::*;
use crate::random::Random;

/// A small image of few signals whose bits depend on each other in every way.
pub fn tangled(random: &mut Random) -> Image {
    let mut builder = Builder::new();
    let most = random.range(1, 5);
    let input = builder.input("a", most);
    let output = builder.output("y", most);
    let names = ["p", "q", "r", "s"];
    let wires: Vec<_> = names[..random.range(1, 4) as usize].iter().map(|name| builder.wire(name, random.range(1, most))).collect();
    let mut made = Vec::new();
    for &wire in &wires {
        made.push(builder.read(wire));
    }
    if random.chance(50) {
        made.push(builder.read(input));
    }
    for _ in 0..random.range(2, 40) {
        let next = next_expression(&mut builder, random, &made, &wires);
        made.push(next);
    }
    for signal in wires.into_iter().chain([output]) {
        let mut bit = 0;
        while bit < builder.signal_width(signal) {
            let room = builder.signal_width(signal) - bit;
            let late = made.len() / 2 * usize::from(random.chance(70));
            let mut value = made[late + random.below(made.len() - late)];
            if builder.width(value) > room {
                value = builder.slice(value, random.range(0, builder.width(value) - room), room);
            }
            builder.assign_range(signal, bit, value);
            bit += builder.width(value);
        }
    }
    builder.finish()
}

fn next_expression(builder: &mut Builder, random: &mut Random, made: &[Expr], wires: &[Signal]) -> Expr {
    // Rather one of the last: longer chains.
    let pick = |random: &mut Random| {
        let from = if random.chance(60) { made.len().saturating_sub(4) } else { 0 };
        made[from + random.below(made.len() - from)]
    };
    let a = pick(random);
    let width = builder.width(a);
    let same: Vec<Expr> = made.iter().copied().filter(|&other| builder.width(other) == width).collect();
    let narrow: Vec<Expr> = made.iter().copied().filter(|&other| builder.width(other) == 1).collect();
    let b = random.pick(&same);
    match random.below(16) {
        0 | 1 => builder.not(a),
        2 => builder.unary(random.range(1, 4), a),
        3 | 4 => builder.binary(random.range(0, 2), a, b),
        5 => builder.add(a, b),
        6 => builder.binary(random.range(4, 15), a, b),
        7 | 8 if !narrow.is_empty() => builder.mux(random.pick(&narrow), a, b),
        9 | 10 => {
            let c = pick(random);
            builder.concat(&[a, c][..if builder.width(a) + builder.width(c) <= 8 { 2 } else { 1 }])
        }
        11 => {
            let wire = random.pick(wires);
            let lsb = random.range(0, builder.signal_width(wire) - 1);
            let width = random.range(1, builder.signal_width(wire) - lsb);
            builder.read_range(wire, lsb, width)
        }
        12 if random.chance(20) => builder.constant(random.range(1, 3), random.next() & 1),
        _ => {
            let lsb = random.range(0, width - 1);
            builder.slice(a, lsb, random.range(1, width - lsb))
        }
    }
}

/// Changes a few records: what is read, taken and used, and what drives.
pub fn tangle(random: &mut Random, image: &mut Image) {
    for _ in 0..random.range(1, 6) {
        match random.below(10) {
            0..=2 => read_elsewhere(random, image),
            3 => take_elsewhere(random, image),
            4 => operate_otherwise(random, image),
            5 => use_others(random, image),
            6 => control_by_others(random, image),
            7..=8 => drop_driver(random, image),
            _ => split_driver(random, image),
        }
    }
}

/// One of them, if there is one.
fn some<T: Copy>(random: &mut Random, of: &[T]) -> Option<T> {
    (!of.is_empty()).then(|| random.pick(of))
}

/// The numbers of the records for which it holds.
fn numbers<R>(records: &[R], is: impl Fn(&R) -> bool) -> Vec<usize> {
    (0..records.len()).filter(|&number| is(&records[number])).collect()
}

/// A Signal expression reads other bits.
fn read_elsewhere(random: &mut Random, image: &mut Image) {
    let reads = numbers(&image.expressions, |expression| expression[0] == kind::SIGNAL);
    let Some(number) = some(random, &reads) else { return };
    let width = image.expressions[number][1];
    let signal = random.pick(&numbers(&image.signals, |signal| signal[2] >= width));
    let lsb = random.range(0, image.signals[signal][2] - width);
    image.expressions[number][2..4].copy_from_slice(&[signal as u32, lsb]);
}

/// A Slice takes other bits.
fn take_elsewhere(random: &mut Random, image: &mut Image) {
    let slices = numbers(&image.expressions, |expression| expression[0] == kind::SLICE);
    let Some(number) = some(random, &slices) else { return };
    let [_, width, input, ..] = image.expressions[number];
    image.expressions[number][3] = random.range(0, image.expressions[input as usize][1] - width);
}

/// A binary operator whose operands and result have one width becomes another, or a
/// shift.
fn operate_otherwise(random: &mut Random, image: &mut Image) {
    let binary = |expression: &[u32; 5]| expression[0] == kind::BINARY && binary_class(expression[2]) == BinaryClass::Equal;
    if let Some(number) = some(random, &numbers(&image.expressions, binary)) {
        image.expressions[number][2] = random.pick(&[0, 1, 2, 3, 4, 5, 16, 17, 18]);
    }
}

/// Some fields of the records that are not absent, by where they stand in a register
/// and in a port.
fn fields<'a>(random: &mut Random, image: &'a mut Image, register: &[usize], port: &[usize]) -> Vec<&'a mut u32> {
    let mut fields: Vec<&mut u32> = Vec::new();
    for record in &mut image.registers {
        // The value of an absent reset is not one.
        let last = if record[8] == ABSENT { 11 } else { 12 };
        fields.extend(record[..last].iter_mut().enumerate().filter(|(field, _)| register.contains(field)).map(|(_, word)| word));
    }
    for record in &mut image.memories {
        let second = record[memory_field::HAS_SECOND] == 1;
        let (first_port, second_port) = record[memory_field::FIRST_PORT..].split_at_mut(memory_field::SECOND_PORT - memory_field::FIRST_PORT);
        for words in [Some(first_port), second.then_some(second_port)].into_iter().flatten() {
            fields.extend(words.iter_mut().enumerate().filter(|(field, _)| port.contains(field)).map(|(_, word)| word));
        }
    }
    fields.retain(|word| **word != ABSENT && random.chance(40));
    fields
}

/// Values that are assigned, registered, written or addressed by are others of the
/// same width.
fn use_others(random: &mut Random, image: &mut Image) {
    use port_field::{READ_ADDRESS, WRITE_ADDRESS, WRITE_DATA};
    let widths: Vec<u32> = image.expressions.iter().map(|expression| expression[1]).collect();
    let other = |random: &mut Random, value: u32| random.pick(&numbers(&widths, |&width| width == widths[value as usize])) as u32;
    for value in fields(random, image, &[3, 11], &[READ_ADDRESS, WRITE_ADDRESS, WRITE_DATA]) {
        *value = other(random, *value);
    }
    if let Some(number) = some(random, &numbers(&image.assignments, |_| true)) {
        image.assignments[number][3] = other(random, image.assignments[number][3]);
    }
}

/// Clocks, enables and resets are other signals of one bit.
fn control_by_others(random: &mut Random, image: &mut Image) {
    use port_field::{CLOCK, READ_ENABLE, WRITE_ENABLE};
    let bits = numbers(&image.signals, |signal| signal[2] == 1);
    for control in fields(random, image, &[4, 6, 8], &[READ_ENABLE, WRITE_ENABLE, CLOCK]) {
        *control = random.pick(&bits) as u32;
    }
}

/// An assignment goes, sooner one of a single bit.
fn drop_driver(random: &mut Random, image: &mut Image) {
    let narrow = random.flag();
    let assignments = numbers(&image.assignments, |assignment| !narrow || assignment[2] == 1);
    if let Some(number) = some(random, &assignments) {
        image.assignments.remove(number);
    }
}

/// An assignment becomes two, each of a Slice of its value.
fn split_driver(random: &mut Random, image: &mut Image) {
    let wide = numbers(&image.assignments, |assignment| assignment[2] > 1);
    let Some(number) = some(random, &wide) else { return };
    let [signal, lsb, width, value] = image.assignments[number];
    let bits = image.expression_bits() + width as usize;
    if image.expressions.len() + 2 > MOST[EXPRESSIONS] || bits > MOST_EXPRESSION_BITS || image.assignments.len() == MOST[ASSIGNMENTS] {
        return;
    }
    let low = random.range(1, width - 1);
    let first = image.expressions.len() as u32;
    image.expressions.push([kind::SLICE, low, value, 0, 0]);
    image.expressions.push([kind::SLICE, width - low, value, low, 0]);
    image.assignments[number] = [signal, lsb, low, first];
    image.assignments.push([signal, lsb + low, width - low, first + 1]);
}
