//! Images that ask much of a lowering: many nets, many lookups of equal gates,
//! shared expressions, wide words, many records. All keep the format's rules
//! and are accepted.

use crate::builder::{Builder, Control, Expr, Memory, Port, Register, Reset, Signal};
use crate::format::Image;

/// A shift of a 1,024-bit input by `stages` bits: 1,024 Muxes for each of
/// them. 62 stages make the most nets, 64,576.
pub fn shift_stages(stages: u32) -> Image {
    let mut builder = Builder::new();
    let word = builder.input("a", 1024);
    let amount = builder.input("s", stages);
    let output = builder.output("y", 1);
    let word = builder.read(word);
    let amount = builder.read(amount);
    let shifted = builder.shift_left(word, amount);
    let low = builder.slice(shifted, 0, 1);
    builder.assign(output, low);
    builder.finish()
}

/// Shifts of a 1,024-bit word that holds two nets only, in turn, by 1,014 bits
/// of 1,024 and more: each stage asks for 1,024 Muxes and makes two. 27 such
/// shifts ask for 28 million gates and make 55,000 nets.
pub fn gate_lookups(shifts: u32) -> Image {
    let mut builder = Builder::new();
    let [first, second] = ["a", "b"].map(|name| builder.input(name, 1));
    let amount = builder.input("s", 1014);
    let output = builder.output("y", 1);
    let pair = [first, second].map(|signal| builder.read(signal));
    let parts: Vec<Expr> = pair.into_iter().cycle().take(1024).collect();
    let mut word = builder.concat(&parts);
    let high = builder.read(amount);
    let low = builder.constant(10, 0);
    let amount = builder.concat(&[high, low]);
    for _ in 0..shifts {
        word = builder.shift_left(word, amount);
    }
    let low = builder.slice(word, 0, 1);
    builder.assign(output, low);
    builder.finish()
}

/// A chain in which each word is used twice by the next: 2^`steps` ways lead
/// from the output to the inputs. Three expressions a step.
pub fn shared_gates(steps: u32, width: u32) -> Image {
    let mut builder = Builder::new();
    let [a, b] = ["a", "b"].map(|name| builder.input(name, width));
    let output = builder.output("y", width);
    let [a, b] = [a, b].map(|signal| builder.read(signal));
    let mut word = a;
    for _ in 0..steps {
        let both = builder.and(word, b);
        let either = builder.xor(word, a);
        word = builder.xor(both, either);
    }
    builder.assign(output, word);
    builder.finish()
}

/// As [`shared_gates`], of sums, so of word cells: one expression a step.
pub fn shared_sums(steps: u32, width: u32) -> Image {
    let mut builder = Builder::new();
    let input = builder.input("a", width);
    let output = builder.output("y", width);
    let mut word = builder.read(input);
    for _ in 0..steps {
        word = builder.add(word, word);
    }
    builder.assign(output, word);
    builder.finish()
}

/// As [`shared_gates`], from signal to signal: each bit hangs twice on the same
/// bit of the signal before, and on its top bit.
pub fn shared_signals(signals: u32, width: u32) -> Image {
    let mut builder = Builder::new();
    let input = builder.input("a", width);
    let output = builder.output("y", width);
    let mut before = input;
    for number in 0..signals {
        let next = builder.wire(&format!("s{number}"), width);
        let word = builder.read(before);
        let top = builder.slice(word, width - 1, 1);
        let inverse = builder.not(word);
        let mixed = builder.mux(top, word, inverse);
        builder.assign(next, mixed);
        before = next;
    }
    let last = builder.read(before);
    builder.assign(output, last);
    builder.finish()
}

/// Reductions, Equal, shifts and comparisons of 1,024-bit words.
pub fn wide_trees() -> Image {
    let mut builder = Builder::new();
    let words = ["a", "b"].map(|name| builder.input(name, 1024));
    let amount = builder.input("s", 10);
    let output = builder.output("y", 16);
    let [a, b] = words.map(|signal| builder.read(signal));
    let amount = builder.read(amount);
    let mut bits = Vec::new();
    for op in [16, 17, 18] {
        let shifted = builder.binary(op, a, amount);
        bits.push(builder.reduce_xor(shifted));
        bits.push(builder.reduce_or(shifted));
        bits.push(builder.equal(shifted, b));
    }
    let mixed = builder.xor(a, b);
    bits.push(builder.reduce_and(mixed));
    bits.push(builder.reduce_xor(mixed));
    bits.push(builder.logic_not(mixed));
    for op in [7, 8, 9, 10] {
        bits.push(builder.binary(op, a, b));
    }
    let word = builder.concat(&bits);
    builder.assign(output, word);
    builder.finish()
}

/// A chain of 1,024-bit multiplications: cells with 3,072 nets each.
pub fn multiplications(count: u32) -> Image {
    let mut builder = Builder::new();
    let [a, b] = ["a", "b"].map(|name| builder.input(name, 1024));
    let output = builder.output("y", 1024);
    let [mut word, other] = [a, b].map(|signal| builder.read(signal));
    for _ in 0..count {
        word = builder.mul(word, other);
    }
    builder.assign(output, word);
    builder.finish()
}

/// `width` one-bit Slices of one word, each assigned to a bit of its own.
pub fn one_bit_slices(width: u32) -> Image {
    let mut builder = Builder::new();
    let [a, b] = ["a", "b"].map(|name| builder.input(name, width));
    let output = builder.output("y", width);
    let [a, b] = [a, b].map(|signal| builder.read(signal));
    let inverse = builder.not(b);
    let both = builder.and(a, inverse);
    for bit in 0..width {
        let slice = builder.slice(both, width - 1 - bit, 1);
        builder.assign_range(output, bit, slice);
    }
    builder.finish()
}

/// Registers of 8 bits with enable and reset, each counting on from the one
/// before it.
pub fn registers(count: u32) -> Image {
    let mut builder = Builder::new();
    let [clock, enable, reset] = ["clk", "en", "rst"].map(|name| builder.input(name, 1));
    let output = builder.output("y", 8);
    let zero = builder.constant(8, 0);
    let one = builder.constant(8, 1);
    let mut before = zero;
    for number in 0..count {
        let target = builder.wire(&format!("q{number}"), 8);
        let now = builder.read(target);
        let mixed = builder.xor(now, before);
        let next = builder.add(mixed, one);
        let control = |signal: Signal| Control { signal, low: number % 2 == 1 };
        builder.register(
            &format!("q{number}"),
            Register {
                enable: Some(control(enable)),
                reset: Some(Reset { control: control(reset), asynchronous: number % 3 == 0, value: zero }),
                ..Register::new(target, next, clock)
            },
        );
        before = now;
    }
    builder.assign(output, before);
    builder.finish()
}

/// Memories with two ports of `width` bits, each read where the one before it
/// points.
pub fn memories(count: u32, width: u32) -> Image {
    let mut builder = Builder::new();
    let [clock, enable] = ["clk", "en"].map(|name| builder.input(name, 1));
    let address = builder.input("a", 16);
    let output = builder.output("y", width);
    let mut address = builder.read(address);
    let mut last = None;
    for number in 0..count {
        let reads = ["r", "s"].map(|name| builder.wire(&format!("{name}{number}"), width));
        let words = reads.map(|signal| builder.read(signal));
        let write_data = builder.xor(words[0], words[1]);
        let write_address = builder.not(address);
        let port = |read_data: Signal| Port {
            read_address: address,
            read_data,
            read_enable: Some(Control { signal: enable, low: false }),
            write_address,
            write_data,
            write_enable: Control { signal: enable, low: true },
            clock,
            falling: false,
        };
        let memory = Memory { depth: 65_536, style: 0, first: port(reads[0]), second: Some(port(reads[1])) };
        builder.memory(&format!("m{number}"), memory);
        address = builder.slice(write_data, 0, 16);
        last = Some(write_data);
    }
    if let Some(word) = last {
        builder.assign(output, word);
    }
    builder.finish()
}
