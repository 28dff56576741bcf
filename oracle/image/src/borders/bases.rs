//! Images the border cases start from.

use crate::builder::{Builder, Control, Expr, Memory, Port, Register, Reset, Signal};
use crate::format::{Image, BINARY_OPS, UNARY_OPS};

/// Input a, output y, y = BitNot a: the listing's example.
pub fn inverter() -> Image {
    let mut builder = Builder::new();
    let a = builder.input("a", 1);
    let y = builder.output("y", 1);
    let read = builder.read(a);
    let value = builder.not(read);
    builder.assign(y, value);
    builder.finish()
}

/// Every kind of record, operator and control once or more.
pub fn full() -> Image {
    let mut builder = Builder::new();
    let clk = builder.input("clk", 1);
    let en = builder.input("en", 1);
    let rst = builder.input("rst", 1);
    let a = builder.input("a", 8);
    let b = builder.input("b", 8);
    let address = builder.input("addr", 4);
    let y = builder.output("y", 8);
    let z = builder.output("z", 1);
    let w = builder.wire("w", 8);
    let targets = [0, 1, 2, 3].map(|number| builder.wire(&format!("q{number}"), 8));
    let data = [0, 1, 2].map(|number| builder.output(&format!("d{number}"), 8));
    let [value, bit] = operators(&mut builder, a, b, en);
    let address = builder.read(address);
    let low = builder.slice(value, 0, 4);
    let high = builder.read_range(a, 4, 4);
    let reset = builder.constant(8, 0x5a);
    builder.assign(y, value);
    builder.assign(z, bit);
    builder.assign_range(w, 0, low);
    builder.assign_range(w, 4, high);
    let enable = Control { signal: en, low: true };
    let control = Control { signal: rst, low: false };
    let reset = Reset { control, asynchronous: true, value: reset };
    for (number, target) in targets.into_iter().enumerate() {
        let mut register = Register::new(target, value, clk);
        register.falling = number == 3;
        register.enable = (number & 1 == 1).then_some(enable);
        register.reset = (number & 2 == 2).then_some(reset);
        builder.register(&format!("r{number}"), register);
    }
    let port = |read_data, read_enable| Port {
        read_address: address,
        read_data,
        read_enable,
        write_address: address,
        write_data: value,
        write_enable: Control { signal: en, low: false },
        clock: clk,
        falling: false,
    };
    memories(&mut builder, port(data[0], None), [port(data[1], Some(enable)), port(data[2], Some(enable))]);
    builder.finish()
}

/// A memory of one port and one of two.
fn memories(builder: &mut Builder, only: Port, [first, second]: [Port; 2]) {
    builder.memory("m0", Memory { depth: 16, style: 1, first: only, second: None });
    builder.memory("m1", Memory { depth: 9, style: 2, first, second: Some(second) });
}

/// All operators over two signals; a word and a bit that need all of them.
fn operators(builder: &mut Builder, a: Signal, b: Signal, c: Signal) -> [Expr; 2] {
    let [a, b, c] = [a, b, c].map(|signal| builder.read(signal));
    let mut word = builder.constant(8, 200);
    let mut bit = c;
    for op in 0..UNARY_OPS.len() as u32 {
        let result = builder.unary(op, a);
        (word, bit) = joined(builder, word, bit, result);
    }
    for op in 0..BINARY_OPS.len() as u32 {
        let result = builder.binary(op, a, b);
        (word, bit) = joined(builder, word, bit, result);
    }
    let low = builder.slice(a, 1, 3);
    let five = builder.constant(5, 9);
    let concat = builder.concat(&[low, five]);
    [builder.mux(bit, word, concat), bit]
}

fn joined(builder: &mut Builder, word: Expr, bit: Expr, result: Expr) -> (Expr, Expr) {
    if builder.width(result) == 1 {
        (word, builder.xor(bit, result))
    } else {
        (builder.xor(word, result), bit)
    }
}

/// Small images that end with different records last: their limits are
/// swept one by one.
pub fn swept() -> Vec<(&'static str, Image)> {
    vec![
        ("inverter", inverter()),
        ("one register", one_register()),
        ("one memory", one_memory()),
        ("adder", word_cell(3)),
        ("comparison", word_cell(8)),
        ("reset not constant at bit 1", half_constant_reset()),
        ("undriven output", undriven()),
        ("two inputs", two_inputs()),
    ]
}

fn one_register() -> Image {
    let mut builder = Builder::new();
    let clk = builder.input("clk", 1);
    let a = builder.input("a", 2);
    let q = builder.output("q", 2);
    let next = builder.read(a);
    let value = builder.constant(2, 1);
    let mut register = Register::new(q, next, clk);
    let control = Control {
        signal: clk,
        low: true,
    };
    register.reset = Some(Reset {
        control,
        asynchronous: false,
        value,
    });
    builder.register("q", register);
    builder.finish()
}

fn one_memory() -> Image {
    let mut builder = Builder::new();
    let clk = builder.input("clk", 1);
    let d = builder.output("d", 1);
    let read = builder.read(clk);
    let write_enable = Control {
        signal: clk,
        low: false,
    };
    let port = Port {
        read_address: read,
        read_data: d,
        read_enable: None,
        write_address: read,
        write_data: read,
        write_enable,
        clock: clk,
        falling: false,
    };
    builder.memory(
        "m",
        Memory {
            depth: 2,
            style: 0,
            first: port,
            second: None,
        },
    );
    builder.finish()
}

fn word_cell(op: u32) -> Image {
    let mut builder = Builder::new();
    let a = builder.input("a", 2);
    let b = builder.input("b", 2);
    let lhs = builder.read(a);
    let rhs = builder.read(b);
    let value = builder.binary(op, lhs, rhs);
    let width = builder.width(value);
    let y = builder.output("y", width);
    builder.assign(y, value);
    builder.finish()
}

fn half_constant_reset() -> Image {
    let mut builder = Builder::new();
    let clk = builder.input("clk", 1);
    let q = builder.wire("q", 2);
    let bit = builder.read(clk);
    let one = builder.constant(1, 1);
    let value = builder.concat(&[bit, one]);
    let mut register = Register::new(q, value, clk);
    let control = Control {
        signal: clk,
        low: false,
    };
    register.reset = Some(Reset {
        control,
        asynchronous: true,
        value,
    });
    builder.register("q", register);
    builder.finish()
}

fn undriven() -> Image {
    let mut builder = Builder::new();
    builder.input("a", 1);
    builder.output("y", 2);
    builder.finish()
}

fn two_inputs() -> Image {
    let mut builder = Builder::new();
    builder.input("a", 2);
    builder.input("b", 1);
    builder.finish()
}
