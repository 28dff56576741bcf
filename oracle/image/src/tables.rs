//! Seeded random expression tables: images of inputs and expressions only, in
//! the shapes on which the range analysis and the fusion decide something.

use crate::builder::{Builder, Expr, Signal};
use crate::format::*;
use crate::random::Random;

const AND: u32 = 0;
const OR: u32 = 1;
const XOR: u32 = 2;
const ADD: u32 = 3;
const SUB: u32 = 4;

/// Widths by kind; those around 64 are where the range analysis ends.
const WIDTHS: [&[u32]; 6] = [
    &[1, 2, 3, 4],
    &[5, 8, 9, 16],
    &[31, 32, 33],
    &[62, 63, 64],
    &[63, 64, 65, 66],
    &[127, 128, 129, 200],
];

/// Wider operands are not nested: they take too many expression bits.
const MOST_NESTED: u32 = 256;

/// A valid image. Equal seeds give equal images.
pub fn table(seed: u64) -> Image {
    let mut table = Table::new(Random::new(seed));
    let goal = match table.random.below(20) {
        0 => table.random.range(40, 160),
        1..=5 => table.random.range(12, 40),
        _ => table.random.range(1, 12),
    };
    while table.builder.image().expressions.len() < goal as usize && table.has_room() {
        table.step();
    }
    table.builder.finish()
}

struct Table {
    random: Random,
    builder: Builder,
    inputs: Vec<Signal>,
    /// The widths that this table prefers.
    widths: Vec<u32>,
}

impl Table {
    fn new(mut random: Random) -> Self {
        let mut widths = Vec::new();
        for _ in 0..random.range(1, 4) {
            let kind = random.pick(&WIDTHS);
            widths.push(random.pick(kind));
        }
        if random.chance(1) {
            widths.push(random.pick(&[1_023, MOST_WIDTH]));
        }
        let mut builder = Builder::new();
        let mut inputs = vec![builder.input("c", 1)];
        for (number, &width) in widths.iter().enumerate() {
            inputs.push(builder.input(&format!("a{number}"), width));
        }
        Table {
            random,
            builder,
            inputs,
            widths,
        }
    }

    /// Whether one more step fits, however much it makes.
    fn has_room(&self) -> bool {
        let image = self.builder.image();
        image.expressions.len() + 200 < MOST[EXPRESSIONS]
            && image.expression_bits() + 16 * MOST_WIDTH as usize <= MOST_EXPRESSION_BITS
            && image.list.len() + 1_200 < MOST[LIST]
    }

    fn width(&mut self) -> u32 {
        if self.random.chance(15) {
            let kind = self.random.pick(&WIDTHS);
            return self.random.pick(kind);
        }
        self.random.pick(&self.widths)
    }

    /// One expression more, and what it needs.
    fn step(&mut self) {
        let width = self.width();
        match self.random.below(100) {
            0..=8 => self.leaf(width),
            9..=24 => self.sum(width),
            25..=39 => self.carried_sum(width),
            40..=46 => self.operator(width),
            47..=60 => self.joined_sum(width.clamp(2, MOST_NESTED)),
            61..=69 => self.mux(width),
            70..=80 => self.slice(),
            81..=90 => self.concat(),
            _ => self.extended(width),
        };
    }

    // Operands.

    fn leaf(&mut self, width: u32) -> Expr {
        let wide: Vec<Signal> = self.inputs.iter().copied().filter(|&signal| self.builder.signal_width(signal) >= width).collect();
        if wide.is_empty() || self.random.chance(45) {
            return self.constant(width);
        }
        let signal = self.random.pick(&wide);
        let spare = self.builder.signal_width(signal) - width;
        let lsb = self.random.range(0, spare);
        self.builder.read_range(signal, lsb, width)
    }

    /// Constants on the borders of words, and constants of wide words.
    fn constant(&mut self, width: u32) -> Expr {
        let top = u64::MAX >> (64 - width.min(64));
        let value = match self.random.below(12) {
            0..=2 => 0,
            3 => 1,
            4 => 2,
            5 => top,
            6 => top - 1,
            7 => top / 2,
            8 => top / 2 + 1,
            9 => 1 << self.random.below(64),
            10 => self.random.next() & 255,
            _ => self.random.next(),
        };
        let above = if self.random.chance(60) { 0 } else { self.random.next() & self.random.next() };
        self.builder.constant_limbs(width, &[value, above])
    }

    /// An expression of the width: an earlier one, or a new one.
    fn operand(&mut self, width: u32) -> Expr {
        let count = self.builder.image().expressions.len();
        for _ in 0..4 {
            if count == 0 || self.random.chance(15) {
                break;
            }
            let back = self.random.below(count).min(self.random.below(count));
            let expression = Expr((count - 1 - back) as u32);
            if self.builder.width(expression) == width {
                return expression;
            }
        }
        match self.random.below(10) {
            6.. if width <= MOST_NESTED => self.extended(width),
            _ => self.leaf(width),
        }
    }

    /// A narrower expression under zeros, or alone.
    fn extended(&mut self, width: u32) -> Expr {
        if width == 1 {
            return self.leaf(1);
        }
        let low = match self.random.below(4) {
            0 => 1,
            1 => width - 1,
            _ => self.random.range(1, width - 1),
        };
        let value = self.leaf(low);
        let zeros = self.zeros(width - low, 3);
        match self.random.below(8) {
            0 => self.builder.concat(&[value, zeros]),
            1 => {
                let inner = self.builder.concat(&[zeros, value]);
                self.builder.concat(&[inner])
            }
            _ => self.builder.concat(&[zeros, value]),
        }
    }

    /// Zeros: a constant, Concats of zeros, or something that is none.
    fn zeros(&mut self, width: u32, depth: u32) -> Expr {
        let depth = if width <= MOST_NESTED { depth } else { 0 };
        match self.random.below(12) {
            0 => self.leaf(width),
            1 => self.builder.constant(width, 1),
            2..=5 if depth > 0 && width > 1 => {
                let high = self.random.range(1, width - 1);
                let parts = [self.zeros(high, depth - 1), self.zeros(width - high, depth - 1)];
                self.builder.concat(&parts)
            }
            6 if depth > 0 => {
                let part = self.zeros(width, depth - 1);
                self.builder.concat(&[part])
            }
            _ => self.builder.constant(width, 0),
        }
    }

    // Operators.

    /// A sum of several operands, nested to the left or to the right.
    fn sum(&mut self, width: u32) -> Expr {
        let mut sum = self.operand(width);
        for _ in 0..self.random.range(1, 5) {
            let other = self.operand(width);
            sum = match self.random.below(5) {
                0 | 1 => self.builder.binary(ADD, other, sum),
                2 => self.builder.binary(SUB, sum, other),
                _ => self.builder.binary(ADD, sum, other),
            };
        }
        sum
    }

    /// A sum of words that are joined of fields.
    fn joined_sum(&mut self, width: u32) -> Expr {
        let mut lhs = self.joined(width);
        if self.random.chance(25) {
            let condition = if self.random.flag() { self.joined(1) } else { self.operand(1) };
            let other = self.field(width);
            lhs = self.builder.mux(condition, lhs, other);
        }
        let rhs = if self.random.chance(30) { self.joined(width) } else { self.field(width) };
        let op = if self.random.chance(85) { ADD } else { SUB };
        self.builder.binary(op, lhs, rhs)
    }

    /// Fields joined by Or and Xor.
    fn joined(&mut self, width: u32) -> Expr {
        let mut word = self.field(width);
        for _ in 0..self.random.range(1, 3) {
            let other = self.field(width);
            let op = self.random.pick(&[OR, XOR]);
            word = self.builder.binary(op, word, other);
        }
        word
    }

    /// A masked word, a narrower one under zeros, a constant, or another operand.
    fn field(&mut self, width: u32) -> Expr {
        match self.random.below(16) {
            0..=7 => {
                let word = self.operand(width);
                let bits = self.random.below(width.min(64) as usize);
                let mask = self.random.next() & ((1 << bits) | ((1 << bits) - 1));
                let mask = self.builder.constant(width, mask);
                self.builder.binary(AND, word, mask)
            }
            8..=13 => self.extended(width),
            14 => self.constant(width),
            _ => self.operand(width),
        }
    }

    /// A sum, and one bit or what looks like it, in either order.
    fn carried_sum(&mut self, width: u32) -> Expr {
        let lhs = self.operand(width);
        let rhs = self.operand(width);
        let inner = self.builder.binary(ADD, lhs, rhs);
        let carry = self.carry(width);
        match self.random.below(6) {
            0 | 1 => self.builder.binary(ADD, carry, inner),
            2 => {
                let other = self.operand(width);
                let second = self.builder.binary(ADD, inner, other);
                self.builder.binary(ADD, inner, second)
            }
            3 => {
                let outer = self.builder.binary(ADD, inner, carry);
                let again = self.carry(width);
                self.builder.binary(ADD, outer, again)
            }
            _ => self.builder.binary(ADD, inner, carry),
        }
    }

    /// One bit under zeros, small constants, and what nearly is that.
    fn carry(&mut self, width: u32) -> Expr {
        if width == 1 {
            return self.operand(1);
        }
        let bit = self.operand(1);
        let zeros = self.zeros(width - 1, 3);
        match self.random.below(9) {
            0 => self.builder.constant(width, 0),
            1 => self.builder.constant(width, 1),
            2 => self.constant(width),
            3 => self.builder.concat(&[bit, zeros]),
            4 if width > 2 => {
                let two = self.leaf(2);
                let zeros = self.zeros(width - 2, 2);
                self.builder.concat(&[zeros, two])
            }
            5 if width > 2 => {
                let high = self.random.range(1, width - 2);
                let parts = [self.zeros(high, 2), self.zeros(width - 1 - high, 2), bit];
                self.builder.concat(&parts)
            }
            6 => {
                let inner = self.builder.concat(&[zeros, bit]);
                self.builder.concat(&[inner])
            }
            _ => self.builder.concat(&[zeros, bit]),
        }
    }

    fn operator(&mut self, width: u32) -> Expr {
        let lhs = self.operand(width);
        let op = match self.random.below(6) {
            0 => self.random.below(BINARY_OPS.len()) as u32,
            1 => SUB,
            2 => OR,
            3 => XOR,
            _ => AND,
        };
        if binary_class(op) == BinaryClass::Shift {
            let amount = self.random.range(1, 7);
            let amount = self.operand(amount);
            return self.builder.binary(op, lhs, amount);
        }
        if self.random.chance(8) {
            let op = self.random.below(UNARY_OPS.len()) as u32;
            return self.builder.unary(op, lhs);
        }
        let rhs = self.operand(width);
        self.builder.binary(op, lhs, rhs)
    }

    fn mux(&mut self, width: u32) -> Expr {
        let condition = if self.random.chance(50) { self.constant(1) } else { self.operand(1) };
        let then = self.operand(width);
        let otherwise = self.operand(width);
        self.builder.mux(condition, then, otherwise)
    }

    /// Bits of an expression, also from bit 64 of a wide one on.
    fn slice(&mut self) -> Expr {
        let count = self.builder.image().expressions.len();
        let input = match count {
            0 => {
                let width = self.width();
                self.leaf(width)
            }
            _ => Expr(self.random.below(count) as u32),
        };
        let own = self.builder.width(input);
        let width = match self.random.below(3) {
            0 => self.width().min(own),
            1 => own,
            _ => self.random.range(1, own),
        };
        let lsb = match self.random.below(3) {
            0 => 0,
            1 => own - width,
            _ => self.random.range(0, own - width),
        };
        self.builder.slice(input, lsb, width)
    }

    /// Up to five parts, also of more than 64 bits together.
    fn concat(&mut self) -> Expr {
        let mut parts = Vec::new();
        let mut total = 0;
        for _ in 0..self.random.range(1, 5) {
            let width = match self.random.below(3) {
                0 => self.random.range(1, 4),
                _ => self.width(),
            };
            if total + width <= MOST_WIDTH {
                total += width;
                parts.push(self.operand(width));
            }
        }
        self.builder.concat(&parts)
    }
}
