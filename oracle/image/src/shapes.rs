//! The steps of the random generator: every kind and operator, and the
//! shapes on which a lowering decides something.

use crate::builder::Expr;
use crate::format::*;
use crate::generate::Maker;

const ADD: u32 = 3;
const SUB: u32 = 4;

impl Maker {
    /// Adds a few expressions or a driver.
    pub fn step(&mut self) {
        if self.joins && self.random.chance(60) {
            return self.joined_add();
        }
        match self.random.below(100) {
            0..=11 => self.unary_step(),
            12..=33 => self.binary_step(),
            34..=37 => self.joined_add(),
            38..=44 => self.mux_step(),
            45..=51 => self.concat_step(),
            52..=59 => self.slice_step(),
            60..=71 => self.drive_some(),
            72..=78 => self.narrowed_add(),
            79..=86 => self.carry_add(),
            87..=88 => self.hidden_zero_add(),
            89..=90 => self.shared_comparison(),
            91..=93 => self.overlapping_slices(),
            94..=95 => self.ripple(),
            96 => self.wide_constant_slice(),
            97 => self.gate_identities(),
            98 => self.shift_step(),
            _ => self.fold_step(),
        }
    }

    fn unary_step(&mut self) {
        let op = self.random.below(UNARY_OPS.len()) as u32;
        let input = self.any();
        let result = self.builder.unary(op, input);
        self.keep(result);
    }

    fn binary_step(&mut self) {
        let op = self.random.below(BINARY_OPS.len()) as u32;
        if binary_class(op) == BinaryClass::Shift {
            return self.shift_step();
        }
        let width = self.width();
        let lhs = self.operand(width);
        let rhs = if self.random.chance(4) {
            lhs
        } else {
            self.operand(width)
        };
        let result = self.builder.binary(op, lhs, rhs);
        self.keep(result);
    }

    /// Shifts, mostly by a few bits: every bit of the amount is a stage.
    fn shift_step(&mut self) {
        let op = self.random.range(16, 18);
        let width = self.width();
        let amount_width = match self.random.below(12) {
            0 => self.width().min(70),
            1 => 12,
            _ => self.random.range(1, 7),
        };
        let lhs = self.operand(width);
        let amount = self.operand(amount_width);
        let result = self.builder.binary(op, lhs, amount);
        self.keep(result);
    }

    fn mux_step(&mut self) {
        let width = self.width();
        let mut condition = self.bit();
        if self.random.chance(25) {
            condition = self.builder.not(condition);
        }
        let then = self.operand(width);
        let otherwise = self.operand(width);
        let result = self.builder.mux(condition, then, otherwise);
        self.keep(result);
    }

    fn concat_step(&mut self) {
        let mut parts = Vec::new();
        let mut total = 0;
        for _ in 0..self.random.range(1, 4) {
            let part = self.any();
            total += self.builder.width(part);
            if total <= MOST_WIDTH {
                parts.push(part);
            } else {
                break;
            }
        }
        let result = self.builder.concat(&parts);
        self.keep(result);
    }

    fn slice_step(&mut self) {
        let input = self.any();
        let result = self.some_slice(input);
        self.keep(result);
    }

    fn some_slice(&mut self, input: Expr) -> Expr {
        let own = self.builder.width(input);
        let width = self.random.range(1, own);
        let lsb = self.random.range(0, own - width);
        self.builder.slice(input, lsb, width)
    }

    /// An Add whose operands are known to be small.
    fn narrowed_add(&mut self) {
        let width = self.width().max(2);
        let lhs = self.small_operand(width);
        let rhs = self.small_operand(width);
        let op = if self.random.chance(85) { ADD } else { SUB };
        let result = self.builder.binary(op, lhs, rhs);
        self.keep(result);
    }

    /// An operand whose upper bits are 0 in one way or another.
    fn small_operand(&mut self, width: u32) -> Expr {
        let low = self.random.range(1, width);
        match self.random.below(6) {
            0 => {
                let value = self.random.next() & 31;
                self.builder.constant(width, value)
            }
            1 => {
                let mask = self.random.next() & 255;
                let mask = self.builder.constant(width, mask);
                let value = self.operand(width);
                self.builder.and(value, mask)
            }
            2 => {
                let condition = self.bit();
                let [then, otherwise] = [0, 1].map(|_| {
                    let value = self.operand(low);
                    self.builder.zero_extend(value, width)
                });
                self.builder.mux(condition, then, otherwise)
            }
            3 if width + low <= 64 => {
                let value = self.operand(width);
                let wide = self.builder.zero_extend(value, width + low);
                self.builder.slice(wide, low, width)
            }
            _ => {
                let value = self.operand(low);
                self.builder.zero_extend(value, width)
            }
        }
    }

    /// An Add of words that are joined of fields, its upper bits taken now and then.
    fn joined_add(&mut self) {
        let width = self.width().clamp(2, 66);
        let lhs = self.joined(width);
        let rhs = if self.random.flag() { self.joined(width) } else { self.small_operand(width) };
        let sum = self.builder.add(lhs, rhs);
        self.keep(sum);
        if self.random.chance(30) {
            let top = self.random.range(1, width);
            let upper = self.builder.slice(sum, width - top, top);
            self.keep(upper);
        }
    }

    /// Small operands joined by Or and Xor.
    fn joined(&mut self, width: u32) -> Expr {
        let mut word = self.small_operand(width);
        for _ in 0..self.random.range(1, 3) {
            let other = self.small_operand(width);
            let op = self.random.range(1, 2);
            word = self.builder.binary(op, word, other);
        }
        word
    }

    /// (a + b) + c in every shape that fuses, nearly fuses or does not.
    fn carry_add(&mut self) {
        let width = if self.random.chance(20) {
            1
        } else {
            self.width().max(2)
        };
        let lhs = self.operand(width);
        let rhs = self.operand(width);
        let inner = self.builder.add(lhs, rhs);
        let carry = self.carry(width);
        let result = match self.random.below(5) {
            0 | 1 => self.builder.add(carry, inner),
            2 => {
                let [lhs, rhs] = [0, 1].map(|_| self.operand(width));
                let other = self.builder.add(lhs, rhs);
                self.builder.add(inner, other)
            }
            _ => self.builder.add(inner, carry),
        };
        self.keep(inner);
        self.keep(result);
    }

    fn carry(&mut self, width: u32) -> Expr {
        if width == 1 {
            return self.bit();
        }
        let bit = self.bit();
        match self.random.below(8) {
            0 => {
                let value = u64::from(self.random.flag());
                self.builder.constant(width, value)
            }
            1 => self.constant(width),
            2 => {
                let zeros = self.builder.constant(width - 1, 0);
                self.builder.concat(&[bit, zeros])
            }
            3 => {
                let zeros = self.nested_zeros(width - 1);
                self.builder.concat(&[zeros, bit])
            }
            4 => {
                let all: Vec<Expr> = (1..width)
                    .map(|_| self.builder.constant(1, 0))
                    .take(40)
                    .collect();
                let rest = width - 1 - all.len() as u32;
                let mut parts = all;
                if rest > 0 {
                    parts.push(self.builder.constant(rest, 0));
                }
                parts.push(bit);
                self.builder.concat(&parts)
            }
            5 => {
                let inner = self.builder.zero_extend(bit, width);
                self.builder.concat(&[inner])
            }
            _ => self.builder.zero_extend(bit, width),
        }
    }

    /// Zeros as Concats of Concats.
    fn nested_zeros(&mut self, width: u32) -> Expr {
        if width == 1 {
            let zero = self.builder.constant(1, 0);
            return self.builder.concat(&[zero]);
        }
        let high = self.random.range(1, width - 1);
        let high_part = self.builder.constant(high, 0);
        let high_part = self.builder.concat(&[high_part]);
        let low_part = self.builder.constant(width - high, 0);
        self.builder.concat(&[high_part, low_part])
    }

    /// Bits that are 0 by range but are no constant nets.
    fn hidden_zero(&mut self, width: u32) -> Expr {
        let small = self.operand(4);
        let small = self.builder.zero_extend(small, 16);
        let top = self.builder.constant(16, 31);
        let difference = self.builder.sub(top, small);
        self.builder.slice(difference, 8, width)
    }

    fn hidden_zero_add(&mut self) {
        let low = self.random.range(1, 8);
        let zero = self.hidden_zero(low);
        let rest_width = self.random.range(1, 8);
        let rest = self.operand(rest_width);
        let lhs = self.builder.concat(&[zero, rest]);
        let width = self.builder.width(lhs);
        let rhs = self.small_operand(width);
        let result = self.builder.add(lhs, rhs);
        self.keep(lhs);
        self.keep(result);
    }

    fn shared_comparison(&mut self) {
        let width = self.width();
        let lhs = self.operand(width);
        let rhs = self.operand(width);
        let less = self.random.range(8, 11);
        let first = self.builder.binary(less, lhs, rhs);
        let second = self.builder.binary(less + 4, rhs, lhs);
        self.keep(first);
        self.keep(second);
    }

    /// One bitwise expression taken in overlapping stretches.
    fn overlapping_slices(&mut self) {
        let width = self.width().max(3);
        let lhs = self.operand(width);
        let rhs = self.operand(width);
        let shared = match self.random.below(4) {
            0 => {
                let condition = self.bit();
                self.builder.mux(condition, lhs, rhs)
            }
            1 if 2 * width <= MOST_WIDTH => self.builder.concat(&[lhs, rhs]),
            2 => self.builder.not(lhs),
            _ => {
                let op = self.random.range(0, 2);
                self.builder.binary(op, lhs, rhs)
            }
        };
        for _ in 0..3 {
            let slice = self.some_slice(shared);
            self.keep(slice);
        }
        if self.random.flag() {
            self.keep(shared);
        }
    }

    /// A signal whose bit i + 1 depends on its bit i: a cycle of the vector,
    /// not of its bits, as long as it is read through Slices.
    fn ripple(&mut self) {
        let Some((number, width)) = self.untouched() else {
            return;
        };
        let whole = self.builder.read(crate::Signal(number as u32));
        let other = self.operand(width);
        let mixed = match self.random.below(3) {
            0 => self.builder.not(whole),
            1 => {
                let op = self.random.range(0, 2);
                self.builder.binary(op, whole, other)
            }
            _ => {
                let condition = self.bit();
                self.builder.mux(condition, whole, other)
            }
        };
        let mut values = vec![self.bit()];
        for bit in 0..width - 1 {
            values.push(self.builder.slice(mixed, bit, 1));
        }
        if self.allows_loops() && self.random.flag() {
            let last = values.len() - 1;
            values[0] = self.builder.slice(mixed, last as u32, 1);
        }
        self.drive_bits(number, &values);
        self.keep(whole);
        self.keep(mixed);
    }

    fn wide_constant_slice(&mut self) {
        let wide = self.constant(65);
        let low = self.random.range(2, 9);
        let slice = self.builder.slice(wide, 0, low);
        let other = self.small_operand(low);
        let sum = self.builder.add(slice, other);
        self.keep(sum);
    }

    /// x ^ x, x ^ ones, !!x, x & 0 and the like.
    fn gate_identities(&mut self) {
        let width = self.width();
        let value = self.operand(width);
        let other = match self.random.below(4) {
            0 => value,
            1 => self.builder.constant(width, 0),
            2 => self.builder.constant_limbs(width, &[u64::MAX; 16]),
            _ => self.builder.not(value),
        };
        let op = self.random.range(0, 2);
        let result = self.builder.binary(op, value, other);
        let inverse = self.builder.not(other);
        let twice = self.builder.not(inverse);
        for expression in [result, inverse, twice] {
            self.keep(expression);
        }
    }

    /// Word arithmetic on constants, used further on.
    fn fold_step(&mut self) {
        let width = self.width();
        let folded = self.constant_cone(width);
        self.keep(folded);
        let other = self.operand(width);
        let op = self.random.range(0, 5);
        let result = self.builder.binary(op, folded, other);
        self.keep(result);
    }

    /// Bits above those that a sum of joined fields is narrowed to.
    fn above_joined(&mut self, width: u32) -> Expr {
        let low = self.random.range(1, 30);
        let [lhs, rhs, last] = [(); 3].map(|()| {
            let field = self.operand(low);
            self.builder.zero_extend(field, low + width + 1)
        });
        let op = self.random.range(1, 2);
        let joined = self.builder.binary(op, lhs, rhs);
        let sum = self.builder.add(joined, last);
        self.builder.slice(sum, low + 1, width)
    }

    /// An expression whose nets are all constant, without comparison cells.
    pub fn constant_cone(&mut self, width: u32) -> Expr {
        let lhs = self.constant(width);
        match self.random.below(8) {
            7 if width <= 30 => self.above_joined(width),
            0 => self.builder.not(lhs),
            1 => {
                let condition = self.constant(1);
                let other = self.constant(width);
                self.builder.mux(condition, lhs, other)
            }
            2 => {
                let amount = self.constant(3);
                self.builder.shift_left(lhs, amount)
            }
            3 if width > 1 => {
                let low = self.builder.slice(lhs, 0, 1);
                let high = self.builder.slice(lhs, 1, width - 1);
                self.builder.concat(&[low, high])
            }
            _ => {
                let rhs = self.constant(width);
                let op = self.random.range(0, 5);
                self.builder.binary(op, lhs, rhs)
            }
        }
    }
}
