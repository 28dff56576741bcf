//! Builds module images record by record. Widths follow from the operands;
//! the caller keeps to the rules, nothing is judged here.

use crate::format::*;

/// A signal's number.
#[derive(Clone, Copy, PartialEq, Eq, PartialOrd, Ord, Debug)]
pub struct Signal(pub u32);

/// An expression's number.
#[derive(Clone, Copy, PartialEq, Eq, PartialOrd, Ord, Debug)]
pub struct Expr(pub u32);

/// A one-bit control signal and whether it acts when low.
#[derive(Clone, Copy, Debug)]
pub struct Control {
    pub signal: Signal,
    pub low: bool,
}

/// A register's reset.
#[derive(Clone, Copy, Debug)]
pub struct Reset {
    pub control: Control,
    pub asynchronous: bool,
    pub value: Expr,
}

/// A register without its name.
#[derive(Clone, Copy, Debug)]
pub struct Register {
    pub target: Signal,
    pub next: Expr,
    pub clock: Signal,
    pub falling: bool,
    pub enable: Option<Control>,
    pub reset: Option<Reset>,
}

impl Register {
    /// A register on the rising edge without enable and reset.
    pub fn new(target: Signal, next: Expr, clock: Signal) -> Self {
        Register {
            target,
            next,
            clock,
            falling: false,
            enable: None,
            reset: None,
        }
    }
}

/// One port of a memory.
#[derive(Clone, Copy, Debug)]
pub struct Port {
    pub read_address: Expr,
    pub read_data: Signal,
    pub read_enable: Option<Control>,
    pub write_address: Expr,
    pub write_data: Expr,
    pub write_enable: Control,
    pub clock: Signal,
    pub falling: bool,
}

/// A memory without its name; its word width is the read data's.
#[derive(Clone, Copy, Debug)]
pub struct Memory {
    pub depth: u32,
    pub style: u32,
    pub first: Port,
    pub second: Option<Port>,
}

/// An image in the making. Names are laid out by `finish`: signals', then
/// registers', then memories'.
#[derive(Clone, Default, Debug)]
pub struct Builder {
    image: Image,
    register_names: Vec<Vec<u8>>,
    memory_names: Vec<Vec<u8>>,
}

impl Builder {
    pub fn new() -> Self {
        Builder::default()
    }

    /// The records so far; register and memory names are still missing.
    pub fn image(&self) -> &Image {
        &self.image
    }

    pub fn finish(mut self) -> Image {
        for (number, name) in self.register_names.iter().enumerate() {
            let place = self.image.add_name(name);
            self.image.registers[number][..2].copy_from_slice(&place);
        }
        for (number, name) in self.memory_names.iter().enumerate() {
            let place = self.image.add_name(name);
            self.image.memories[number][..2].copy_from_slice(&place);
        }
        self.image
    }

    // Signals.

    pub fn signal(&mut self, name: &str, width: u32, direction: u32) -> Signal {
        Signal(self.image.add_signal(name, width, direction))
    }

    pub fn wire(&mut self, name: &str, width: u32) -> Signal {
        self.signal(name, width, 0)
    }

    pub fn input(&mut self, name: &str, width: u32) -> Signal {
        self.signal(name, width, 1)
    }

    pub fn output(&mut self, name: &str, width: u32) -> Signal {
        self.signal(name, width, 2)
    }

    pub fn signal_width(&self, signal: Signal) -> u32 {
        self.image.signals[signal.0 as usize][2]
    }

    // Expressions.

    pub fn width(&self, expression: Expr) -> u32 {
        self.image.expressions[expression.0 as usize][1]
    }

    fn push(&mut self, record: [u32; 5]) -> Expr {
        self.image.expressions.push(record);
        Expr(self.image.expressions.len() as u32 - 1)
    }

    pub fn read(&mut self, signal: Signal) -> Expr {
        let width = self.signal_width(signal);
        self.read_range(signal, 0, width)
    }

    pub fn read_range(&mut self, signal: Signal, lsb: u32, width: u32) -> Expr {
        self.push([kind::SIGNAL, width, signal.0, lsb, 0])
    }

    pub fn constant(&mut self, width: u32, value: u64) -> Expr {
        self.constant_limbs(width, &[value])
    }

    /// A constant from 64-bit limbs, low first; missing ones are 0.
    pub fn constant_limbs(&mut self, width: u32, limbs: &[u64]) -> Expr {
        let start = self.image.list.len() as u32;
        for limb in 0..constant_words(width) / 2 {
            let value = limbs.get(limb).copied().unwrap_or(0);
            self.image.list.push(value as u32);
            self.image.list.push((value >> 32) as u32);
        }
        self.push([kind::CONSTANT, width, start, 0, 0])
    }

    /// A constant whose words stand in the list already.
    pub fn constant_at(&mut self, width: u32, start: u32) -> Expr {
        self.push([kind::CONSTANT, width, start, 0, 0])
    }

    pub fn unary(&mut self, op: u32, input: Expr) -> Expr {
        let width = if op == 0 { self.width(input) } else { 1 };
        self.push([kind::UNARY, width, op, input.0, 0])
    }

    pub fn binary(&mut self, op: u32, lhs: Expr, rhs: Expr) -> Expr {
        let width = match binary_class(op) {
            BinaryClass::Compare => 1,
            BinaryClass::Equal | BinaryClass::Shift => self.width(lhs),
        };
        self.push([kind::BINARY, width, op, lhs.0, rhs.0])
    }

    pub fn mux(&mut self, condition: Expr, then: Expr, otherwise: Expr) -> Expr {
        let width = self.width(then);
        self.push([kind::MUX, width, condition.0, then.0, otherwise.0])
    }

    /// A concatenation, the most significant part first.
    pub fn concat(&mut self, parts: &[Expr]) -> Expr {
        let start = self.image.list.len() as u32;
        let width = parts.iter().map(|part| self.width(*part)).sum();
        self.image.list.extend(parts.iter().map(|part| part.0));
        self.push([kind::CONCAT, width, start, parts.len() as u32, 0])
    }

    pub fn slice(&mut self, input: Expr, lsb: u32, width: u32) -> Expr {
        self.push([kind::SLICE, width, input.0, lsb, 0])
    }

    /// The expression with zeros above it, up to `width`.
    pub fn zero_extend(&mut self, input: Expr, width: u32) -> Expr {
        let missing = width - self.width(input);
        if missing == 0 {
            return input;
        }
        let zeros = self.constant(missing, 0);
        self.concat(&[zeros, input])
    }

    // Assignments, registers, memories.

    pub fn assign(&mut self, signal: Signal, value: Expr) {
        self.assign_range(signal, 0, value);
    }

    pub fn assign_range(&mut self, signal: Signal, lsb: u32, value: Expr) {
        let width = self.width(value);
        self.image.assignments.push([signal.0, lsb, width, value.0]);
    }

    pub fn register(&mut self, name: &str, register: Register) {
        let enable = control_fields(register.enable);
        let mut record = [0; 12];
        record[2] = register.target.0;
        record[3] = register.next.0;
        record[4] = register.clock.0;
        record[5] = u32::from(register.falling);
        record[6..8].copy_from_slice(&enable);
        record[8..12].copy_from_slice(&reset_fields(register.reset));
        self.image.registers.push(record);
        self.register_names.push(name.as_bytes().to_vec());
    }

    pub fn memory(&mut self, name: &str, memory: Memory) {
        let mut record = [0; MEMORY_FIELDS];
        record[memory_field::DEPTH] = memory.depth;
        record[memory_field::WORD_WIDTH] = self.signal_width(memory.first.read_data);
        record[memory_field::STYLE] = memory.style;
        record[memory_field::LATENCY] = 1;
        record[memory_field::FIRST_PORT..memory_field::HAS_SECOND].copy_from_slice(&port_fields(&memory.first));
        if let Some(second) = &memory.second {
            record[memory_field::HAS_SECOND] = 1;
            record[memory_field::SECOND_PORT..].copy_from_slice(&port_fields(second));
        }
        self.image.memories.push(record);
        self.memory_names.push(name.as_bytes().to_vec());
    }

    /// Puts the assignments in another order.
    pub fn reorder_assignments(&mut self, reorder: impl FnOnce(&mut [[u32; 4]])) {
        reorder(&mut self.image.assignments);
    }
}

/// Expression constructors named after their operators.
macro_rules! operators {
    ($($name:ident $method:ident $op:literal;)*) => {
        impl Builder {
            $(operators!(@ $name $method $op);)*
        }
    };
    (@ $name:ident unary $op:literal) => {
        pub fn $name(&mut self, input: Expr) -> Expr { self.unary($op, input) }
    };
    (@ $name:ident binary $op:literal) => {
        pub fn $name(&mut self, lhs: Expr, rhs: Expr) -> Expr { self.binary($op, lhs, rhs) }
    };
}

operators! {
    not unary 0;
    logic_not unary 1;
    reduce_or unary 2;
    reduce_and unary 3;
    reduce_xor unary 4;
    and binary 0;
    or binary 1;
    xor binary 2;
    add binary 3;
    sub binary 4;
    mul binary 5;
    equal binary 6;
    not_equal binary 7;
    less_unsigned binary 8;
    less_signed binary 9;
    less_equal_unsigned binary 10;
    less_equal_signed binary 11;
    greater_unsigned binary 12;
    greater_signed binary 13;
    greater_equal_unsigned binary 14;
    greater_equal_signed binary 15;
    shift_left binary 16;
    shift_right binary 17;
    shift_right_arithmetic binary 18;
}

fn control_fields(control: Option<Control>) -> [u32; 2] {
    match control {
        None => [ABSENT, 0],
        Some(control) => [control.signal.0, u32::from(control.low)],
    }
}

fn reset_fields(reset: Option<Reset>) -> [u32; 4] {
    match reset {
        None => [ABSENT, 0, 0, 0],
        Some(reset) => [
            reset.control.signal.0,
            u32::from(reset.control.low),
            u32::from(reset.asynchronous),
            reset.value.0,
        ],
    }
}

fn port_fields(port: &Port) -> [u32; 10] {
    let read_enable = control_fields(port.read_enable);
    let write_enable = control_fields(Some(port.write_enable));
    [
        port.read_address.0,
        port.read_data.0,
        read_enable[0],
        read_enable[1],
        port.write_address.0,
        port.write_data.0,
        write_enable[0],
        write_enable[1],
        port.clock.0,
        u32::from(port.falling),
    ]
}
