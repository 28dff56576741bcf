//! Builds struo's RTL module from a module image, by struo's own constructors.
//! Nothing is validated beyond what the constructors test.

use struo_rtl::{
    BinaryOp, BitWidth, ClockEdge, Constant, Enable, ExprId, Memory, MemoryPort, MemoryStyle,
    Module, Polarity, Port, PortDirection, Register, Reset, ResetMode, RtlError, SignalId,
    SignalSlice, StateDomain, UnaryOp, ValueType,
};

use crate::module_image::{self as image, Control, Expression, ModuleImage};

const UNARY: [UnaryOp; 5] = [
    UnaryOp::BitNot,
    UnaryOp::LogicNot,
    UnaryOp::ReduceOr,
    UnaryOp::ReduceAnd,
    UnaryOp::ReduceXor,
];

const BINARY: [BinaryOp; 19] = [
    BinaryOp::And,
    BinaryOp::Or,
    BinaryOp::Xor,
    BinaryOp::Add,
    BinaryOp::Sub,
    BinaryOp::Mul,
    BinaryOp::Equal,
    BinaryOp::NotEqual,
    BinaryOp::LessThanUnsigned,
    BinaryOp::LessThanSigned,
    BinaryOp::LessOrEqualUnsigned,
    BinaryOp::LessOrEqualSigned,
    BinaryOp::GreaterThanUnsigned,
    BinaryOp::GreaterThanSigned,
    BinaryOp::GreaterOrEqualUnsigned,
    BinaryOp::GreaterOrEqualSigned,
    BinaryOp::ShiftLeft,
    BinaryOp::ShiftRightLogical,
    BinaryOp::ShiftRightArithmetic,
];

const STYLES: [MemoryStyle; 3] = [
    MemoryStyle::Auto,
    MemoryStyle::Block,
    MemoryStyle::Distributed,
];
const EDGES: [ClockEdge; 2] = [ClockEdge::Rising, ClockEdge::Falling];
const POLARITIES: [Polarity; 2] = [Polarity::ActiveHigh, Polarity::ActiveLow];

/// The whole module. It has no name in the image and is called `t`.
pub(crate) fn module(image: &ModuleImage) -> Result<Module, String> {
    let mut builder = Builder::new(image)?;
    for register in &image.registers {
        let register = builder.register(register)?;
        builder.module.add_register(register).map_err(text)?;
    }
    for memory in &image.memories {
        let memory = builder.memory(memory)?;
        builder.module.add_memory(memory);
    }
    Ok(builder.module)
}

/// The module without its registers and memories.
pub(crate) fn stateless_module(image: &ModuleImage) -> Result<Module, String> {
    Ok(Builder::new(image)?.module)
}

struct Builder<'a> {
    image: &'a ModuleImage,
    module: Module,
    signals: Vec<SignalId>,
    expressions: Vec<ExprId>,
}

impl<'a> Builder<'a> {
    /// Signals, expressions and assignments.
    fn new(image: &'a ModuleImage) -> Result<Self, String> {
        let mut builder = Self {
            image,
            module: Module::new("t"),
            signals: Vec::new(),
            expressions: Vec::new(),
        };
        for signal in &image.signals {
            let id = builder.add_signal(signal)?;
            builder.signals.push(id);
        }
        for expression in &image.expressions {
            let id = builder.add_expression(expression)?;
            builder.expressions.push(id);
        }
        for assignment in &image.assignments {
            let target = builder.slice(assignment.signal, assignment.lsb, assignment.width)?;
            let value = builder.expression(assignment.value)?;
            builder.module.assign(target, value).map_err(text)?;
        }
        Ok(builder)
    }

    fn add_signal(&mut self, signal: &image::Signal) -> Result<SignalId, String> {
        let r#type = word_type(signal.width)?;
        let direction = match signal.direction {
            0 => return Ok(self.module.add_signal(&signal.name, r#type)),
            image::INPUT => PortDirection::Input,
            image::OUTPUT => PortDirection::Output,
            other => return Err(format!("no direction {other}")),
        };
        Ok(self.module.add_port(Port {
            name: signal.name.clone(),
            direction,
            r#type,
        }))
    }

    fn add_expression(&mut self, expression: &Expression) -> Result<ExprId, String> {
        let id = self.construct(expression)?;
        let made = self.module.expressions()[id.index() as usize]
            .r#type()
            .width;
        if made.get() == expression.width {
            Ok(id)
        } else {
            let number = id.index();
            Err(format!(
                "expression {number} is {made} wide, not {}",
                expression.width
            ))
        }
    }

    fn construct(&mut self, expression: &Expression) -> Result<ExprId, String> {
        let [a, b, c] = expression.operands;
        match expression.kind {
            0 => {
                let slice = self.slice(a, b, expression.width)?;
                self.module.read_slice(slice).map_err(text)
            }
            1 => {
                let words = self.image.constant_words(expression)?;
                let value = Constant::new(width(expression.width)?, words);
                Ok(self.module.constant(value))
            }
            2 => {
                let input = self.expression(b)?;
                self.module.unary(pick(&UNARY, a)?, input).map_err(text)
            }
            3 => {
                let (lhs, rhs) = (self.expression(b)?, self.expression(c)?);
                self.module
                    .binary(pick(&BINARY, a)?, lhs, rhs)
                    .map_err(text)
            }
            4 => {
                let condition = self.expression(a)?;
                let (yes, no) = (self.expression(b)?, self.expression(c)?);
                self.module.mux(condition, yes, no).map_err(text)
            }
            5 => {
                let parts = self.image.parts(expression)?.iter();
                let parts: Result<_, _> = parts.map(|&part| self.expression(part)).collect();
                self.module.concat(parts?).map_err(text)
            }
            6 => {
                let (input, width) = (self.expression(a)?, width(expression.width)?);
                self.module.expression_slice(input, b, width).map_err(text)
            }
            other => Err(format!("no expression kind {other}")),
        }
    }

    fn register(&self, register: &image::Register) -> Result<Register, String> {
        let reset = register.reset.map(|reset| {
            Ok::<_, String>(Reset {
                signal: self.signal(reset.control.signal)?,
                mode: if reset.asynchronous {
                    ResetMode::Asynchronous
                } else {
                    ResetMode::Synchronous
                },
                polarity: pick(&POLARITIES, reset.control.polarity)?,
                value: self.expression(reset.value)?,
            })
        });
        Ok(Register {
            name: register.name.clone(),
            target: self.signal(register.target)?,
            next: self.expression(register.next)?,
            clock: self.signal(register.clock)?,
            edge: pick(&EDGES, register.edge)?,
            enable: self.optional_enable(register.enable)?,
            reset: reset.transpose()?,
        })
    }

    fn memory(&self, memory: &image::Memory) -> Result<Memory, String> {
        let first = self.memory_port(&memory.ports[0])?;
        let second = memory.ports.get(1).map(|port| self.memory_port(port));
        Ok(Memory {
            name: memory.name.clone(),
            word: word_type(memory.word)?,
            depth: memory.depth,
            style: pick(&STYLES, memory.style)?,
            read_latency: u8::try_from(memory.latency).map_err(|_| "latency above 255")?,
            read_address: first.read_address,
            read_data: first.read_data,
            read_enable: first.read_enable,
            write_address: first.write_address,
            write_data: first.write_data,
            write_enable: first.write_enable,
            clock: first.clock,
            edge: first.edge,
            second_port: second.transpose()?,
        })
    }

    fn memory_port(&self, port: &image::Port) -> Result<MemoryPort, String> {
        Ok(MemoryPort {
            read_address: self.expression(port.read_address)?,
            read_data: self.signal(port.read_data)?,
            read_enable: self.optional_enable(port.read_enable)?,
            write_address: self.expression(port.write_address)?,
            write_data: self.expression(port.write_data)?,
            write_enable: self.enable(port.write_enable)?,
            clock: self.signal(port.clock)?,
            edge: pick(&EDGES, port.edge)?,
        })
    }

    fn optional_enable(&self, control: Option<Control>) -> Result<Option<Enable>, String> {
        control.map(|control| self.enable(control)).transpose()
    }

    fn enable(&self, control: Control) -> Result<Enable, String> {
        Ok(Enable {
            signal: self.signal(control.signal)?,
            polarity: pick(&POLARITIES, control.polarity)?,
        })
    }

    fn slice(&self, signal: u32, lsb: u32, bits: u32) -> Result<SignalSlice, String> {
        let (signal, width) = (self.signal(signal)?, width(bits)?);
        self.module.slice(signal, lsb, width).map_err(text)
    }

    fn signal(&self, number: u32) -> Result<SignalId, String> {
        let id = self.signals.get(number as usize).copied();
        id.ok_or_else(|| format!("no signal {number}"))
    }

    fn expression(&self, number: u32) -> Result<ExprId, String> {
        let id = self.expressions.get(number as usize).copied();
        id.ok_or_else(|| format!("no earlier expression {number}"))
    }
}

fn pick<T: Copy>(values: &[T], number: u32) -> Result<T, String> {
    let value = values.get(number as usize).copied();
    value.ok_or_else(|| format!("no enum value {number}"))
}

fn width(bits: u32) -> Result<BitWidth, String> {
    BitWidth::new(bits).map_err(text)
}

/// The sign and the value domain play no part in the lowering.
fn word_type(bits: u32) -> Result<ValueType, String> {
    Ok(ValueType {
        width: width(bits)?,
        signed: false,
        state: StateDomain::TwoState,
    })
}

fn text(error: RtlError) -> String {
    error.to_string()
}
