//! The records of a module image by the names of their fields (docs/FORMATS.md).
//! Only what keeps the reading itself in bounds is tested here; the image's rules
//! are not.

use image::{Image, bit_name, memory_field, read_data_bit_name};

use crate::ABSENT;

pub(crate) const INPUT: u32 = 1;
pub(crate) const OUTPUT: u32 = 2;

pub(crate) struct ModuleImage {
    pub signals: Vec<Signal>,
    pub expressions: Vec<Expression>,
    pub list: Vec<u32>,
    pub assignments: Vec<Assignment>,
    pub registers: Vec<Register>,
    pub memories: Vec<Memory>,
}

pub(crate) struct Signal {
    pub name: String,
    pub width: u32,
    pub direction: u32,
}

pub(crate) struct Expression {
    pub kind: u32,
    pub width: u32,
    pub operands: [u32; 3],
}

pub(crate) struct Assignment {
    pub signal: u32,
    pub lsb: u32,
    pub width: u32,
    pub value: u32,
}

/// A one-bit control: active at 1 with polarity 0, at 0 with polarity 1.
#[derive(Clone, Copy)]
pub(crate) struct Control {
    pub signal: u32,
    pub polarity: u32,
}

#[derive(Clone, Copy)]
pub(crate) struct Reset {
    pub control: Control,
    pub asynchronous: bool,
    pub value: u32,
}

pub(crate) struct Register {
    pub name: String,
    pub target: u32,
    pub next: u32,
    pub clock: u32,
    pub edge: u32,
    pub enable: Option<Control>,
    pub reset: Option<Reset>,
}

pub(crate) struct Memory {
    pub name: String,
    pub depth: u32,
    /// The width of its words, as the record has it.
    pub word: u32,
    pub style: u32,
    pub latency: u32,
    pub ports: Vec<Port>,
}

pub(crate) struct Port {
    pub read_address: u32,
    pub read_data: u32,
    pub read_enable: Option<Control>,
    pub write_address: u32,
    pub write_data: u32,
    pub write_enable: Control,
    pub clock: u32,
    pub edge: u32,
}

impl ModuleImage {
    /// Reads an image; an error says what could not be read.
    pub fn decode(bytes: &[u8]) -> Result<Self, String> {
        let image = &Image::decode(bytes).ok_or("the header does not lay out an image")?;
        Ok(Self {
            signals: all(&image.signals, |f| signal(image, f))?,
            expressions: image.expressions.iter().map(expression).collect(),
            list: image.list.clone(),
            assignments: image.assignments.iter().map(assignment).collect(),
            registers: all(&image.registers, |f| register(image, f))?,
            memories: all(&image.memories, |f| memory(image, f))?,
        })
    }

    /// The expressions a Concat joins, the most significant first.
    pub fn parts(&self, expression: &Expression) -> Result<&[u32], String> {
        let [start, count, _] = expression.operands;
        self.list_words(start, count)
    }

    /// A Constant's words of 64 bits, the lowest first.
    pub fn constant_words(&self, expression: &Expression) -> Result<Vec<u64>, String> {
        let count = 2 * expression.width.div_ceil(64);
        let halves = self.list_words(expression.operands[0], count)?;
        Ok(halves
            .chunks(2)
            .map(|pair| u64::from(pair[0]) | u64::from(pair[1]) << 32)
            .collect())
    }

    fn list_words(&self, start: u32, count: u32) -> Result<&[u32], String> {
        let start = start as usize;
        self.list
            .get(start..start + count as usize)
            .ok_or_else(|| format!("list words {start} and {count} more are not there"))
    }

    /// Each register bit as (register, bit), in the order of the records.
    pub fn register_bits(&self) -> impl Iterator<Item = (u32, u32)> {
        (0..).zip(&self.registers).flat_map(|(index, register)| {
            let width = self.signals[register.target as usize].width;
            (0..width).map(move |bit| (index, bit))
        })
    }

    pub fn signal_bit_name(&self, signal: u32, bit: u32) -> String {
        let signal = &self.signals[signal as usize];
        bit_name(&signal.name, signal.width, bit)
    }

    pub fn register_bit_name(&self, register: u32, bit: u32) -> String {
        let register = &self.registers[register as usize];
        let width = self.signals[register.target as usize].width;
        bit_name(&register.name, width, bit)
    }

    pub fn read_data_bit_name(&self, memory: u32, bit: u32) -> String {
        let memory = &self.memories[memory as usize];
        read_data_bit_name(&memory.name, memory.word, bit)
    }
}

fn all<R, T>(records: &[R], read: impl Fn(&R) -> Result<T, String>) -> Result<Vec<T>, String> {
    records.iter().map(read).collect()
}

fn name(image: &Image, record: &[u32]) -> Result<String, String> {
    let name = image.name_of(record).ok_or("a name lies outside the names or is no text")?;
    Ok(name.to_string())
}

fn signal(image: &Image, f: &[u32; 4]) -> Result<Signal, String> {
    Ok(Signal {
        name: name(image, f)?,
        width: f[2],
        direction: f[3],
    })
}

fn expression(f: &[u32; 5]) -> Expression {
    Expression {
        kind: f[0],
        width: f[1],
        operands: [f[2], f[3], f[4]],
    }
}

fn assignment(f: &[u32; 4]) -> Assignment {
    Assignment {
        signal: f[0],
        lsb: f[1],
        width: f[2],
        value: f[3],
    }
}

fn control(signal: u32, polarity: u32) -> Option<Control> {
    (signal != ABSENT).then_some(Control { signal, polarity })
}

fn register(image: &Image, f: &[u32; 12]) -> Result<Register, String> {
    Ok(Register {
        name: name(image, f)?,
        target: f[2],
        next: f[3],
        clock: f[4],
        edge: f[5],
        enable: control(f[6], f[7]),
        reset: control(f[8], f[9]).map(|control| Reset {
            control,
            asynchronous: f[10] == 1,
            value: f[11],
        }),
    })
}

fn memory(image: &Image, f: &[u32; image::MEMORY_FIELDS]) -> Result<Memory, String> {
    let mut ports = vec![port(&f[memory_field::FIRST_PORT..])?];
    if f[memory_field::HAS_SECOND] == 1 {
        ports.push(port(&f[memory_field::SECOND_PORT..])?);
    }
    Ok(Memory {
        name: name(image, f)?,
        depth: f[memory_field::DEPTH],
        word: f[memory_field::WORD_WIDTH],
        style: f[memory_field::STYLE],
        latency: f[memory_field::LATENCY],
        ports,
    })
}

fn port(f: &[u32]) -> Result<Port, String> {
    Ok(Port {
        read_address: f[0],
        read_data: f[1],
        read_enable: control(f[2], f[3]),
        write_address: f[4],
        write_data: f[5],
        write_enable: control(f[6], f[7]).ok_or("a write enable is absent")?,
        clock: f[8],
        edge: f[9],
    })
}
