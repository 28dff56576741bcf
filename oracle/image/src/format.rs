//! The byte format of a module image: counts, limits, enums, and the way
//! between records and bytes.

/// The edition of a module image, header field 0.
pub const EDITION: u32 = 2;
/// Stands in a field for "not there".
pub const ABSENT: u32 = u32::MAX;
pub const HEADER_FIELDS: usize = 16;
pub const HEADER_BYTES: usize = 4 * HEADER_FIELDS;
/// Bytes of one record of each section, in section order.
pub const RECORD_BYTES: [usize; 7] = [16, 20, 4, 16, 48, 4 * MEMORY_FIELDS, 1];
/// The most records of each section, in section order.
pub const MOST: [usize; 7] = [512, 2048, 8192, 1024, 256, 16, 16384];
pub const MOST_WIDTH: u32 = 1024;
pub const MOST_SIGNAL_BITS: usize = 4096;
pub const MOST_EXPRESSION_BITS: usize = 32768;
pub const MOST_NAME: usize = 64;
pub const MOST_DEPTH: u32 = 65536;
pub const MOST_ADDRESS: u32 = 32;
/// The most nets and the most list words a caller may allow.
pub const MOST_LIMIT: u32 = 65535;

pub const SIGNALS: usize = 0;
pub const EXPRESSIONS: usize = 1;
pub const LIST: usize = 2;
pub const ASSIGNMENTS: usize = 3;
pub const REGISTERS: usize = 4;
pub const MEMORIES: usize = 5;
pub const NAMES: usize = 6;

pub const MEMORY_FIELDS: usize = 27;

/// Fields of a memory; fields 0 and 1 are its name's place and length.
pub mod memory_field {
    pub const DEPTH: usize = 2;
    pub const WORD_WIDTH: usize = 3;
    pub const STYLE: usize = 4;
    pub const LATENCY: usize = 5;
    /// Each port has ten fields.
    pub const FIRST_PORT: usize = 6;
    pub const HAS_SECOND: usize = 16;
    pub const SECOND_PORT: usize = 17;
}

/// Fields of a memory's port, counted from its first.
pub mod port_field {
    pub const READ_ADDRESS: usize = 0;
    pub const READ_DATA: usize = 1;
    pub const READ_ENABLE: usize = 2;
    pub const WRITE_ADDRESS: usize = 4;
    pub const WRITE_DATA: usize = 5;
    /// A signal and its level.
    pub const WRITE_ENABLE: usize = 6;
    /// A signal and its edge.
    pub const CLOCK: usize = 8;
    pub const END: usize = 10;
}

/// Expression kinds, field 0 of an expression.
pub mod kind {
    pub const SIGNAL: u32 = 0;
    pub const CONSTANT: u32 = 1;
    pub const UNARY: u32 = 2;
    pub const BINARY: u32 = 3;
    pub const MUX: u32 = 4;
    pub const CONCAT: u32 = 5;
    pub const SLICE: u32 = 6;
}

/// Unary operators, named as in the text form, in number order.
pub const UNARY_OPS: [&str; 5] = ["not", "lnot", "ror", "rand", "rxor"];

/// Binary operators, named as in the text form, in number order.
pub const BINARY_OPS: [&str; 19] = [
    "and", "or", "xor", "add", "sub", "mul", "eq", "ne", "ltu", "lts", "leu", "les", "gtu", "gts",
    "geu", "ges", "shl", "shr", "sar",
];

/// Directions of a signal, as the text form's statements, in number order.
pub const DIRECTIONS: [&str; 3] = ["wire", "input", "output"];

/// Styles of a memory, in number order.
pub const STYLES: [&str; 3] = ["auto", "block", "distributed"];

/// List words that a constant of this width takes.
pub fn constant_words(width: u32) -> usize {
    2 * (width as usize).div_ceil(64)
}

/// How the result's width follows from a binary operator.
#[derive(Clone, Copy, PartialEq, Eq, Debug)]
pub enum BinaryClass {
    /// Both operands and the result have one width.
    Equal,
    /// The operands have one width, the result is one bit.
    Compare,
    /// The result has the left operand's width, the amount any.
    Shift,
}

pub fn binary_class(op: u32) -> BinaryClass {
    match op {
        0..=5 => BinaryClass::Equal,
        6..=15 => BinaryClass::Compare,
        _ => BinaryClass::Shift,
    }
}

/// A module image, record by record.
#[derive(Clone, Default, PartialEq, Eq, Debug)]
pub struct Image {
    pub signals: Vec<[u32; 4]>,
    pub expressions: Vec<[u32; 5]>,
    pub list: Vec<u32>,
    pub assignments: Vec<[u32; 4]>,
    pub registers: Vec<[u32; 12]>,
    pub memories: Vec<[u32; MEMORY_FIELDS]>,
    pub names: Vec<u8>,
}

impl Image {
    /// Record counts in section order.
    pub fn counts(&self) -> [usize; 7] {
        [
            self.signals.len(),
            self.expressions.len(),
            self.list.len(),
            self.assignments.len(),
            self.registers.len(),
            self.memories.len(),
            self.names.len(),
        ]
    }

    /// Appends a name to the names: its place and length.
    pub fn add_name(&mut self, name: impl AsRef<[u8]>) -> [u32; 2] {
        let place = [self.names.len() as u32, name.as_ref().len() as u32];
        self.names.extend_from_slice(name.as_ref());
        place
    }

    /// Appends a signal and its name: its number.
    pub fn add_signal(&mut self, name: impl AsRef<[u8]>, width: u32, direction: u32) -> u32 {
        let [offset, length] = self.add_name(name);
        self.signals.push([offset, length, width, direction]);
        self.signals.len() as u32 - 1
    }

    /// The header that fits the records.
    pub fn header(&self) -> [u32; HEADER_FIELDS] {
        let mut header = [0; HEADER_FIELDS];
        let mut offset = HEADER_BYTES;
        for (section, count) in self.counts().into_iter().enumerate() {
            header[2 + 2 * section] = count as u32;
            header[3 + 2 * section] = offset as u32;
            offset += count * RECORD_BYTES[section];
        }
        header[0] = EDITION;
        header[1] = offset as u32;
        header
    }

    pub fn encode(&self) -> Vec<u8> {
        let mut bytes = Vec::new();
        push_words(&mut bytes, &self.header());
        push_records(&mut bytes, &self.signals);
        push_records(&mut bytes, &self.expressions);
        push_words(&mut bytes, &self.list);
        push_records(&mut bytes, &self.assignments);
        push_records(&mut bytes, &self.registers);
        push_records(&mut bytes, &self.memories);
        bytes.extend_from_slice(&self.names);
        bytes
    }

    /// The image these bytes lay out: edition 2, right total, every section
    /// at its place and within its most. Records are taken as they are.
    pub fn decode(bytes: &[u8]) -> Option<Image> {
        let header = read_header(bytes)?;
        if header[0] != EDITION || header[1] as usize != bytes.len() {
            return None;
        }
        let mut rest = &bytes[HEADER_BYTES..];
        let mut sections = [rest; 7];
        for section in 0..7 {
            let count = header[2 + 2 * section] as usize;
            let size = count.checked_mul(RECORD_BYTES[section])?;
            let offset = bytes.len() - rest.len();
            if count > MOST[section]
                || header[3 + 2 * section] as usize != offset
                || size > rest.len()
            {
                return None;
            }
            (sections[section], rest) = rest.split_at(size);
        }
        rest.is_empty().then(|| Image {
            signals: records(sections[SIGNALS]),
            expressions: records(sections[EXPRESSIONS]),
            list: words(sections[LIST]),
            assignments: records(sections[ASSIGNMENTS]),
            registers: records(sections[REGISTERS]),
            memories: records(sections[MEMORIES]),
            names: sections[NAMES].to_vec(),
        })
    }

    /// The name that the first two fields of a record place. `None` where it
    /// lies outside the names or is no text.
    pub fn name_of(&self, record: &[u32]) -> Option<&str> {
        let rest = self.names.get(record[0] as usize..)?;
        std::str::from_utf8(rest.get(..record[1] as usize)?).ok()
    }

    /// The width of a memory's read data, its first port's; 0 if there is no
    /// such signal.
    pub fn read_data_width(&self, memory: &[u32; MEMORY_FIELDS]) -> u32 {
        let read_data = memory[memory_field::FIRST_PORT + port_field::READ_DATA];
        let signal = self.signals.get(read_data as usize);
        signal.map_or(0, |signal| signal[2])
    }

    /// Gives each memory the width of its read data as word width.
    pub fn set_word_widths(&mut self) {
        for memory in 0..self.memories.len() {
            let width = self.read_data_width(&self.memories[memory]);
            self.memories[memory][memory_field::WORD_WIDTH] = width;
        }
    }

    pub fn signal_bits(&self) -> usize {
        self.signals.iter().map(|signal| signal[2] as usize).sum()
    }

    pub fn expression_bits(&self) -> usize {
        self.expressions
            .iter()
            .map(|expression| expression[1] as usize)
            .sum()
    }

    /// Scratch words that net limit `n` asks for.
    pub fn scratch_words(&self, n: u32) -> usize {
        4 * self.signal_bits()
            + self.expression_bits()
            + 8 * self.expressions.len()
            + 4 * n as usize
            + 64
    }

    /// Scratch words by the sum before request Q-10, with two for each
    /// expression bit.
    pub fn former_scratch_words(&self, n: u32) -> usize {
        self.scratch_words(n) + self.expression_bits()
    }
}

/// Netlist words that net limit `n` and list limit `p` ask for.
pub fn netlist_words(n: u32, p: u32) -> usize {
    16 + 6 * n as usize + p as usize
}

/// The sixteen header fields, if there are as many bytes.
pub fn read_header(bytes: &[u8]) -> Option<[u32; HEADER_FIELDS]> {
    let fields = words(bytes.get(..HEADER_BYTES)?);
    fields.try_into().ok()
}

/// Field `index` of the bytes, counted in words from the start.
pub fn word_at(bytes: &[u8], index: usize) -> u32 {
    words(&bytes[4 * index..4 * index + 4])[0]
}

/// Overwrites field `index` of the bytes, counted in words from the start.
pub fn set_word(bytes: &mut [u8], index: usize, value: u32) {
    bytes[4 * index..4 * index + 4].copy_from_slice(&value.to_le_bytes());
}

fn push_words(bytes: &mut Vec<u8>, words: &[u32]) {
    for word in words {
        bytes.extend_from_slice(&word.to_le_bytes());
    }
}

fn push_records<const FIELDS: usize>(bytes: &mut Vec<u8>, records: &[[u32; FIELDS]]) {
    for record in records {
        push_words(bytes, record);
    }
}

fn words(bytes: &[u8]) -> Vec<u32> {
    bytes
        .chunks_exact(4)
        .map(|word| u32::from_le_bytes([word[0], word[1], word[2], word[3]]))
        .collect()
}

fn records<const FIELDS: usize>(bytes: &[u8]) -> Vec<[u32; FIELDS]> {
    words(bytes)
        .chunks_exact(FIELDS)
        .map(|fields| std::array::from_fn(|field| fields[field]))
        .collect()
}
