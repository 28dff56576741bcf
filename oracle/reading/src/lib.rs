//! A second reading of refusals 1 to 5 (docs/RULES.md), made from the sentences of
//! the rules alone. It shares no code with `reference`: two readings held against
//! each other show where one of them misreads a sentence or where a sentence can be
//! read in two ways. Only the numbers that the sentences leave to the Rust are
//! taken from elsewhere (`declared`, see QUESTIONS.md).
//!
//! Each rule carries the sentence that it stands for, in quotes. Before those in
//! comments is what they are about: "Image" the module image, "Refusals" the
//! refusals and their places, "Q-1" and "Q-10" the requests; those of header and
//! records are handed back with a refusal by 3 or 4 (`cause`).

use std::collections::HashSet;

/// Image: "Absent is 4,294,967,295".
const ABSENT: u32 = 4_294_967_295;

/// Image: "16 header fields" of "32 bits".
const HEADER_FIELDS: usize = 16;
const HEADER_BYTES: u64 = 64;

/// "Edition 2 of the module image".
const EDITION: u32 = 2;

/// Image: "count and byte offset of seven sections: signals, expressions, list,
/// assignments, registers, memories, names (count in bytes)". For each of them
/// the bytes of one record (4 for each of its fields; of a memory's, by Q-1, "27
/// fields") and, of the paragraph "Most", the most records.
const SECTIONS: [Section; 7] = [
    Section { record_bytes: 4 * 4, most: 512 },
    Section { record_bytes: 4 * 5, most: 2_048 },
    Section { record_bytes: 4, most: 8_192 },
    Section { record_bytes: 4 * 4, most: 1_024 },
    Section { record_bytes: 4 * 12, most: 256 },
    Section { record_bytes: 4 * 27, most: 16 },
    Section { record_bytes: 1, most: 16_384 },
];

struct Section {
    record_bytes: u64,
    most: u32,
}

/// Refusals, 4: "section (numbered from 0)".
const SIGNALS: u32 = 0;
const EXPRESSIONS: u32 = 1;
const ASSIGNMENTS: u32 = 3;
const REGISTERS: u32 = 4;
const MEMORIES: u32 = 5;

/// Image: "Width 1 to 1,024; signal widths sum to at most 4,096, expression
/// widths to 32,768. Depth 1 to 65,536, address width 1 to 32, latency 1.
/// Names: 1 to 64 bytes of 33 to 126".
const MOST_WIDTH: u32 = 1_024;
const MOST_SIGNAL_BITS: u64 = 4_096;
const MOST_EXPRESSION_BITS: u64 = 32_768;
const MOST_DEPTH: u32 = 65_536;
const MOST_ADDRESS_WIDTH: u32 = 32;
const LATENCY: u32 = 1;
const MOST_NAME_BYTES: u32 = 64;

/// Image: "direction (0 internal, 1 input, 2 output)".
const INPUT: u32 = 1;
const DIRECTIONS: u32 = 3;

/// Image: "edge (0 rising)", "polarity (0 high)", "mode (0 synchronous)": two
/// values each.
const EDGES: u32 = 2;
const POLARITIES: u32 = 2;
const MODES: u32 = 2;

/// What the rules leave to the Rust: "Where no number is given, an enum's
/// values number from 0 in the Rust's declared order", "Kinds 0 to 6 follow
/// `ExprKind`", "Operators are numbered from 0 in declared order". These numbers
/// are the only ones here that do not come from the rules (QUESTIONS.md, 1).
mod declared {
    pub const SIGNAL: u32 = 0;
    pub const CONSTANT: u32 = 1;
    pub const UNARY: u32 = 2;
    pub const BINARY: u32 = 3;
    pub const MUX: u32 = 4;
    pub const CONCAT: u32 = 5;
    pub const SLICE: u32 = 6;

    /// The unary operators by the rule for their widths.
    pub enum Unary {
        BitNot,
        /// LogicNot and the reductions.
        Judging,
    }

    pub fn unary(operator: u32) -> Option<Unary> {
        match operator {
            0 => Some(Unary::BitNot),
            1..=4 => Some(Unary::Judging),
            _ => None,
        }
    }

    /// The binary operators by the rule for their widths.
    pub enum Binary {
        /// And, Or, Xor, Add, Sub, Mul.
        Plain,
        Comparison,
        Shift,
    }

    pub fn binary(operator: u32) -> Option<Binary> {
        match operator {
            0..=5 => Some(Binary::Plain),
            6..=15 => Some(Binary::Comparison),
            16..=18 => Some(Binary::Shift),
            _ => None,
        }
    }

    /// How many values a memory's style has.
    pub const STYLES: u32 = 3;
}

/// The number of the first refusal among 1 to 5 that applies to a call, with its
/// two places; `[0, 0, 0]` if none of them applies.
///
/// Refusals: "Checks run 1, 2, 3, 4, 5"; "The two place numbers are 0 where
/// none is named."
pub fn refusal(
    image: &[u8],
    n: u32,
    p: u32,
    netlist_words: usize,
    scratch_words: usize,
) -> [u32; 3] {
    if !limits_are_inside(n, p) {
        return [1, 0, 0];
    }
    if long(netlist_words) < required_netlist_words(n, p) {
        return [2, 0, 0];
    }
    let module = match read(image) {
        Ok(module) => module,
        Err(cause) => return cause.refusal,
    };
    if long(scratch_words) < required_scratch_words(&module, n) {
        return [5, 0, 0];
    }
    [0, 0, 0]
}

/// Why an image is refused by 3 or 4.
#[derive(Clone, Copy, Debug, PartialEq, Eq)]
pub struct Cause {
    /// Number and place.
    pub refusal: [u32; 3],
    /// The sentence that the field or the record breaks. A record that breaks
    /// several rules has one of them here.
    pub rule: &'static str,
}

/// Why 3 or 4 refuses an image, if one of them does.
pub fn cause(image: &[u8]) -> Option<Cause> {
    read(image).err()
}

/// A module whose header and records keep the rules.
fn read(image: &[u8]) -> Result<Module<'_>, Cause> {
    let header = Header::read(image)?;
    let module = Module::read(image, &header);
    check_records(&module)?;
    Ok(module)
}

/// A buffer length for sums in 64 bits.
fn long(length: usize) -> u64 {
    u64::try_from(length).unwrap_or(u64::MAX)
}

// The caller's refusals.

/// Refusals, 1: "net limit N outside 1 to 65,535 or list limit P outside 0 to
/// 65,535".
fn limits_are_inside(n: u32, p: u32) -> bool {
    (1..=65_535).contains(&n) && p <= 65_535
}

/// Refusals, 2: "netlist buffer below 16 + 6N + P words".
fn required_netlist_words(n: u32, p: u32) -> u64 {
    16 + 6 * u64::from(n) + u64::from(p)
}

/// Refusals, 5: "scratch below [..] words"; Q-10: "Refusal 5's sum becomes 4 ×
/// signal bits + expression bits + 8 × expressions + 4N + 64".
fn required_scratch_words(module: &Module, n: u32) -> u64 {
    let signal_bits: u64 = module.signals.iter().map(|signal| u64::from(signal.width)).sum();
    let expression_bits: u64 =
        module.expressions.iter().map(|expression| u64::from(expression.width)).sum();
    let expressions = long(module.expressions.len());
    4 * signal_bits + expression_bits + 8 * expressions + 4 * u64::from(n) + 64
}

// Refusal 3: the header.

/// For each section its first byte and its count of bytes.
struct Header {
    stretches: [(u64, u64); 7],
}

impl Header {
    /// Refusals, 3: "header field wrong, a count above its most included, or
    /// the slice is not the total length. Place: first such field". The fields
    /// are looked at in their order, each in the light of those before it.
    fn read(image: &[u8]) -> Result<Header, Cause> {
        let fields = match image.get(..4 * HEADER_FIELDS) {
            Some(bytes) => fields::<HEADER_FIELDS>(bytes),
            None => return Err(wrong(0, "under 64 bytes, 0")),
        };
        match fields[0] {
            EDITION => {}
            1 => return Err(wrong(0, "Edition 1 is no longer read")),
            _ => return Err(wrong(0, "Edition 2 of the module image")),
        }
        // Image: "total bytes"; refusals, 3: "wrong length, 1".
        let total = u64::from(fields[1]);
        if total != long(image.len()) {
            return Err(wrong(1, "the slice is not the total length"));
        }
        let mut stretches = [(0, 0); 7];
        let mut next = HEADER_BYTES;
        let mut field = 2;
        for (section, stretch) in SECTIONS.iter().zip(&mut stretches) {
            let count = fields[field];
            let offset = fields[field + 1];
            if count > section.most {
                return Err(wrong(field, "a count above its most"));
            }
            let bytes = u64::from(count) * section.record_bytes;
            let names = field + 2 == HEADER_FIELDS;
            if names && next + bytes != total {
                return Err(wrong(field, "names that do not end at the total, 14"));
            }
            if u64::from(offset) != next {
                let rule = "Sections follow the header in this order, without gaps";
                return Err(wrong(field + 1, rule));
            }
            *stretch = (next, bytes);
            next += bytes;
            field += 2;
        }
        Ok(Header { stretches })
    }

    /// The bytes of a section.
    fn section<'a>(&self, image: &'a [u8], section: usize) -> &'a [u8] {
        let (start, bytes) = self.stretches[section];
        let start = usize::try_from(start).unwrap_or(usize::MAX);
        let bytes = usize::try_from(bytes).unwrap_or(usize::MAX);
        image.get(start..).and_then(|rest| rest.get(..bytes)).unwrap_or(&[])
    }
}

/// Refusals, 3: "Place: first such field, then 0".
fn wrong(field: usize, rule: &'static str) -> Cause {
    Cause { refusal: [3, u32::try_from(field).unwrap_or(0), 0], rule }
}

/// Image: "every field is 32 bits, little-endian, unsigned". Fields that the
/// bytes do not reach are 0; there are none in the calls below.
fn fields<const COUNT: usize>(bytes: &[u8]) -> [u32; COUNT] {
    let mut fields = [0; COUNT];
    for (field, bytes) in fields.iter_mut().zip(bytes.chunks_exact(4)) {
        *field = match *bytes {
            [a, b, c, d] => u32::from_le_bytes([a, b, c, d]),
            _ => 0,
        };
    }
    fields
}

/// A section's records as arrays of their fields.
fn records<const COUNT: usize>(section: &[u8]) -> Vec<[u32; COUNT]> {
    section.chunks_exact(4 * COUNT).map(fields::<COUNT>).collect()
}

// The records, by the names of their fields (docs/FORMATS.md).

struct Name {
    offset: u32,
    length: u32,
}

/// Image: "Signal, 4 fields: name offset in the names section, name length,
/// width, direction".
struct Signal {
    name: Name,
    width: u32,
    direction: u32,
}

/// Image: "Expression, 5: kind, width, three operands".
struct Expression {
    kind: u32,
    width: u32,
    operands: [u32; 3],
}

/// Image: "Assignment, 4: signal, lsb, width, value".
struct Assignment {
    signal: u32,
    lsb: u32,
    width: u32,
    value: u32,
}

/// Image: "Register, 12: name offset and length, target, next, clock, edge,
/// enable signal and polarity, reset signal, polarity, mode, value".
struct Register {
    name: Name,
    target: u32,
    next: u32,
    clock: u32,
    edge: u32,
    enable: Control,
    reset: Control,
    reset_mode: u32,
    reset_value: u32,
}

/// A signal and the polarity in which it is active.
struct Control {
    signal: u32,
    polarity: u32,
}

/// Image: "Memory, 26: name offset and length, depth, style, latency, ten port
/// fields, second port present (0 or 1), ten more (0 if none)"; Q-1: "puts the
/// word width in the memory record after the depth, 27 fields".
struct Memory {
    name: Name,
    depth: u32,
    word_width: u32,
    style: u32,
    latency: u32,
    first_port: [u32; 10],
    second_port_present: u32,
    second_port: [u32; 10],
}

/// Image: "Port: read address, read data, read enable and polarity, write
/// address, write data, write enable and polarity, clock, edge".
struct Port {
    read_address: u32,
    read_data: u32,
    read_enable: Control,
    write_address: u32,
    write_data: u32,
    write_enable: Control,
    clock: u32,
    edge: u32,
}

impl Port {
    fn of(fields: [u32; 10]) -> Port {
        let [
            read_address,
            read_data,
            read_enable,
            read_polarity,
            write_address,
            write_data,
            write_enable,
            write_polarity,
            clock,
            edge,
        ] = fields;
        Port {
            read_address,
            read_data,
            read_enable: Control { signal: read_enable, polarity: read_polarity },
            write_address,
            write_data,
            write_enable: Control { signal: write_enable, polarity: write_polarity },
            clock,
            edge,
        }
    }
}

struct Module<'a> {
    signals: Vec<Signal>,
    expressions: Vec<Expression>,
    list: Vec<u32>,
    assignments: Vec<Assignment>,
    registers: Vec<Register>,
    memories: Vec<Memory>,
    names: &'a [u8],
}

impl Signal {
    fn read([offset, length, width, direction]: [u32; 4]) -> Signal {
        Signal { name: Name { offset, length }, width, direction }
    }
}

impl Register {
    fn read(record: [u32; 12]) -> Register {
        let [offset, length, target, next, clock, edge, ..] = record;
        let [.., enable, enable_polarity, reset, reset_polarity, reset_mode, reset_value] = record;
        Register {
            name: Name { offset, length },
            target,
            next,
            clock,
            edge,
            enable: Control { signal: enable, polarity: enable_polarity },
            reset: Control { signal: reset, polarity: reset_polarity },
            reset_mode,
            reset_value,
        }
    }
}

impl Memory {
    fn read(record: [u32; 27]) -> Memory {
        let mut first_port = [0; 10];
        let mut second_port = [0; 10];
        first_port.copy_from_slice(&record[6..16]);
        second_port.copy_from_slice(&record[17..27]);
        Memory {
            name: Name { offset: record[0], length: record[1] },
            depth: record[2],
            word_width: record[3],
            style: record[4],
            latency: record[5],
            first_port,
            second_port_present: record[16],
            second_port,
        }
    }
}

impl<'a> Module<'a> {
    fn read(image: &'a [u8], header: &Header) -> Module<'a> {
        Module {
            signals: records(header.section(image, 0)).into_iter().map(Signal::read).collect(),
            expressions: records(header.section(image, 1))
                .into_iter()
                .map(|[kind, width, a, b, c]| Expression { kind, width, operands: [a, b, c] })
                .collect(),
            list: records(header.section(image, 2)).into_iter().map(|[word]| word).collect(),
            assignments: records(header.section(image, 3))
                .into_iter()
                .map(|[signal, lsb, width, value]| Assignment { signal, lsb, width, value })
                .collect(),
            registers: records(header.section(image, 4)).into_iter().map(Register::read).collect(),
            memories: records(header.section(image, 5)).into_iter().map(Memory::read).collect(),
            names: header.section(image, 6),
        }
    }
}

// Refusal 4: the records.

/// Refusals, 4: "a record breaks a rule. Place: section (numbered from 0),
/// record; the first, in image order." List words and names are no records of
/// their own here: "A bad name or list word counts against the record that uses
/// it".
fn check_records(module: &Module) -> Result<(), Cause> {
    let mut check = Check::new(module);
    each(SIGNALS, &module.signals, |_, signal| check.signal(signal))?;
    each(EXPRESSIONS, &module.expressions, |number, expression| {
        check.expression(number, expression)
    })?;
    each(ASSIGNMENTS, &module.assignments, |_, assignment| check.assignment(assignment))?;
    each(REGISTERS, &module.registers, |_, register| check.register(register))?;
    each(MEMORIES, &module.memories, |_, memory| check.memory(memory))
}

/// Judges the records of a section up to the first that breaks a rule.
fn each<Record>(
    section: u32,
    records: &[Record],
    mut judge: impl FnMut(u32, &Record) -> Judgement,
) -> Result<(), Cause> {
    for (record, number) in records.iter().zip(0..) {
        judge(number, record)
            .map_err(|Broken(rule)| Cause { refusal: [4, section, number], rule })?;
    }
    Ok(())
}

/// A rule is broken: its sentence.
struct Broken(&'static str);

type Judgement = Result<(), Broken>;

fn rule(words: &'static str, holds: bool) -> Judgement {
    if holds { Ok(()) } else { Err(Broken(words)) }
}

// Rules that several sorts of record share.

const ONE_THAT_IS_THERE: &str =
    "a field that names a record, a list word or an enum's value names one that is there";
const NONE_EQUAL: &str = "none equal within signals, registers or memories";
const STAY_INSIDE: &str =
    "Slices, Signal expressions and assignments stay inside what they take from or drive";
const EQUAL_THE_RESULT: &str =
    "And, Or, Xor, Add, Sub, Mul, BitNot and Mux branches equal the result";
const GIVE_1: &str = "Comparisons, LogicNot and reductions give 1";
const ARE_1_WIDE: &str = "Mux condition, clock and controls are 1 wide";
const AGREE: &str = "Next, reset value and target agree";
const ONE_WIDTH: &str = "all read and write data of a memory have one width";
const MAY_BE_ABSENT: &str = "Only a register's enable and reset and a read enable may be absent";
const OTHER_FIELDS_0: &str = "an absent control's other fields are 0";

/// What the records before the one in hand leave behind. Those are all right,
/// since the first that is not ends the check.
struct Check<'a> {
    module: &'a Module<'a>,
    signal_names: HashSet<&'a [u8]>,
    register_names: HashSet<&'a [u8]>,
    memory_names: HashSet<&'a [u8]>,
    signal_bits: u64,
    expression_bits: u64,
    /// For each bit of each signal, whether it has a driver.
    driven: Vec<Vec<bool>>,
}

impl<'a> Check<'a> {
    fn new(module: &'a Module<'a>) -> Check<'a> {
        Check {
            module,
            signal_names: HashSet::new(),
            register_names: HashSet::new(),
            memory_names: HashSet::new(),
            signal_bits: 0,
            expression_bits: 0,
            driven: Vec::new(),
        }
    }

    fn signal(&mut self, signal: &Signal) -> Judgement {
        let name = self.name(&signal.name)?;
        rule(NONE_EQUAL, self.signal_names.insert(name))?;
        width_is_inside(signal.width)?;
        // Refusals, 4: "a width sum against the record that passes it".
        self.signal_bits += u64::from(signal.width);
        rule("signal widths sum to at most 4,096", self.signal_bits <= MOST_SIGNAL_BITS)?;
        enum_value(signal.direction, DIRECTIONS)?;
        // Image: "inputs have one already".
        self.driven.push(vec![signal.direction == INPUT; index(signal.width)]);
        Ok(())
    }

    fn expression(&mut self, number: u32, expression: &Expression) -> Judgement {
        let width = expression.width;
        width_is_inside(width)?;
        // Refusals, 4: "a width sum against the record that passes it".
        self.expression_bits += u64::from(width);
        rule(
            "signal widths sum to at most 4,096, expression widths to 32,768",
            self.expression_bits <= MOST_EXPRESSION_BITS,
        )?;
        let [a, b, c] = expression.operands;
        match expression.kind {
            // Image: "Signal: signal, lsb."
            declared::SIGNAL => {
                unused(c)?;
                let signal = self.named_signal(a)?;
                rule(STAY_INSIDE, is_inside(b, width, u64::from(signal.width)))
            }
            // Image: "Constant: list start, 2 × ceil(width / 64) words".
            declared::CONSTANT => {
                unused(b).and(unused(c))?;
                self.list_words(a, 2 * width.div_ceil(64)).map(|_| ())
            }
            declared::UNARY => {
                unused(c)?;
                self.unary(number, width, a, b)
            }
            declared::BINARY => self.binary(number, width, expression.operands),
            declared::MUX => self.mux(number, width, expression.operands),
            declared::SLICE => {
                unused(c)?;
                let taken_from = self.operand(a, number)?;
                rule(STAY_INSIDE, is_inside(b, width, u64::from(taken_from.width)))
            }
            // Image: "Concat: list start, count".
            declared::CONCAT => {
                unused(c)?;
                self.concat(number, width, a, b)
            }
            _ => Err(Broken("Kinds 0 to 6 follow `ExprKind`")),
        }
    }

    fn unary(&self, number: u32, width: u32, operator: u32, operand: u32) -> Judgement {
        let operator = declared::unary(operator).ok_or(Broken(ONE_THAT_IS_THERE))?;
        let operand = self.operand(operand, number)?;
        match operator {
            declared::Unary::BitNot => rule(EQUAL_THE_RESULT, operand.width == width),
            declared::Unary::Judging => rule(GIVE_1, width == 1),
        }
    }

    fn binary(&self, number: u32, width: u32, [operator, left, right]: [u32; 3]) -> Judgement {
        let operator = declared::binary(operator).ok_or(Broken(ONE_THAT_IS_THERE))?;
        let left = self.operand(left, number)?;
        let right = self.operand(right, number)?;
        match operator {
            declared::Binary::Plain => {
                rule(EQUAL_THE_RESULT, left.width == width && right.width == width)
            }
            declared::Binary::Comparison => {
                rule(GIVE_1, width == 1)?;
                rule("compared sides are equal", left.width == right.width)
            }
            declared::Binary::Shift => {
                rule("A shift keeps its left width, the amount any width", left.width == width)
            }
        }
    }

    fn mux(&self, number: u32, width: u32, [condition, one, other]: [u32; 3]) -> Judgement {
        let condition = self.operand(condition, number)?;
        let one = self.operand(one, number)?;
        let other = self.operand(other, number)?;
        rule(ARE_1_WIDE, condition.width == 1)?;
        rule(EQUAL_THE_RESULT, one.width == width && other.width == width)
    }

    fn concat(&self, number: u32, width: u32, start: u32, count: u32) -> Judgement {
        const HAS_A_PART: &str = "Concat has a part, and the parts sum";
        rule(HAS_A_PART, count >= 1)?;
        let mut sum = 0;
        for part in self.list_words(start, count)? {
            sum += u64::from(self.operand(*part, number)?.width);
        }
        rule(HAS_A_PART, sum == u64::from(width))
    }

    fn assignment(&mut self, assignment: &Assignment) -> Judgement {
        let signal = self.named_signal(assignment.signal)?;
        width_is_inside(assignment.width)?;
        let inside = is_inside(assignment.lsb, assignment.width, u64::from(signal.width));
        rule(STAY_INSIDE, inside)?;
        let value = self.named_expression(assignment.value)?;
        rule("An assignment's value has its width", value.width == assignment.width)?;
        self.drive(assignment.signal, assignment.lsb, assignment.width)
    }

    fn register(&mut self, register: &Register) -> Judgement {
        let name = self.name(&register.name)?;
        rule(NONE_EQUAL, self.register_names.insert(name))?;
        let target = self.named_signal(register.target)?;
        let next = self.named_expression(register.next)?;
        rule(AGREE, next.width == target.width)?;
        self.clock(register.clock, register.edge)?;
        self.control_or_absent(&register.enable)?;
        self.control_or_absent(&register.reset)?;
        if register.reset.signal == ABSENT {
            rule(OTHER_FIELDS_0, register.reset_mode == 0 && register.reset_value == 0)?;
        } else {
            enum_value(register.reset_mode, MODES)?;
            let value = self.named_expression(register.reset_value)?;
            rule(AGREE, value.width == target.width)?;
        }
        // Image: "Assignments, register targets and read data drive".
        self.drive(register.target, 0, target.width)
    }

    fn memory(&mut self, memory: &Memory) -> Judgement {
        let name = self.name(&memory.name)?;
        rule(NONE_EQUAL, self.memory_names.insert(name))?;
        rule("Depth 1 to 65,536", (1..=MOST_DEPTH).contains(&memory.depth))?;
        enum_value(memory.style, declared::STYLES)?;
        rule("latency 1", memory.latency == LATENCY)?;
        let first_width = self.port(&Port::of(memory.first_port))?;
        // A second port's read data has the first's width, by the rule below.
        rule(
            "A width that differs from the read data's is refused under 4",
            memory.word_width == first_width,
        )?;
        match memory.second_port_present {
            0 => rule("ten more (0 if none)", memory.second_port == [0; 10]),
            1 => {
                let second_width = self.port(&Port::of(memory.second_port))?;
                rule(ONE_WIDTH, first_width == second_width)
            }
            _ => Err(Broken("second port present (0 or 1)")),
        }
    }

    /// A memory port, and the width of its data.
    fn port(&mut self, port: &Port) -> Result<u32, Broken> {
        let read_address = self.named_expression(port.read_address)?;
        address_width_is_inside(read_address.width)?;
        let read_data = self.named_signal(port.read_data)?;
        self.control_or_absent(&port.read_enable)?;
        let write_address = self.named_expression(port.write_address)?;
        address_width_is_inside(write_address.width)?;
        let write_data = self.named_expression(port.write_data)?;
        rule(ONE_WIDTH, read_data.width == write_data.width)?;
        self.control(&port.write_enable)?;
        self.clock(port.clock, port.edge)?;
        // Image: "Assignments, register targets and read data drive".
        self.drive(port.read_data, 0, read_data.width)?;
        Ok(read_data.width)
    }

    /// The bytes of a name.
    fn name(&self, name: &Name) -> Result<&'a [u8], Broken> {
        const NAMES: &str = "Names: 1 to 64 bytes of 33 to 126";
        rule(NAMES, (1..=MOST_NAME_BYTES).contains(&name.length))?;
        let bytes = stretch(self.module.names, name.offset, name.length)
            .ok_or(Broken("name offset in the names section, name length"))?;
        rule(NAMES, bytes.iter().all(|byte| (33..=126).contains(byte)))?;
        Ok(bytes)
    }

    fn named_signal(&self, number: u32) -> Result<&'a Signal, Broken> {
        self.module.signals.get(index(number)).ok_or(Broken(ONE_THAT_IS_THERE))
    }

    fn named_expression(&self, number: u32) -> Result<&'a Expression, Broken> {
        self.module.expressions.get(index(number)).ok_or(Broken(ONE_THAT_IS_THERE))
    }

    fn operand(&self, operand: u32, of: u32) -> Result<&'a Expression, Broken> {
        rule("Operands have lower numbers", operand < of)?;
        self.named_expression(operand)
    }

    fn list_words(&self, start: u32, count: u32) -> Result<&'a [u32], Broken> {
        stretch(&self.module.list, start, count).ok_or(Broken(ONE_THAT_IS_THERE))
    }

    fn clock(&self, signal: u32, edge: u32) -> Judgement {
        self.is_1_wide(signal)?;
        enum_value(edge, EDGES)
    }

    fn control(&self, control: &Control) -> Judgement {
        self.is_1_wide(control.signal)?;
        enum_value(control.polarity, POLARITIES)
    }

    /// A clock or control that is not absent.
    fn is_1_wide(&self, signal: u32) -> Judgement {
        rule(MAY_BE_ABSENT, signal != ABSENT)?;
        rule(ARE_1_WIDE, self.named_signal(signal)?.width == 1)
    }

    /// Image: "Absent is 4,294,967,295".
    fn control_or_absent(&self, control: &Control) -> Judgement {
        if control.signal == ABSENT {
            rule(OTHER_FIELDS_0, control.polarity == 0)
        } else {
            self.control(control)
        }
    }

    /// Refusals, 4: "a second driver [..] against the later record".
    fn drive(&mut self, signal: u32, lsb: u32, width: u32) -> Judgement {
        let bits = self.driven.get_mut(index(signal)).ok_or(Broken(ONE_THAT_IS_THERE))?;
        for driven in bits.iter_mut().skip(index(lsb)).take(index(width)) {
            rule("no bit has two drivers; inputs have one already", !*driven)?;
            *driven = true;
        }
        Ok(())
    }
}

fn width_is_inside(width: u32) -> Judgement {
    rule("Width 1 to 1,024", (1..=MOST_WIDTH).contains(&width))
}

fn address_width_is_inside(width: u32) -> Judgement {
    rule("address width 1 to 32", (1..=MOST_ADDRESS_WIDTH).contains(&width))
}

fn enum_value(value: u32, values: u32) -> Judgement {
    rule(ONE_THAT_IS_THERE, value < values)
}

fn unused(field: u32) -> Judgement {
    rule("three operands, unused ones 0", field == 0)
}

/// Whether `count` things from `start` on are among the first `whole`.
fn is_inside(start: u32, count: u32, whole: u64) -> bool {
    u64::from(start) + u64::from(count) <= whole
}

/// A record number as an index; one too large for the machine is the largest,
/// at which no record is.
fn index(number: u32) -> usize {
    usize::try_from(number).unwrap_or(usize::MAX)
}

/// `count` things from `start` on, if they are all there.
fn stretch<Thing>(things: &[Thing], start: u32, count: u32) -> Option<&[Thing]> {
    let rest = things.get(index(start)..)?;
    rest.get(..index(count))
}
