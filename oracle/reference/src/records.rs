//! Refusal 4: "a record breaks a rule. Place: section (numbered from 0),
//! record; the first, in image order."

use crate::layout::{Module, ABSENT, ASSIGNMENTS, EXPRESSIONS, LIST, MEMORIES, REGISTERS, SIGNALS};

/// Section and record of the first record that breaks a rule. The list and the
/// names are no records: "a bad name or list word counts against the record
/// that uses it".
pub fn first_wrong_record(module: &Module) -> Option<(u32, u32)> {
    let mut drivers = Drivers::default();
    for section in [SIGNALS, EXPRESSIONS, ASSIGNMENTS, REGISTERS, MEMORIES] {
        for record in 0..module.count(section) {
            let keeps_rules = match section {
                SIGNALS => signal_keeps_rules(module, record, &mut drivers),
                EXPRESSIONS => expression_keeps_rules(module, record),
                ASSIGNMENTS => assignment_keeps_rules(module, record, &mut drivers),
                REGISTERS => register_keeps_rules(module, record, &mut drivers),
                _ => memory_keeps_rules(module, record, &mut drivers),
            };
            if !keeps_rules {
                return Some((section as u32, record));
            }
        }
    }
    None
}

// ---- rules that several sorts of record share ----

/// "Width 1 to 1,024."
fn width_is_in_range(width: u32) -> bool {
    (1..=1_024).contains(&width)
}

/// "Names: 1 to 64 bytes of 33 to 126", inside the names section.
fn name_is_good(name: Option<&[u8]>) -> bool {
    match name {
        Some(bytes) => (1..=64).contains(&bytes.len()) && bytes.iter().all(|byte| (33..=126).contains(byte)),
        None => false,
    }
}

/// The name of a record of a section whose records begin with one.
fn name_of<'a>(module: &Module<'a>, section: usize, record: u32) -> Option<&'a [u8]> {
    module.name(module.field(section, record, 0), module.field(section, record, 1))
}

/// "None equal within signals, registers or memories"; "against the later
/// record".
fn no_earlier_name_is_equal(module: &Module, section: usize, record: u32) -> bool {
    let name = name_of(module, section, record);
    (0..record).all(|earlier| name_of(module, section, earlier) != name)
}

fn has_good_name(module: &Module, section: usize, record: u32) -> bool {
    name_is_good(name_of(module, section, record)) && no_earlier_name_is_equal(module, section, record)
}

/// "A field that names … an enum's value names one that is there."
fn is_value_of_enum(field: u32, values: u32) -> bool {
    field < values
}

/// "Clock and controls are 1 wide."
fn is_one_wide_signal(module: &Module, signal: u32) -> bool {
    module.signal_width(signal) == Some(1)
}

/// "Stay inside what they take from or drive."
fn stays_inside(lsb: u32, width: u32, whole: u32) -> bool {
    lsb as u64 + width as u64 <= whole as u64
}

/// Edge, polarity, mode: each has two values.
const TWO_VALUES: u32 = 2;

fn control_is_good(module: &Module, signal: u32, polarity: u32) -> bool {
    is_one_wide_signal(module, signal) && is_value_of_enum(polarity, TWO_VALUES)
}

/// "An absent control's other fields are 0."
fn control_is_good_or_absent(module: &Module, signal: u32, polarity: u32) -> bool {
    if signal == ABSENT {
        polarity == 0
    } else {
        control_is_good(module, signal, polarity)
    }
}

fn clock_is_good(module: &Module, clock: u32, edge: u32) -> bool {
    is_one_wide_signal(module, clock) && is_value_of_enum(edge, TWO_VALUES)
}

// ---- drivers ----

/// Signal bits that have a driver, record by record.
#[derive(Default)]
struct Drivers {
    has_driver: Vec<Vec<bool>>,
}

impl Drivers {
    /// "Inputs have one already."
    fn add_signal(&mut self, width: u32, is_input: bool) {
        self.has_driver.push(vec![is_input; width as usize]);
    }

    /// "No bit has two drivers": false where one of the bits had one.
    fn drive(&mut self, signal: u32, lsb: u32, width: u32) -> bool {
        let first = lsb as usize;
        let bits = &mut self.has_driver[signal as usize][first..first + width as usize];
        let all_free = bits.iter().all(|has_driver| !has_driver);
        bits.fill(true);
        all_free
    }

    fn drive_whole(&mut self, signal: u32) -> bool {
        let width = self.has_driver[signal as usize].len() as u32;
        self.drive(signal, 0, width)
    }
}

// ---- signals ----

const DIRECTIONS: u32 = 3;
const INPUT: u32 = 1;

fn signal_keeps_rules(module: &Module, record: u32, drivers: &mut Drivers) -> bool {
    let width = module.field(SIGNALS, record, 2);
    let direction = module.field(SIGNALS, record, 3);
    let keeps_rules = has_good_name(module, SIGNALS, record)
        && width_is_in_range(width)
        && is_value_of_enum(direction, DIRECTIONS)
        && signal_widths_sum_to_at_most_4096(module, record);
    if keeps_rules {
        drivers.add_signal(width, direction == INPUT);
    }
    keeps_rules
}

/// "Signal widths sum to at most 4,096"; "against the record that passes it".
fn signal_widths_sum_to_at_most_4096(module: &Module, last: u32) -> bool {
    (0..=last).map(|signal| module.field(SIGNALS, signal, 2) as u64).sum::<u64>() <= 4_096
}

// ---- expressions ----

fn expression_keeps_rules(module: &Module, record: u32) -> bool {
    let field = |number| module.field(EXPRESSIONS, record, number);
    let (kind, width, operands) = (field(0), field(1), [field(2), field(3), field(4)]);
    width_is_in_range(width)
        && expression_widths_sum_to_at_most_32768(module, record)
        && kind_keeps_rules(module, record, kind, width, operands)
}

/// "Expression widths [sum] to 32,768."
fn expression_widths_sum_to_at_most_32768(module: &Module, last: u32) -> bool {
    (0..=last).map(|expression| module.field(EXPRESSIONS, expression, 1) as u64).sum::<u64>() <= 32_768
}

/// "Kinds 0 to 6 follow `ExprKind`, operands its fields in order"; "unused
/// ones 0".
fn kind_keeps_rules(module: &Module, record: u32, kind: u32, width: u32, operands: [u32; 3]) -> bool {
    let [a, b, c] = operands;
    match kind {
        0 => signal_expression_stays_inside(module, a, b, width) && c == 0,
        1 => constant_words_are_there(module, a, width) && b == 0 && c == 0,
        2 => unary_has_right_widths(a, width, operand_width(module, record, b)) && c == 0,
        3 => binary_has_right_widths(a, width, operand_width(module, record, b), operand_width(module, record, c)),
        4 => mux_has_right_widths(
            width,
            operand_width(module, record, a),
            operand_width(module, record, b),
            operand_width(module, record, c),
        ),
        5 => concat_parts_sum(module, record, width, a, b) && c == 0,
        6 => slice_stays_inside(operand_width(module, record, a), b, width) && c == 0,
        _ => false,
    }
}

/// "Operands have lower numbers": the width of one that has.
fn operand_width(module: &Module, record: u32, operand: u32) -> Option<u32> {
    (operand < record).then(|| module.field(EXPRESSIONS, operand, 1))
}

/// "Signal: signal, lsb."
fn signal_expression_stays_inside(module: &Module, signal: u32, lsb: u32, width: u32) -> bool {
    match module.signal_width(signal) {
        Some(whole) => stays_inside(lsb, width, whole),
        None => false,
    }
}

/// "Constant: list start, 2 × ceil(width / 64) words."
fn constant_words_are_there(module: &Module, start: u32, width: u32) -> bool {
    stays_inside(start, 2 * width.div_ceil(64), module.count(LIST))
}

/// "BitNot … equal the result. … LogicNot and reductions give 1."
fn unary_has_right_widths(operator: u32, width: u32, input: Option<u32>) -> bool {
    let Some(input) = input else { return false };
    match operator {
        0 => input == width,
        1..=4 => width == 1,
        _ => false,
    }
}

/// "And, Or, Xor, Add, Sub, Mul … equal the result. Comparisons … give 1;
/// compared sides are equal. A shift keeps its left width, the amount any
/// width."
fn binary_has_right_widths(operator: u32, width: u32, lhs: Option<u32>, rhs: Option<u32>) -> bool {
    let (Some(lhs), Some(rhs)) = (lhs, rhs) else { return false };
    match operator {
        0..=5 => lhs == width && rhs == width,
        6..=15 => width == 1 && lhs == rhs,
        16..=18 => lhs == width,
        _ => false,
    }
}

/// "Mux branches equal the result"; "Mux condition … 1 wide".
fn mux_has_right_widths(width: u32, condition: Option<u32>, then: Option<u32>, otherwise: Option<u32>) -> bool {
    condition == Some(1) && then == Some(width) && otherwise == Some(width)
}

/// "Concat: list start, count"; "Concat has a part, and the parts sum."
fn concat_parts_sum(module: &Module, record: u32, width: u32, start: u32, count: u32) -> bool {
    if count == 0 || !stays_inside(start, count, module.count(LIST)) {
        return false;
    }
    let mut sum = 0u64;
    for word in start..start + count {
        match operand_width(module, record, module.list_word(word)) {
            Some(part) => sum += part as u64,
            None => return false,
        }
    }
    sum == width as u64
}

fn slice_stays_inside(input: Option<u32>, lsb: u32, width: u32) -> bool {
    match input {
        Some(whole) => stays_inside(lsb, width, whole),
        None => false,
    }
}

// ---- assignments ----

fn assignment_keeps_rules(module: &Module, record: u32, drivers: &mut Drivers) -> bool {
    let field = |number| module.field(ASSIGNMENTS, record, number);
    let (signal, lsb, width, value) = (field(0), field(1), field(2), field(3));
    width_is_in_range(width)
        && assignment_stays_inside(module, signal, lsb, width)
        && value_has_its_width(module, value, width)
        && drivers.drive(signal, lsb, width)
}

fn assignment_stays_inside(module: &Module, signal: u32, lsb: u32, width: u32) -> bool {
    match module.signal_width(signal) {
        Some(whole) => stays_inside(lsb, width, whole),
        None => false,
    }
}

/// "An assignment's value has its width."
fn value_has_its_width(module: &Module, value: u32, width: u32) -> bool {
    module.expression_width(value) == Some(width)
}

// ---- registers ----

fn register_keeps_rules(module: &Module, record: u32, drivers: &mut Drivers) -> bool {
    let field = |number| module.field(REGISTERS, record, number);
    let (target, next) = (field(2), field(3));
    has_good_name(module, REGISTERS, record)
        && agrees_with_target(module, next, target)
        && clock_is_good(module, field(4), field(5))
        && control_is_good_or_absent(module, field(6), field(7))
        && reset_is_good_or_absent(module, target, [field(8), field(9), field(10), field(11)])
        && drivers.drive_whole(target)
}

/// "Next, reset value and target agree."
fn agrees_with_target(module: &Module, expression: u32, target: u32) -> bool {
    match (module.expression_width(expression), module.signal_width(target)) {
        (Some(width), Some(whole)) => width == whole,
        _ => false,
    }
}

/// Reset signal, polarity, mode, value.
fn reset_is_good_or_absent(module: &Module, target: u32, reset: [u32; 4]) -> bool {
    let [signal, polarity, mode, value] = reset;
    if signal == ABSENT {
        return polarity == 0 && mode == 0 && value == 0;
    }
    control_is_good(module, signal, polarity)
        && is_value_of_enum(mode, TWO_VALUES)
        && agrees_with_target(module, value, target)
}

// ---- memories ----

const STYLES: u32 = 3;
const PORT_FIELDS: usize = 10;
const DEPTH: usize = 2;
const WORD_WIDTH: usize = 3;
const STYLE: usize = 4;
const LATENCY: usize = 5;
const FIRST_PORT: usize = 6;
const SECOND_PRESENT: usize = FIRST_PORT + PORT_FIELDS;
const SECOND_PORT: usize = SECOND_PRESENT + 1;
const READ_DATA: usize = 1;

fn memory_keeps_rules(module: &Module, record: u32, drivers: &mut Drivers) -> bool {
    let field = |number| module.field(MEMORIES, record, number);
    let port = |first| std::array::from_fn::<u32, PORT_FIELDS, _>(|i| field(first + i));
    has_good_name(module, MEMORIES, record)
        && depth_is_in_range(field(DEPTH))
        && word_width_is_the_read_datas(module, field(WORD_WIDTH), field(FIRST_PORT + READ_DATA))
        && is_value_of_enum(field(STYLE), STYLES)
        && latency_is_1(field(LATENCY))
        && ports_keep_rules(module, port(FIRST_PORT), field(SECOND_PRESENT), port(SECOND_PORT), drivers)
}

/// "Depth 1 to 65,536."
fn depth_is_in_range(depth: u32) -> bool {
    (1..=65_536).contains(&depth)
}

/// "A width that differs from the read data's is refused under 4" (request Q-1).
fn word_width_is_the_read_datas(module: &Module, width: u32, read_data: u32) -> bool {
    module.signal_width(read_data) == Some(width)
}

/// "Latency 1."
fn latency_is_1(latency: u32) -> bool {
    latency == 1
}

/// "Second port present (0 or 1), ten more (0 if none)."
fn ports_keep_rules(
    module: &Module,
    first: [u32; PORT_FIELDS],
    present: u32,
    second: [u32; PORT_FIELDS],
    drivers: &mut Drivers,
) -> bool {
    let Some(data_width) = module.signal_width(first[READ_DATA]) else { return false };
    port_keeps_rules(module, first, data_width, drivers)
        && match present {
            0 => second == [0; PORT_FIELDS],
            1 => port_keeps_rules(module, second, data_width, drivers),
            _ => false,
        }
}

/// "Port: read address, read data, read enable and polarity, write address,
/// write data, write enable and polarity, clock, edge."
fn port_keeps_rules(module: &Module, port: [u32; PORT_FIELDS], data_width: u32, drivers: &mut Drivers) -> bool {
    let [read_address, read_data, read_enable, read_polarity, write_address, write_data, write_enable, write_polarity, clock, edge] =
        port;
    address_is_good(module, read_address)
        && address_is_good(module, write_address)
        && data_have_one_width(module, read_data, write_data, data_width)
        && control_is_good_or_absent(module, read_enable, read_polarity)
        && control_is_good(module, write_enable, write_polarity)
        && clock_is_good(module, clock, edge)
        && drivers.drive_whole(read_data)
}

/// "Address width 1 to 32."
fn address_is_good(module: &Module, address: u32) -> bool {
    matches!(module.expression_width(address), Some(1..=32))
}

/// "All read and write data of a memory have one width."
fn data_have_one_width(module: &Module, read_data: u32, write_data: u32, width: u32) -> bool {
    module.signal_width(read_data) == Some(width) && module.expression_width(write_data) == Some(width)
}
