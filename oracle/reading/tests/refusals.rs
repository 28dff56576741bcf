//! Each refusal from 1 to 5 and its place, each limit at its most and one past
//! it, on small images built by hand from the sentences of the rules. The reference
//! checks must answer alike on each of them.

use image::kind::{BINARY, CONCAT, CONSTANT, MUX, SIGNAL, SLICE, UNARY};
use image::memory_field::{DEPTH, FIRST_PORT, HAS_SECOND, LATENCY, SECOND_PORT, STYLE, WORD_WIDTH};
use image::{ABSENT, EDITION, Image, MEMORY_FIELDS, constant_words, set_word, to_edition_1, word_at};

/// This reading's answer, once the reference has given the same.
fn refusal(image: &[u8], n: u32, p: u32, netlist_words: usize, scratch_words: usize) -> [u32; 3] {
    let read = reading::refusal(image, n, p, netlist_words, scratch_words);
    let reference = reference::check(image, n, p, netlist_words, scratch_words);
    assert_eq!(read, reference, "this reading and the reference");
    read
}

const INTERNAL: u32 = 0;
const INPUT: u32 = 1;
const OUTPUT: u32 = 2;

// Operators in the Rust's declared order.
const BIT_NOT: u32 = 0;
const ONE_WIDE_UNARY: [u32; 4] = [1, 2, 3, 4];
const UNARY_OPERATORS: u32 = 5;

const EQUAL_WIDTHS: [u32; 6] = [0, 1, 2, 3, 4, 5];
const COMPARISONS: [u32; 10] = [6, 7, 8, 9, 10, 11, 12, 13, 14, 15];
const SHIFTS: [u32; 3] = [16, 17, 18];
const BINARY_OPERATORS: u32 = 19;

const STYLES: u32 = 3;

// Fields of a port.
const READ_ADDRESS: usize = 0;
const READ_DATA: usize = 1;
const WRITE_ADDRESS: usize = 4;
const WRITE_DATA: usize = 5;

const N: u32 = 100;
const P: u32 = 200;
const NETLIST: usize = 16 + 600 + 200;
const AMPLE: usize = 1 << 20;

const ACCEPTED: [u32; 3] = [0, 0, 0];

/// Records put into an image one by one.
trait Made {
    fn expression(&mut self, kind: u32, width: u32, operands: [u32; 3]) -> u32;

    /// An expression of a width: a constant of zeros at the list's start.
    fn value(&mut self, width: u32) -> u32;

    fn judged(&self) -> [u32; 3];
}

impl Made for Image {
    fn expression(&mut self, kind: u32, width: u32, operands: [u32; 3]) -> u32 {
        let [a, b, c] = operands;
        self.expressions.push([kind, width, a, b, c]);
        self.expressions.len() as u32 - 1
    }

    fn value(&mut self, width: u32) -> u32 {
        let words = constant_words(width);
        if self.list.len() < words {
            self.list.resize(words, 0);
        }
        self.expression(CONSTANT, width, [0, 0, 0])
    }

    fn judged(&self) -> [u32; 3] {
        judged(&self.encode())
    }
}

fn judged(image: &[u8]) -> [u32; 3] {
    refusal(image, N, P, NETLIST, AMPLE)
}

fn with_field(image: &[u8], number: usize, value: u32) -> Vec<u8> {
    let mut image = image.to_vec();
    set_word(&mut image, number, value);
    image
}

/// Input a, output y, y = BitNot a.
fn inverter() -> Image {
    let mut image = Image::default();
    let a = image.add_signal("a", 1, INPUT);
    let y = image.add_signal("y", 1, OUTPUT);
    let read = image.expression(SIGNAL, 1, [a, 0, 0]);
    let not = image.expression(UNARY, 1, [BIT_NOT, read, 0]);
    image.assignments.push([y, 0, 1, not]);
    image
}

/// A clock (signal 0), a control (1), an 8-bit register target (2), a 1-bit
/// signal that is driven by nothing (3), an 8-bit expression (0) and a 1-bit
/// one (1), with a register of enable and reset.
fn register() -> Image {
    let mut image = Image::default();
    let clock = image.add_signal("clock", 1, INPUT);
    let control = image.add_signal("control", 1, INPUT);
    let target = image.add_signal("target", 8, OUTPUT);
    image.add_signal("free", 1, INTERNAL);
    let next = image.value(8);
    image.value(1);
    let [offset, length] = image.add_name("r");
    image.registers.push([
        offset, length, target, next, clock, 0, control, 0, control, 0, 0, next,
    ]);
    image
}

/// A clock (signal 0), a control (1), an 8-bit signal for each port's read data
/// (2, 3), a 4-bit address (expression 0), 8-bit data (1), with a memory of two
/// ports.
fn memory() -> Image {
    memory_of(8)
}

/// The same with data of another width.
fn memory_of(width: u32) -> Image {
    let mut image = Image::default();
    let clock = image.add_signal("clock", 1, INPUT);
    let control = image.add_signal("control", 1, INPUT);
    let first = image.add_signal("first", width, OUTPUT);
    let second = image.add_signal("second", width, OUTPUT);
    let address = image.value(4);
    let data = image.value(width);
    let [offset, length] = image.add_name("m");
    let mut record = vec![offset, length, 16, width, 0, 1];
    record.extend([address, first, control, 0, address, data, control, 0, clock, 0]);
    record.push(1);
    record.extend([address, second, control, 0, address, data, control, 0, clock, 0]);
    image.memories.push(record.try_into().unwrap());
    image
}

/// Puts another memory, with read data of its own, behind those of `memory`.
fn another_memory(image: &mut Image) {
    let number = image.memories.len();
    let mut record = image.memories[0];
    [record[0], record[1]] = image.add_name(&format!("m{number}"));
    record[FIRST_PORT + READ_DATA] = image.add_signal(&format!("first{number}"), 8, INTERNAL);
    record[SECOND_PORT + READ_DATA] = image.add_signal(&format!("second{number}"), 8, INTERNAL);
    image.memories.push(record);
}

/// The judgement after one field of a record was changed.
fn changed<const COUNT: usize>(
    image: &Image,
    records: impl Fn(&mut Image) -> &mut Vec<[u32; COUNT]>,
    record: usize,
    field: usize,
    value: u32,
) -> [u32; 3] {
    let mut image = image.clone();
    records(&mut image)[record][field] = value;
    image.judged()
}

// 1, 2: limits and netlist buffer.

#[test]
fn net_limit() {
    let image = Image::default().encode();
    for n in [1, 2, 65_535] {
        assert_eq!(refusal(&image, n, 0, AMPLE, AMPLE), ACCEPTED);
    }
    for n in [0, 65_536, u32::MAX] {
        assert_eq!(refusal(&image, n, 0, AMPLE, AMPLE), [1, 0, 0]);
    }
}

#[test]
fn list_limit() {
    let image = Image::default().encode();
    for p in [0, 1, 65_535] {
        assert_eq!(refusal(&image, 1, p, AMPLE, AMPLE), ACCEPTED);
    }
    for p in [65_536, u32::MAX] {
        assert_eq!(refusal(&image, 1, p, AMPLE, AMPLE), [1, 0, 0]);
    }
}

#[test]
fn netlist_buffer() {
    let image = Image::default().encode();
    for (n, p, words) in [(1, 0, 22), (1, 1, 23), (100, 200, 816), (65_535, 65_535, 458_761)] {
        assert_eq!(refusal(&image, n, p, words, AMPLE), ACCEPTED);
        assert_eq!(refusal(&image, n, p, words - 1, AMPLE), [2, 0, 0]);
        assert_eq!(refusal(&image, n, p, 0, AMPLE), [2, 0, 0]);
    }
}

#[test]
fn order_of_checks() {
    // All five apply, then one fewer at a time.
    let mut bad = inverter();
    bad.signals[1][2] = 0;
    let bad_record = bad.encode();
    let bad_header = with_field(&bad_record, 0, 1);
    assert_eq!(refusal(&bad_header, 0, 0, 0, 0), [1, 0, 0]);
    assert_eq!(refusal(&bad_header, 1, 0, 21, 0), [2, 0, 0]);
    assert_eq!(refusal(&bad_header, 1, 0, 22, 0), [3, 0, 0]);
    assert_eq!(refusal(&bad_record, 1, 0, 22, 0), [4, 0, 1]);
    assert_eq!(refusal(&inverter().encode(), 1, 0, 22, 0), [5, 0, 0]);
    assert_eq!(refusal(&inverter().encode(), 1, 0, 22, AMPLE), ACCEPTED);
}

// 3: the header.

#[test]
fn under_64_bytes() {
    let image = Image::default().encode();
    assert_eq!(image.len(), 64);
    assert_eq!(judged(&image), ACCEPTED);
    for length in 0..64 {
        assert_eq!(judged(&image[..length]), [3, 0, 0]);
    }
}

#[test]
fn edition() {
    let image = inverter().encode();
    assert_eq!(word_at(&image, 0), EDITION);
    assert_eq!(judged(&image), ACCEPTED);
    for edition in [0, 1, 3, 256, 258, 1 << 31 | 2, u32::MAX] {
        assert_eq!(judged(&with_field(&image, 0, edition)), [3, 0, 0]);
    }
    // The first wrong field is told.
    for edition in [0, 1, 3] {
        assert_eq!(judged(&with_field(&with_field(&image, 0, edition), 1, 0)), [3, 0, 0]);
    }
}

#[test]
fn edition_1() {
    // Without memories the editions differ in field 0 alone.
    for image in [Image::default(), inverter(), register()] {
        let old = to_edition_1(&image);
        assert_eq!(judged(&old), [3, 0, 0]);
        assert_eq!(with_field(&old, 0, EDITION), image.encode());
        assert_eq!(judged(&image.encode()), ACCEPTED);
    }
    // With one, edition 2 wants a field more than there is.
    let mut image = memory();
    let old = to_edition_1(&image);
    assert_eq!(old.len(), image.encode().len() - 4);
    assert_eq!(judged(&old), [3, 0, 0]);
    assert_eq!(judged(&with_field(&old, 0, EDITION)), [3, 14, 0]);
    assert_eq!(judged(&with_field(&image.encode(), 0, 1)), [3, 0, 0]);
    // Also where its records were not right.
    image.memories[0][DEPTH] = 0;
    assert_eq!(judged(&to_edition_1(&image)), [3, 0, 0]);
    assert_eq!(judged(&with_field(&to_edition_1(&image), 0, EDITION)), [3, 14, 0]);
    // Where the first bytes of the names are given to the memory, the header is
    // right, and the style is read as the width.
    let mut image = memory();
    image.names.extend(b"more");
    let old = to_edition_1(&image);
    let (count, offset) = (word_at(&old, 14), word_at(&old, 15));
    let old = with_field(&with_field(&old, 14, count - 4), 15, offset + 4);
    assert_eq!(judged(&old), [3, 0, 0]);
    assert_eq!(judged(&with_field(&old, 0, EDITION)), [4, 5, 0]);
}

#[test]
fn total() {
    let image = inverter().encode();
    let total = word_at(&image, 1);
    assert_eq!(judged(&image), ACCEPTED);
    for wrong in [0, total - 1, total + 1, u32::MAX] {
        assert_eq!(judged(&with_field(&image, 1, wrong)), [3, 1, 0]);
    }
    assert_eq!(judged(&image[..image.len() - 1]), [3, 1, 0]);
    let mut longer = image.clone();
    longer.push(b'x');
    assert_eq!(judged(&longer), [3, 1, 0]);
    // Where the total is right again, the names do not end there.
    assert_eq!(judged(&with_field(&longer, 1, total + 1)), [3, 14, 0]);
    assert_eq!(judged(&with_field(&image[..image.len() - 1], 1, total - 1)), [3, 14, 0]);
}

#[test]
fn counts_one_past_their_most() {
    let image = inverter().encode();
    let most = [512, 2_048, 8_192, 1_024, 256, 16, 16_384];
    for (section, most) in most.into_iter().enumerate() {
        let count = 2 + 2 * section;
        for wrong in [most + 1, u32::MAX] {
            let place = [3, count as u32, 0];
            assert_eq!(judged(&with_field(&image, count, wrong)), place);
        }
        // Of the most itself the next field is told, an offset too low for the
        // count, or that the names do not end at the total.
        let next = if section == 6 { 14 } else { count as u32 + 3 };
        let next = if next == 15 { 14 } else { next };
        assert_eq!(judged(&with_field(&image, count, most)), [3, next, 0]);
    }
}

#[test]
fn counts_at_their_most() {
    let mut signals = Image::default();
    for number in 0..512 {
        signals.add_signal(&format!("s{number}"), 8, INPUT);
    }
    assert_eq!(signals.judged(), ACCEPTED);
    signals.add_signal("s512", 8, INPUT);
    assert_eq!(signals.judged(), [3, 2, 0]);

    let mut expressions = Image::default();
    for _ in 0..2_048 {
        expressions.value(16);
    }
    assert_eq!(expressions.judged(), ACCEPTED);
    expressions.value(1);
    assert_eq!(expressions.judged(), [3, 4, 0]);

    let mut list = Image { list: vec![u32::MAX; 8_192], ..Image::default() };
    assert_eq!(list.judged(), ACCEPTED);
    list.list.push(0);
    assert_eq!(list.judged(), [3, 6, 0]);

    let mut assignments = Image::default();
    let y = assignments.add_signal("y", 1_024, OUTPUT);
    let value = assignments.value(1);
    for bit in 0..1_024 {
        assignments.assignments.push([y, bit, 1, value]);
    }
    assert_eq!(assignments.judged(), ACCEPTED);
    assignments.assignments.push([y, 0, 1, value]);
    assert_eq!(assignments.judged(), [3, 8, 0]);

    let mut registers = Image::default();
    let clock = registers.add_signal("clock", 1, INPUT);
    let next = registers.value(1);
    for number in 0..257 {
        assert_eq!(registers.judged(), ACCEPTED);
        let [offset, length] = registers.add_name(&format!("r{number}"));
        let target = registers.add_signal(&format!("t{number}"), 1, INTERNAL);
        registers.registers.push([
            offset, length, target, next, clock, 0, ABSENT, 0, ABSENT, 0, 0, 0,
        ]);
    }
    assert_eq!(registers.judged(), [3, 10, 0]);

    let mut memories = memory();
    for _ in 1..16 {
        another_memory(&mut memories);
    }
    assert_eq!(memories.judged(), ACCEPTED);
    memories.memories.push(memories.memories[15]);
    assert_eq!(memories.judged(), [3, 12, 0]);

    let mut names = Image { names: vec![0; 16_384], ..Image::default() };
    assert_eq!(names.judged(), ACCEPTED);
    names.names.push(b'x');
    assert_eq!(names.judged(), [3, 14, 0]);
}

#[test]
fn offsets() {
    for image in [Image::default(), inverter(), register(), memory()] {
        let image = image.encode();
        assert_eq!(judged(&image), ACCEPTED);
        for section in 0..7 {
            let number = 3 + 2 * section;
            let offset = word_at(&image, number);
            for wrong in [0, offset - 1, offset + 1, offset + 4, u32::MAX] {
                let place = [3, number as u32, 0];
                assert_eq!(judged(&with_field(&image, number, wrong)), place);
            }
        }
        // The first of two.
        let two = with_field(&with_field(&image, 9, 0), 5, 0);
        assert_eq!(judged(&two), [3, 5, 0]);
    }
}

#[test]
fn names_end_at_the_total() {
    let image = inverter().encode();
    let count = word_at(&image, 14);
    for wrong in [0, count - 1, count + 1, 16_384] {
        let wrong = with_field(&image, 14, wrong);
        assert_eq!(judged(&wrong), [3, 14, 0]);
        // Also where the names' offset is wrong as well: 14 is the first.
        assert_eq!(judged(&with_field(&wrong, 15, 0)), [3, 14, 0]);
    }
    // Offset and count that lie about a gap before the names.
    let offset = word_at(&image, 15);
    let gap = with_field(&with_field(&image, 14, count - 1), 15, offset + 1);
    assert_eq!(judged(&gap), [3, 14, 0]);
}

// 4: names.

#[test]
fn name_lengths() {
    let long: String = "n".repeat(65);
    let mut image = Image::default();
    image.add_signal(&long[..64], 1, INPUT);
    assert_eq!(image.judged(), ACCEPTED);
    image.add_signal(&long, 1, INPUT);
    assert_eq!(image.judged(), [4, 0, 1]);
    let mut image = Image::default();
    image.add_signal("", 1, INPUT);
    assert_eq!(image.judged(), [4, 0, 0]);
}

#[test]
fn name_bytes() {
    for byte in 0..=255u8 {
        let mut image = Image::default();
        image.signals.push([1, 3, 1, INPUT]);
        image.names = vec![0, b'a', byte, b'b', 255];
        let expected = if (33..=126).contains(&byte) { ACCEPTED } else { [4, 0, 0] };
        assert_eq!(image.judged(), expected);
    }
}

#[test]
fn names_lie_in_their_section() {
    for (offset, length, expected) in [
        (0, 4, ACCEPTED),
        (3, 1, ACCEPTED),
        (1, 4, [4, 0, 0]),
        (4, 1, [4, 0, 0]),
        (0, 5, [4, 0, 0]),
        (u32::MAX, 1, [4, 0, 0]),
        (u32::MAX, u32::MAX, [4, 0, 0]),
        (0, u32::MAX, [4, 0, 0]),
        (1, u32::MAX, [4, 0, 0]),
    ] {
        let mut image = Image { names: b"name".to_vec(), ..Image::default() };
        image.signals.push([offset, length, 1, INPUT]);
        assert_eq!(image.judged(), expected);
    }
}

#[test]
fn equal_names() {
    // Names that overlap are not equal; equal bytes in two places are.
    let mut image = Image { names: b"abab".to_vec(), ..Image::default() };
    image.signals = vec![[0, 2, 1, INPUT], [1, 2, 1, INPUT], [0, 3, 1, INPUT]];
    assert_eq!(image.judged(), ACCEPTED);
    image.signals.push([2, 2, 1, INPUT]);
    assert_eq!(image.judged(), [4, 0, 3]);

    // Registers among themselves, but not with signals or memories.
    let mut image = register();
    [image.registers[0][0], image.registers[0][1]] = [image.signals[0][0], image.signals[0][1]];
    assert_eq!(image.judged(), ACCEPTED);
    let mut second = image.registers[0];
    second[2] = 3;
    second[3] = 1;
    second[11] = 1;
    image.registers.push(second);
    assert_eq!(image.judged(), [4, 4, 1]);
    [image.registers[1][0], image.registers[1][1]] = image.add_name("r1");
    assert_eq!(image.judged(), ACCEPTED);

    // Memories likewise.
    let mut image = memory();
    [image.memories[0][0], image.memories[0][1]] = [image.signals[0][0], image.signals[0][1]];
    assert_eq!(image.judged(), ACCEPTED);
    let mut second = image.memories[0];
    second[FIRST_PORT + READ_DATA] = image.add_signal("third", 8, INTERNAL);
    second[HAS_SECOND..].fill(0);
    image.memories.push(second);
    assert_eq!(image.judged(), [4, 5, 1]);
    [image.memories[1][0], image.memories[1][1]] = image.add_name("m1");
    assert_eq!(image.judged(), ACCEPTED);
}

#[test]
fn names_of_registers_and_memories() {
    for length in [0, 65, u32::MAX] {
        assert_eq!(changed(&register(), |image| &mut image.registers, 0, 1, length), [4, 4, 0]);
        assert_eq!(changed(&memory(), |image| &mut image.memories, 0, 1, length), [4, 5, 0]);
    }
    assert_eq!(changed(&register(), |image| &mut image.registers, 0, 0, ABSENT), [4, 4, 0]);
    assert_eq!(changed(&memory(), |image| &mut image.memories, 0, 0, ABSENT), [4, 5, 0]);
}

// 4: signals.

#[test]
fn signal_widths() {
    for (width, expected) in [
        (0, [4, 0, 0]),
        (1, ACCEPTED),
        (1_024, ACCEPTED),
        (1_025, [4, 0, 0]),
        (u32::MAX, [4, 0, 0]),
    ] {
        let mut image = Image::default();
        image.add_signal("s", width, INPUT);
        assert_eq!(image.judged(), expected);
    }
}

#[test]
fn signal_width_sum() {
    let mut image = Image::default();
    for name in ["a", "b", "c"] {
        image.add_signal(name, 1_024, INPUT);
    }
    image.add_signal("d", 1_023, INPUT);
    image.add_signal("e", 1, INPUT);
    assert_eq!(image.judged(), ACCEPTED);
    image.add_signal("f", 1, INPUT);
    image.add_signal("g", 1, INPUT);
    assert_eq!(image.judged(), [4, 0, 5]);
    image.signals[4][2] = 2;
    assert_eq!(image.judged(), [4, 0, 4]);
}

#[test]
fn directions() {
    for (direction, expected) in
        [(0, ACCEPTED), (1, ACCEPTED), (2, ACCEPTED), (3, [4, 0, 0]), (ABSENT, [4, 0, 0])]
    {
        let mut image = Image::default();
        image.add_signal("s", 1, direction);
        assert_eq!(image.judged(), expected);
    }
}

// 4: expressions.

#[test]
fn expression_widths() {
    for (width, expected) in [
        (0, [4, 1, 0]),
        (1, ACCEPTED),
        (1_024, ACCEPTED),
        (1_025, [4, 1, 0]),
        (u32::MAX, [4, 1, 0]),
    ] {
        let mut image = Image { list: vec![0; 64], ..Image::default() };
        image.expression(CONSTANT, width, [0, 0, 0]);
        assert_eq!(image.judged(), expected);
    }
}

#[test]
fn expression_width_sum() {
    let mut image = Image::default();
    for _ in 0..31 {
        image.value(1_024);
    }
    image.value(1_023);
    image.value(1);
    assert_eq!(image.judged(), ACCEPTED);
    image.value(1);
    image.value(1);
    assert_eq!(image.judged(), [4, 1, 33]);
    image.expressions[32][1] = 2;
    assert_eq!(image.judged(), [4, 1, 32]);
}

#[test]
fn kinds() {
    for kind in [7, 8, ABSENT] {
        let mut image = inverter();
        image.expression(kind, 1, [0, 0, 0]);
        assert_eq!(image.judged(), [4, 1, 2]);
    }
}

/// An image of an 8-bit and a 3-bit signal, a word list, and expressions 0 of 8
/// bits, 1 of 8 bits, 2 of 1 bit, 3 of 3 bits, and one to be judged as 4.
fn with_expression(kind: u32, width: u32, operands: [u32; 3]) -> [u32; 3] {
    let mut image = Image::default();
    image.add_signal("s", 8, INPUT);
    image.add_signal("t", 3, INPUT);
    image.list = vec![0, 1, 2, 3, 4, 5, 3, 2, ABSENT, 3];
    for width in [8, 8, 1, 3] {
        image.value(width);
    }
    image.expression(kind, width, operands);
    image.judged()
}

const BROKEN: [u32; 3] = [4, 1, 4];

#[test]
fn signal_expressions() {
    assert_eq!(with_expression(SIGNAL, 8, [0, 0, 0]), ACCEPTED);
    assert_eq!(with_expression(SIGNAL, 1, [0, 7, 0]), ACCEPTED);
    assert_eq!(with_expression(SIGNAL, 3, [1, 0, 0]), ACCEPTED);
    assert_eq!(with_expression(SIGNAL, 9, [0, 0, 0]), BROKEN);
    assert_eq!(with_expression(SIGNAL, 1, [0, 8, 0]), BROKEN);
    assert_eq!(with_expression(SIGNAL, 4, [1, 0, 0]), BROKEN);
    assert_eq!(with_expression(SIGNAL, 1, [0, u32::MAX, 0]), BROKEN);
    assert_eq!(with_expression(SIGNAL, 1, [2, 0, 0]), BROKEN);
    assert_eq!(with_expression(SIGNAL, 1, [ABSENT, 0, 0]), BROKEN);
    assert_eq!(with_expression(SIGNAL, 8, [0, 0, 1]), BROKEN);
}

#[test]
fn constants() {
    for (width, start, expected) in [
        (1, 8, ACCEPTED),
        (64, 8, ACCEPTED),
        (64, 9, BROKEN),
        (1, 9, BROKEN),
        (1, 10, BROKEN),
        (65, 6, ACCEPTED),
        (65, 7, BROKEN),
        (128, 6, ACCEPTED),
        (129, 4, ACCEPTED),
        (129, 5, BROKEN),
        (320, 0, ACCEPTED),
        (321, 0, BROKEN),
        (1, u32::MAX, BROKEN),
    ] {
        assert_eq!(with_expression(CONSTANT, width, [start, 0, 0]), expected);
    }
    assert_eq!(with_expression(CONSTANT, 1, [0, 1, 0]), BROKEN);
    assert_eq!(with_expression(CONSTANT, 1, [0, 0, 1]), BROKEN);
}

#[test]
fn unary() {
    assert_eq!(with_expression(UNARY, 8, [BIT_NOT, 1, 0]), ACCEPTED);
    assert_eq!(with_expression(UNARY, 1, [BIT_NOT, 1, 0]), BROKEN);
    assert_eq!(with_expression(UNARY, 3, [BIT_NOT, 3, 0]), ACCEPTED);
    for operator in ONE_WIDE_UNARY {
        assert_eq!(with_expression(UNARY, 1, [operator, 1, 0]), ACCEPTED);
        assert_eq!(with_expression(UNARY, 1, [operator, 2, 0]), ACCEPTED);
        assert_eq!(with_expression(UNARY, 8, [operator, 1, 0]), BROKEN);
    }
    for operator in 0..UNARY_OPERATORS {
        assert_eq!(with_expression(UNARY, 1, [operator, 2, 0]), ACCEPTED);
        assert_eq!(with_expression(UNARY, 1, [operator, 2, 1]), BROKEN);
        assert_eq!(with_expression(UNARY, 1, [operator, 4, 0]), BROKEN);
        assert_eq!(with_expression(UNARY, 1, [operator, ABSENT, 0]), BROKEN);
    }
    assert_eq!(with_expression(UNARY, 1, [UNARY_OPERATORS, 2, 0]), BROKEN);
    assert_eq!(with_expression(UNARY, 1, [ABSENT, 2, 0]), BROKEN);
}

#[test]
fn binary() {
    for operator in EQUAL_WIDTHS {
        assert_eq!(with_expression(BINARY, 8, [operator, 0, 1]), ACCEPTED);
        assert_eq!(with_expression(BINARY, 1, [operator, 0, 1]), BROKEN);
        assert_eq!(with_expression(BINARY, 8, [operator, 0, 3]), BROKEN);
        assert_eq!(with_expression(BINARY, 8, [operator, 3, 0]), BROKEN);
        assert_eq!(with_expression(BINARY, 3, [operator, 0, 3]), BROKEN);
    }
    for operator in COMPARISONS {
        assert_eq!(with_expression(BINARY, 1, [operator, 0, 1]), ACCEPTED);
        assert_eq!(with_expression(BINARY, 8, [operator, 0, 1]), BROKEN);
        assert_eq!(with_expression(BINARY, 1, [operator, 0, 3]), BROKEN);
        assert_eq!(with_expression(BINARY, 1, [operator, 0, 2]), BROKEN);
    }
    for operator in SHIFTS {
        assert_eq!(with_expression(BINARY, 8, [operator, 0, 3]), ACCEPTED);
        assert_eq!(with_expression(BINARY, 3, [operator, 3, 0]), ACCEPTED);
        assert_eq!(with_expression(BINARY, 3, [operator, 0, 3]), BROKEN);
        assert_eq!(with_expression(BINARY, 1, [operator, 0, 1]), BROKEN);
    }
    for operator in 0..BINARY_OPERATORS {
        assert_eq!(with_expression(BINARY, 1, [operator, 2, 2]), ACCEPTED);
        assert_eq!(with_expression(BINARY, 1, [operator, 2, 4]), BROKEN);
        assert_eq!(with_expression(BINARY, 1, [operator, 4, 2]), BROKEN);
        assert_eq!(with_expression(BINARY, 1, [operator, 2, ABSENT]), BROKEN);
    }
    assert_eq!(with_expression(BINARY, 1, [BINARY_OPERATORS, 2, 2]), BROKEN);
    assert_eq!(with_expression(BINARY, 1, [ABSENT, 2, 2]), BROKEN);
}

#[test]
fn mux() {
    assert_eq!(with_expression(MUX, 8, [2, 0, 1]), ACCEPTED);
    assert_eq!(with_expression(MUX, 8, [3, 0, 1]), BROKEN);
    assert_eq!(with_expression(MUX, 8, [2, 0, 3]), BROKEN);
    assert_eq!(with_expression(MUX, 8, [2, 3, 0]), BROKEN);
    assert_eq!(with_expression(MUX, 3, [2, 0, 1]), BROKEN);
    assert_eq!(with_expression(MUX, 8, [4, 0, 1]), BROKEN);
    assert_eq!(with_expression(MUX, 8, [2, 4, 1]), BROKEN);
    assert_eq!(with_expression(MUX, 8, [2, 0, 4]), BROKEN);
}

#[test]
fn slices() {
    assert_eq!(with_expression(SLICE, 8, [0, 0, 0]), ACCEPTED);
    assert_eq!(with_expression(SLICE, 1, [0, 7, 0]), ACCEPTED);
    assert_eq!(with_expression(SLICE, 2, [0, 7, 0]), BROKEN);
    assert_eq!(with_expression(SLICE, 1, [0, 8, 0]), BROKEN);
    assert_eq!(with_expression(SLICE, 4, [3, 0, 0]), BROKEN);
    assert_eq!(with_expression(SLICE, 1, [0, u32::MAX, 0]), BROKEN);
    assert_eq!(with_expression(SLICE, 1, [4, 0, 0]), BROKEN);
    assert_eq!(with_expression(SLICE, 1, [0, 0, 1]), BROKEN);
}

#[test]
fn concats() {
    // The list: 0 1 2 3 4 5 3 2 absent 3; the widths of 0 to 3: 8 8 1 3.
    assert_eq!(with_expression(CONCAT, 8, [0, 1, 0]), ACCEPTED);
    assert_eq!(with_expression(CONCAT, 16, [0, 2, 0]), ACCEPTED);
    assert_eq!(with_expression(CONCAT, 20, [0, 4, 0]), ACCEPTED);
    assert_eq!(with_expression(CONCAT, 3, [9, 1, 0]), ACCEPTED);
    assert_eq!(with_expression(CONCAT, 19, [0, 4, 0]), BROKEN);
    assert_eq!(with_expression(CONCAT, 21, [0, 4, 0]), BROKEN);
    // No part.
    assert_eq!(with_expression(CONCAT, 1, [0, 0, 0]), BROKEN);
    // A part that is the Concat itself, one that is not there, a list word
    // that is not there.
    assert_eq!(with_expression(CONCAT, 20, [0, 5, 0]), BROKEN);
    assert_eq!(with_expression(CONCAT, 3, [8, 2, 0]), BROKEN);
    assert_eq!(with_expression(CONCAT, 3, [9, 2, 0]), BROKEN);
    assert_eq!(with_expression(CONCAT, 3, [10, 1, 0]), BROKEN);
    assert_eq!(with_expression(CONCAT, 3, [u32::MAX, 1, 0]), BROKEN);
    assert_eq!(with_expression(CONCAT, 3, [9, u32::MAX, 0]), BROKEN);
    assert_eq!(with_expression(CONCAT, 8, [0, 1, 1]), BROKEN);
}

// 4: assignments.

#[test]
fn assignments() {
    let assigned = |assignment: [u32; 4]| {
        let mut image = Image::default();
        image.add_signal("y", 8, OUTPUT);
        image.add_signal("a", 8, INPUT);
        image.value(8);
        image.value(3);
        image.assignments.push(assignment);
        image.judged()
    };
    assert_eq!(assigned([0, 0, 8, 0]), ACCEPTED);
    assert_eq!(assigned([0, 5, 3, 1]), ACCEPTED);
    assert_eq!(assigned([0, 6, 3, 1]), [4, 3, 0]);
    assert_eq!(assigned([0, u32::MAX, 3, 1]), [4, 3, 0]);
    assert_eq!(assigned([0, 0, 0, 1]), [4, 3, 0]);
    assert_eq!(assigned([0, 0, 2, 1]), [4, 3, 0]);
    assert_eq!(assigned([0, 0, 4, 1]), [4, 3, 0]);
    assert_eq!(assigned([0, 0, u32::MAX, 1]), [4, 3, 0]);
    assert_eq!(assigned([0, 0, 8, 2]), [4, 3, 0]);
    assert_eq!(assigned([0, 0, 8, ABSENT]), [4, 3, 0]);
    assert_eq!(assigned([2, 0, 8, 0]), [4, 3, 0]);
    assert_eq!(assigned([ABSENT, 0, 8, 0]), [4, 3, 0]);
    // An input has a driver already.
    assert_eq!(assigned([1, 0, 8, 0]), [4, 3, 0]);
    assert_eq!(assigned([1, 5, 3, 1]), [4, 3, 0]);
}

#[test]
fn second_drivers() {
    let mut image = Image::default();
    image.add_signal("y", 8, OUTPUT);
    image.add_signal("z", 8, INTERNAL);
    image.value(8);
    image.value(3);
    image.assignments = vec![[0, 0, 3, 1], [0, 5, 3, 1], [1, 2, 3, 1]];
    assert_eq!(image.judged(), ACCEPTED);
    image.assignments.push([1, 5, 3, 1]);
    image.assignments.push([1, 7, 1, 1]);
    assert_eq!(image.judged(), [4, 3, 4]);
    image.assignments[3][1] = 4;
    assert_eq!(image.judged(), [4, 3, 3]);
    image.assignments[3][1] = 0;
    assert_eq!(image.judged(), [4, 3, 3]);
}

// 4: registers.

#[test]
fn registers() {
    let image = register();
    let put = |field, value| changed(&image, |image| &mut image.registers, 0, field, value);
    assert_eq!(image.judged(), ACCEPTED);
    // Target: 2 is 8 wide; 1 is an input; 3 is 1 wide.
    for target in [1, 3, 4, ABSENT] {
        assert_eq!(put(2, target), [4, 4, 0]);
    }
    // Next: 1 is 1 wide, 2 is not there.
    for next in [1, 2, ABSENT] {
        assert_eq!(put(3, next), [4, 4, 0]);
    }
    // Clock: any signal 1 wide.
    assert_eq!(put(4, 3), ACCEPTED);
    for clock in [2, 4, ABSENT] {
        assert_eq!(put(4, clock), [4, 4, 0]);
    }
    // Edge, polarities, mode.
    for field in [5, 7, 9, 10] {
        assert_eq!(put(field, 1), ACCEPTED);
        assert_eq!(put(field, 2), [4, 4, 0]);
        assert_eq!(put(field, ABSENT), [4, 4, 0]);
    }
    // Enable and reset signal.
    for field in [6, 8] {
        assert_eq!(put(field, 3), ACCEPTED);
        assert_eq!(put(field, 2), [4, 4, 0]);
        assert_eq!(put(field, 4), [4, 4, 0]);
        assert_eq!(put(field, ABSENT - 1), [4, 4, 0]);
    }
    // Reset value.
    for value in [1, 2, ABSENT] {
        assert_eq!(put(11, value), [4, 4, 0]);
    }
}

#[test]
fn absent_controls_of_registers() {
    let mut image = register();
    image.registers[0][6] = ABSENT;
    assert_eq!(image.judged(), ACCEPTED);
    assert_eq!(changed(&image, |image| &mut image.registers, 0, 7, 1), [4, 4, 0]);
    image.registers[0][8] = ABSENT;
    assert_eq!(image.judged(), ACCEPTED);
    for field in [9, 10, 11] {
        assert_eq!(changed(&image, |image| &mut image.registers, 0, field, 1), [4, 4, 0]);
    }
}

#[test]
fn register_targets_drive() {
    let mut image = register();
    image.assignments.push([3, 0, 1, 1]);
    assert_eq!(image.judged(), ACCEPTED);
    image.assignments[0][0] = 2;
    assert_eq!(image.judged(), [4, 4, 0]);
    image.assignments.clear();
    let mut second = image.registers[0];
    [second[0], second[1]] = image.add_name("r1");
    image.registers.push(second);
    assert_eq!(image.judged(), [4, 4, 1]);
}

// 4: memories.

#[test]
fn memories() {
    let image = memory();
    let put = |field, value| changed(&image, |image| &mut image.memories, 0, field, value);
    assert_eq!(image.judged(), ACCEPTED);
    for (depth, expected) in [
        (0, [4, 5, 0]),
        (1, ACCEPTED),
        (65_536, ACCEPTED),
        (65_537, [4, 5, 0]),
        (u32::MAX, [4, 5, 0]),
    ] {
        assert_eq!(put(DEPTH, depth), expected);
    }
    for style in 0..STYLES {
        assert_eq!(put(STYLE, style), ACCEPTED);
    }
    assert_eq!(put(STYLE, STYLES), [4, 5, 0]);
    assert_eq!(put(STYLE, ABSENT), [4, 5, 0]);
    for latency in [0, 2, ABSENT] {
        assert_eq!(put(LATENCY, latency), [4, 5, 0]);
    }
    for present in [2, ABSENT] {
        assert_eq!(put(HAS_SECOND, present), [4, 5, 0]);
    }
}

#[test]
fn word_widths() {
    for width in [1, 8, 16, 1_024] {
        let two_ports = memory_of(width);
        let mut one_port = two_ports.clone();
        one_port.memories[0][HAS_SECOND..].fill(0);
        for image in [two_ports, one_port] {
            assert_eq!(image.judged(), ACCEPTED);
            // One more and less, no width, the clock's, the address's, the
            // depth, the most and one past it, and the same low bits.
            let wrong = [width + 1, width - 1, 0, 1, 4, 16, 1_024, 1_025, ABSENT];
            let wrong = wrong.into_iter().chain([8, 16, 31].map(|bit| width ^ 1 << bit));
            for wrong in wrong.filter(|&wrong| wrong != width) {
                let judged = changed(&image, |image| &mut image.memories, 0, WORD_WIDTH, wrong);
                assert_eq!(judged, [4, 5, 0], "{wrong} for {width}");
            }
        }
    }
}

#[test]
fn word_width_follows_the_read_data() {
    // Read data of another width, the write data and then the width after it.
    let mut image = memory();
    image.memories[0][HAS_SECOND..].fill(0);
    image.signals[2][2] = 9;
    assert_eq!(image.judged(), [4, 5, 0]);
    image.memories[0][FIRST_PORT + WRITE_DATA] = image.value(9);
    assert_eq!(image.judged(), [4, 5, 0]);
    image.memories[0][WORD_WIDTH] = 9;
    assert_eq!(image.judged(), ACCEPTED);
    // Write data of 8 bits again: neither width will do.
    image.memories[0][FIRST_PORT + WRITE_DATA] = 1;
    assert_eq!(image.judged(), [4, 5, 0]);
    image.memories[0][WORD_WIDTH] = 8;
    assert_eq!(image.judged(), [4, 5, 0]);
}

#[test]
fn word_width_and_another_fault_of_the_record() {
    let faults = [
        (1, 0),
        (DEPTH, 0),
        (STYLE, STYLES),
        (LATENCY, 2),
        (FIRST_PORT + READ_ADDRESS, ABSENT),
        (FIRST_PORT + READ_DATA, 0),
        (FIRST_PORT + READ_DATA, 3),
        (FIRST_PORT + READ_DATA, 4),
        (FIRST_PORT + READ_DATA, ABSENT),
        (FIRST_PORT + WRITE_DATA, 0),
        (FIRST_PORT + WRITE_DATA, ABSENT),
        (HAS_SECOND, 0),
        (HAS_SECOND, 2),
        (SECOND_PORT + READ_DATA, 0),
        (SECOND_PORT + READ_DATA, 2),
        (SECOND_PORT + READ_DATA, ABSENT),
        (SECOND_PORT + WRITE_DATA, 0),
    ];
    for (field, value) in faults {
        let mut image = memory();
        image.memories[0][field] = value;
        for width in [0, 1, 4, 7, 8, 9, 1_025, ABSENT] {
            image.memories[0][WORD_WIDTH] = width;
            assert_eq!(image.judged(), [4, 5, 0], "field {field} is {value}, the width {width}");
        }
    }
    // Two ports of 8 and 4 bits, each in itself right.
    let mut image = memory();
    image.signals[3][2] = 4;
    image.memories[0][SECOND_PORT + WRITE_DATA] = 0;
    for width in [4, 8, 12] {
        image.memories[0][WORD_WIDTH] = width;
        assert_eq!(image.judged(), [4, 5, 0]);
    }
}

#[test]
fn word_width_and_a_fault_elsewhere() {
    let mut image = memory();
    for _ in 1..16 {
        another_memory(&mut image);
    }
    // The first of the memories that are wrong, whatever is wrong there.
    image.memories[15][WORD_WIDTH] = 9;
    assert_eq!(image.judged(), [4, 5, 15]);
    image.memories[2][DEPTH] = 0;
    assert_eq!(image.judged(), [4, 5, 2]);
    image.memories[1][FIRST_PORT + READ_DATA] = 2;
    assert_eq!(image.judged(), [4, 5, 1]);
    image.memories[0][WORD_WIDTH] = 7;
    assert_eq!(image.judged(), [4, 5, 0]);
    image.memories = vec![image.memories[0]; 16];
    assert_eq!(image.judged(), [4, 5, 0]);
    // Sections before the memories.
    let [offset, length] = image.add_name("r");
    image.registers.push([offset, length, 2, 1, 0, 2, ABSENT, 0, ABSENT, 0, 0, 0]);
    assert_eq!(image.judged(), [4, 4, 0]);
    image.assignments.push([2, 0, 7, 1]);
    assert_eq!(image.judged(), [4, 3, 0]);
    image.expressions[1][0] = 7;
    assert_eq!(image.judged(), [4, 1, 1]);
    image.signals[3][2] = 0;
    assert_eq!(image.judged(), [4, 0, 3]);
    // The header, and the checks before and after.
    let bytes = image.encode();
    let total = word_at(&bytes, 1);
    assert_eq!(judged(&with_field(&bytes, 1, total - 4)), [3, 1, 0]);
    let mut image = memory();
    image.memories[0][WORD_WIDTH] = 9;
    assert_eq!(refusal(&image.encode(), N, P, NETLIST - 1, 0), [2, 0, 0]);
    assert_eq!(refusal(&image.encode(), N, P, NETLIST, 0), [4, 5, 0]);
}

#[test]
fn word_widths_are_in_no_sum() {
    let mut image = memory_of(1_024);
    image.add_signal("rest", 1_024, INPUT);
    image.add_signal("last", 1_022, INPUT);
    assert_eq!(image.judged(), ACCEPTED);
    image.signals[5][2] = 1_023;
    assert_eq!(image.judged(), [4, 0, 5]);
}

#[test]
fn ports() {
    let image = memory();
    for port in [FIRST_PORT, SECOND_PORT] {
        let put =
            |field, value| changed(&image, |image| &mut image.memories, 0, port + field, value);
        // Edge and polarities.
        for field in [3, 7, 9] {
            assert_eq!(put(field, 1), ACCEPTED);
            assert_eq!(put(field, 2), [4, 5, 0]);
            assert_eq!(put(field, ABSENT), [4, 5, 0]);
        }
        // Enables and clock: a 1-bit signal.
        for field in [2, 6, 8] {
            assert_eq!(put(field, 0), ACCEPTED);
            assert_eq!(put(field, 2), [4, 5, 0]);
            assert_eq!(put(field, ABSENT - 1), [4, 5, 0]);
        }
        // Only the read enable may be absent.
        assert_eq!(put(2, ABSENT), ACCEPTED);
        assert_eq!(put(6, ABSENT), [4, 5, 0]);
        assert_eq!(put(8, ABSENT), [4, 5, 0]);
        let mut absent = image.clone();
        absent.memories[0][port + 2] = ABSENT;
        assert_eq!(changed(&absent, |image| &mut image.memories, 0, port + 3, 1), [4, 5, 0]);
        // Addresses and data that are not there, data of another width, read
        // data that is an input.
        for field in [0, 1, 4, 5] {
            assert_eq!(put(field, 99), [4, 5, 0]);
            assert_eq!(put(field, ABSENT), [4, 5, 0]);
        }
        assert_eq!(put(5, 0), [4, 5, 0]);
        let mut input = image.clone();
        input.signals[2 + usize::from(port == SECOND_PORT)][3] = INPUT;
        assert_eq!(input.judged(), [4, 5, 0]);
    }
}

#[test]
fn address_widths() {
    for (width, expected) in
        [(1, ACCEPTED), (32, ACCEPTED), (33, [4, 5, 0]), (1_024, [4, 5, 0])]
    {
        for port in [FIRST_PORT, SECOND_PORT] {
            for address in [READ_ADDRESS, WRITE_ADDRESS] {
                let mut image = memory();
                image.memories[0][port + address] = image.value(width);
                assert_eq!(image.judged(), expected);
            }
        }
    }
}

#[test]
fn data_of_one_width() {
    // Each port in itself, but the two apart.
    let mut image = memory();
    image.signals[3][2] = 4;
    image.memories[0][SECOND_PORT + WRITE_DATA] = 0;
    assert_eq!(image.judged(), [4, 5, 0]);
    // The first port alone.
    image.memories[0][HAS_SECOND..].fill(0);
    assert_eq!(image.judged(), ACCEPTED);
}

#[test]
fn second_port() {
    let mut image = memory();
    image.memories[0][HAS_SECOND] = 0;
    assert_eq!(image.judged(), [4, 5, 0]);
    image.memories[0][HAS_SECOND..].fill(0);
    assert_eq!(image.judged(), ACCEPTED);
    for field in SECOND_PORT..MEMORY_FIELDS {
        assert_eq!(changed(&image, |image| &mut image.memories, 0, field, 1), [4, 5, 0]);
        assert_eq!(changed(&image, |image| &mut image.memories, 0, field, ABSENT), [4, 5, 0]);
    }
}

#[test]
fn read_data_drives() {
    // Both ports the same signal.
    let mut image = memory();
    image.memories[0][SECOND_PORT + READ_DATA] = 2;
    assert_eq!(image.judged(), [4, 5, 0]);
    // An assignment to one of its bits before it.
    let mut image = memory();
    let value = image.value(1);
    image.assignments.push([3, 7, 1, value]);
    assert_eq!(image.judged(), [4, 5, 0]);
    // A second memory.
    let mut image = memory();
    let mut second = image.memories[0];
    [second[0], second[1]] = image.add_name("m1");
    image.memories.push(second);
    assert_eq!(image.judged(), [4, 5, 1]);
}

#[test]
fn the_first_record_in_image_order() {
    let mut image = register();
    image.registers[0][5] = 2;
    assert_eq!(image.judged(), [4, 4, 0]);
    image.assignments.push([9, 0, 0, 0]);
    assert_eq!(image.judged(), [4, 3, 0]);
    image.expressions[1][2] = 99;
    assert_eq!(image.judged(), [4, 1, 1]);
    image.signals[3][3] = 3;
    assert_eq!(image.judged(), [4, 0, 3]);
    image.signals[1][3] = 3;
    assert_eq!(image.judged(), [4, 0, 1]);
}

// 5: the scratch.

#[test]
fn scratch() {
    // Two signal bits, two expression bits, two expressions.
    let image = inverter().encode();
    let words = 4 * 2 + 2 + 8 * 2 + 4 * 100 + 64;
    assert_eq!(refusal(&image, N, P, NETLIST, words), ACCEPTED);
    assert_eq!(refusal(&image, N, P, NETLIST, words - 1), [5, 0, 0]);
    // Nothing but the net limit.
    let image = Image::default().encode();
    assert_eq!(refusal(&image, 1, 0, AMPLE, 68), ACCEPTED);
    assert_eq!(refusal(&image, 1, 0, AMPLE, 67), [5, 0, 0]);
    assert_eq!(refusal(&image, 65_535, 0, AMPLE, 262_204), ACCEPTED);
    assert_eq!(refusal(&image, 65_535, 0, AMPLE, 262_203), [5, 0, 0]);
    // 18 signal bits and 12 expression bits in two expressions; then 11 and 9.
    let image = memory().encode();
    assert_eq!(refusal(&image, 1, 0, AMPLE, 168), ACCEPTED);
    assert_eq!(refusal(&image, 1, 0, AMPLE, 167), [5, 0, 0]);
    let image = register().encode();
    assert_eq!(refusal(&image, 1, 0, AMPLE, 137), ACCEPTED);
    assert_eq!(refusal(&image, 1, 0, AMPLE, 136), [5, 0, 0]);
}

#[test]
fn scratch_at_its_most() {
    // 4,096 signal bits, 32,768 expression bits, 2,048 expressions.
    let mut image = Image::default();
    for name in ["a", "b", "c", "d"] {
        image.add_signal(name, 1_024, INPUT);
    }
    for _ in 0..2_048 {
        image.value(16);
    }
    let image = image.encode();
    let words = 4 * 4_096 + 32_768 + 8 * 2_048 + 4 * 65_535 + 64;
    assert_eq!(refusal(&image, 65_535, 0, AMPLE, words), ACCEPTED);
    assert_eq!(refusal(&image, 65_535, 0, AMPLE, words - 1), [5, 0, 0]);
}

#[test]
fn one_word_per_expression_bit() {
    // One expression of 1,024 bits, which nothing uses; the former sum is 2,124.
    let mut image = Image::default();
    image.value(1_024);
    let image = image.encode();
    assert_eq!(refusal(&image, 1, 0, AMPLE, 1_099), [5, 0, 0]);
    for words in 1_100..=2_124 {
        assert_eq!(refusal(&image, 1, 0, AMPLE, words), ACCEPTED);
    }
}

// Any bytes end, without a panic.

#[test]
fn any_bytes() {
    let mut state = 1u64;
    let mut random = move || {
        state = state.wrapping_mul(6_364_136_223_846_793_005).wrapping_add(1_442_695_040_888_963_407);
        (state >> 33) as u32
    };
    let values = [0, 1, 2, 64, 0x7fff_ffff, 0x8000_0000, ABSENT - 1, ABSENT];
    for image in [inverter(), register(), memory()] {
        let good = image.encode();
        for number in 0..good.len() / 4 {
            for value in values {
                judged(&with_field(&good, number, value));
            }
        }
        for _ in 0..2_000 {
            let mut image = good.clone();
            for _ in 0..random() % 8 {
                let at = random() as usize % image.len();
                image[at] = random() as u8;
            }
            image.truncate(good.len() - (random() % 2 * random() % 100) as usize);
            judged(&image);
        }
    }
}
