//! Each rule of refusals 1 to 5, broken one at a time on an image that keeps
//! them all, and the ties where more than one thing is wrong.

use image::{set_word, Image, ABSENT};
use reference::{check, netlist_words, scratch_words, FINE};

const N: u32 = 100;
const P: u32 = 50;

// Signals of `base`.
const CLOCK: u32 = 0;
const INPUT: u32 = 1;
const OUTPUT: u32 = 2;
const STATE: u32 = 3;
const DATA_A: u32 = 4;
const DATA_B: u32 = 5;
const SPARE: u32 = 6;
/// Number of expressions of `base`.
const EXPRESSIONS: u32 = 13;

/// Keeps every rule, with each sort of record and kind of expression.
fn base() -> Image {
    let mut rows = Image::default();
    rows.add_signal("clk", 1, 1);
    rows.add_signal("in", 8, 1);
    rows.add_signal("out", 8, 2);
    rows.add_signal("state", 8, 0);
    rows.add_signal("data_a", 8, 0);
    rows.add_signal("data_b", 8, 0);
    rows.add_signal("spare", 8, 0);
    rows.list = vec![7, 0, 9, 10, 0, 0];
    rows.expressions = vec![
        [0, 8, INPUT, 0, 0],
        [1, 8, 0, 0, 0],
        [2, 8, 0, 0, 0],
        [2, 1, 2, 0, 0],
        [3, 8, 3, 0, 1],
        [3, 1, 8, 0, 1],
        [3, 8, 16, 0, 3],
        [4, 8, 3, 4, 6],
        [6, 4, 7, 4, 0],
        [6, 4, 0, 0, 0],
        [0, 4, INPUT, 4, 0],
        [5, 8, 2, 2, 0],
        [0, 1, CLOCK, 0, 0],
    ];
    rows.assignments = vec![[OUTPUT, 0, 4, 9], [OUTPUT, 4, 4, 8]];
    let [offset, length] = rows.add_name("state");
    rows.registers = vec![[offset, length, STATE, 7, CLOCK, 0, CLOCK, 1, CLOCK, 0, 1, 1]];
    let [offset, length] = rows.add_name("ram");
    let port = |data| [8, data, ABSENT, 0, 9, 0, CLOCK, 0, CLOCK, 0];
    let memory = [vec![offset, length, 16, 8, 0, 1], port(DATA_A).to_vec(), vec![1], port(DATA_B).to_vec()].concat();
    rows.memories = vec![memory.try_into().unwrap()];
    rows
}

fn judge(image: &[u8]) -> [u32; 3] {
    check(image, N, P, netlist_words(N, P), 1 << 20)
}

fn judge_image(rows: &Image) -> [u32; 3] {
    judge(&rows.encode())
}

/// What is answered for `base` after an edit.
fn after(edit: impl Fn(&mut Image)) -> [u32; 3] {
    let mut rows = base();
    edit(&mut rows);
    judge_image(&rows)
}

/// What is answered for `base` with some header fields set.
fn with_header(fields: &[(usize, u32)]) -> [u32; 3] {
    let mut image = base().encode();
    for &(field, value) in fields {
        set_word(&mut image, field, value);
    }
    judge(&image)
}

#[test]
fn base_and_no_records_are_fine() {
    assert_eq!(judge_image(&base()), FINE);
    assert_eq!(judge_image(&Image::default()), FINE);
}

// ---- 1, 2, 5 and the order of the checks ----

#[test]
fn limits() {
    let image = base().encode();
    for (n, p, number) in [(0, 0, 1), (1, 0, 0), (65_535, 65_535, 0), (65_536, 0, 1), (1, 65_536, 1), (u32::MAX, u32::MAX, 1)] {
        assert_eq!(check(&image, n, p, usize::MAX, usize::MAX), [number, 0, 0], "N {n} P {p}");
    }
}

#[test]
fn buffers() {
    let image = base().encode();
    let need = 16 + 6 * 100 + 50;
    assert_eq!(netlist_words(N, P), need);
    let signal_bits = 1 + 6 * 8;
    let expression_bits = 8 + 8 + 8 + 1 + 8 + 1 + 8 + 8 + 4 + 4 + 4 + 8 + 1;
    let scratch = 4 * signal_bits + expression_bits + 8 * EXPRESSIONS as usize + 4 * 100 + 64;
    assert_eq!(scratch_words(&image, N), Some(scratch));
    assert_eq!(scratch_words(&image[1..], N), None);
    assert_eq!(check(&image, N, P, need, scratch), FINE);
    assert_eq!(check(&image, N, P, need - 1, scratch), [2, 0, 0]);
    assert_eq!(check(&image, N, P, need, scratch - 1), [5, 0, 0]);
}

#[test]
fn checks_run_in_order() {
    let need = netlist_words(N, P);
    let mut bad_record = base();
    bad_record.signals[0][2] = 0;
    assert_eq!(check(&[], 0, P, 0, 0), [1, 0, 0]);
    assert_eq!(check(&[], N, P, need - 1, 0), [2, 0, 0]);
    assert_eq!(check(&[], N, P, need, 0), [3, 0, 0]);
    assert_eq!(check(&bad_record.encode(), N, P, need, 0), [4, 0, 0]);
    assert_eq!(check(&base().encode(), N, P, need, 0), [5, 0, 0]);
}

// ---- 3 ----

#[test]
fn header_fields_one_by_one() {
    for field in 0..16 {
        let wrong = with_header(&[(field, 16_385)]);
        assert_eq!(wrong, [3, field as u32, 0], "field {field}");
    }
}

#[test]
fn short_and_wrong_length() {
    let image = base().encode();
    assert_eq!(judge(&image[..63]), [3, 0, 0]);
    assert_eq!(judge(&image[..64]), [3, 1, 0]);
    assert_eq!(judge(&[&image[..], &[0]].concat()), [3, 1, 0]);
}

#[test]
fn edition_before_length() {
    let mut image = base().encode();
    image.push(0);
    set_word(&mut image, 0, 1);
    assert_eq!(judge(&image), [3, 0, 0]);
}

#[test]
fn editions() {
    let image = base().encode();
    assert_eq!(judge(&image), FINE);
    for edition in [0, 1, 3, 0x0102, 0x0200, 0x0200_0000, u32::MAX] {
        let mut image = image.clone();
        set_word(&mut image, 0, edition);
        assert_eq!(judge(&image), [3, 0, 0], "edition {edition}");
    }
}

#[test]
fn most_of_each_section() {
    let most = [512, 2_048, 8_192, 1_024, 256, 16, 16_384];
    for (section, most) in most.into_iter().enumerate() {
        let field = 2 + 2 * section;
        assert_eq!(with_header(&[(field, most + 1)]), [3, field as u32, 0]);
        // at its most, the next section's offset is wrong; before the names, their end
        let next = (field as u32 + 3).min(14);
        assert_eq!(with_header(&[(field, most)]), [3, next, 0]);
    }
    let mut rows = base();
    rows.names.resize(16_384, 0);
    assert_eq!(judge_image(&rows), FINE);
    rows.names.push(0);
    assert_eq!(judge_image(&rows), [3, 14, 0]);
}

#[test]
fn names_end_and_offset() {
    let names = base().names.len() as u32;
    let mut image = base().encode();
    let offset = image.len() as u32 - names;
    assert_eq!(with_header(&[(14, names - 1)]), [3, 14, 0]);
    assert_eq!(with_header(&[(15, offset + 1)]), [3, 15, 0]);
    // 14 and 15 wrong, though the stated offset and count end at the total
    assert_eq!(with_header(&[(14, names - 1), (15, offset + 1)]), [3, 14, 0]);
    // the total and the slice longer than the names' end
    image.push(b'x');
    set_word(&mut image, 1, offset + names + 1);
    assert_eq!(judge(&image), [3, 14, 0]);
}

#[test]
fn counts_before_later_offsets() {
    assert_eq!(with_header(&[(2, 513), (3, 65)]), [3, 2, 0]);
    assert_eq!(with_header(&[(3, 65), (4, 2_049)]), [3, 3, 0]);
    // a count within its most moves all that follows: the next offset is wrong
    assert_eq!(with_header(&[(2, 8)]), [3, 5, 0]);
}

// ---- 4: names ----

#[test]
fn names_of_each_sort() {
    let rename = |rows: &mut Image, section: usize, name: [u32; 2]| match section {
        0 => rows.signals[3][..2].copy_from_slice(&name),
        4 => rows.registers[0][..2].copy_from_slice(&name),
        _ => rows.memories[0][..2].copy_from_slice(&name),
    };
    for (section, record) in [(0, 3), (4, 0), (5, 0)] {
        let refused = [4, section as u32, record];
        let named = |text: &str| {
            after(|rows| {
                let name = rows.add_name(text);
                rename(rows, section, name);
            })
        };
        assert_eq!(named(""), refused);
        assert_eq!(named(&"n".repeat(64)), FINE);
        assert_eq!(named(&"n".repeat(65)), refused);
        assert_eq!(named("a\x20"), refused);
        assert_eq!(named("!a~"), FINE);
        assert_eq!(named("\x7f"), refused);
        let end = base().names.len() as u32;
        assert_eq!(after(|rows| rename(rows, section, [end - 1, 1])), FINE);
        assert_eq!(after(|rows| rename(rows, section, [end, 1])), refused);
        assert_eq!(after(|rows| rename(rows, section, [end - 1, 2])), refused);
        assert_eq!(after(|rows| rename(rows, section, [u32::MAX, 2])), refused);
    }
}

#[test]
fn equal_names_count_against_the_later_record() {
    // by bytes, wherever they stand
    let again = |rows: &mut Image, text: &str| {
        let [offset, length] = rows.add_name(text);
        rows.signals[5][..2].copy_from_slice(&[offset, length]);
    };
    assert_eq!(after(|rows| again(rows, "in")), [4, 0, 5]);
    assert_eq!(after(|rows| again(rows, "inn")), FINE);
    // the same stretch
    assert_eq!(after(|rows| { let [o, l, ..] = rows.signals[1]; rows.signals[5][..2].copy_from_slice(&[o, l]) }), [4, 0, 5]);
    // overlapping stretches of different names
    assert_eq!(after(|rows| rows.signals[5][1] = 5), FINE);
    // the register is named like its target, and a memory may be too
    assert_eq!(after(|rows| { let [o, l, ..] = rows.signals[3]; rows.memories[0][..2].copy_from_slice(&[o, l]) }), FINE);
}

#[test]
fn equal_names_of_registers_and_memories() {
    let mut rows = base();
    rows.registers.push(rows.registers[0]);
    rows.registers[1][2] = SPARE;
    assert_eq!(judge_image(&rows), [4, 4, 1]);
    let mut rows = base();
    rows.memories[0][16..].fill(0);
    rows.memories.push(rows.memories[0]);
    rows.memories[1][7] = SPARE;
    assert_eq!(judge_image(&rows), [4, 5, 1]);
    let name = rows.add_name("other");
    rows.memories[1][..2].copy_from_slice(&name);
    assert_eq!(judge_image(&rows), FINE);
}

#[test]
fn unused_names_and_list_words_are_free() {
    assert_eq!(after(|rows| rows.names.extend([0, 255])), FINE);
    assert_eq!(after(|rows| rows.list.push(u32::MAX)), FINE);
}

// ---- 4: signals and sums ----

#[test]
fn signals() {
    assert_eq!(after(|rows| rows.signals[6][2] = 0), [4, 0, 6]);
    assert_eq!(after(|rows| rows.signals[6][2] = 1_024), FINE);
    assert_eq!(after(|rows| rows.signals[6][2] = 1_025), [4, 0, 6]);
    assert_eq!(after(|rows| rows.signals[6][3] = 2), FINE);
    assert_eq!(after(|rows| rows.signals[6][3] = 3), [4, 0, 6]);
}

#[test]
fn signal_sum_counts_against_the_record_that_passes_it() {
    let mut rows = Image::default();
    for text in ["a", "b", "c", "d"] {
        rows.add_signal(text, 1_024, 0);
    }
    assert_eq!(judge_image(&rows), FINE);
    rows.add_signal("e", 1, 0);
    rows.add_signal("f", 1, 0);
    assert_eq!(judge_image(&rows), [4, 0, 4]);
    rows.signals[3][2] = 1_023;
    assert_eq!(judge_image(&rows), [4, 0, 5]);
}

#[test]
fn expression_sum_counts_against_the_record_that_passes_it() {
    let mut rows = Image { list: vec![0; 32], ..Image::default() };
    rows.expressions = vec![[1, 1_024, 0, 0, 0]; 32];
    assert_eq!(judge_image(&rows), FINE);
    rows.expressions.push([1, 1, 0, 0, 0]);
    rows.expressions.push([9, 1, 0, 0, 0]);
    assert_eq!(judge_image(&rows), [4, 1, 32]);
}

// ---- 4: expressions ----

/// `base` with one more expression.
fn with_expression(fields: [u32; 5]) -> [u32; 3] {
    after(|rows| rows.expressions.push(fields))
}

const REFUSED: [u32; 3] = [4, 1, EXPRESSIONS];

fn assert_expressions(good: &[[u32; 5]], bad: &[[u32; 5]]) {
    for &fields in good {
        assert_eq!(with_expression(fields), FINE, "{fields:?}");
    }
    for &fields in bad {
        assert_eq!(with_expression(fields), REFUSED, "{fields:?}");
    }
}

#[test]
fn kind_and_width() {
    assert_expressions(&[], &[[7, 1, 0, 0, 0], [ABSENT, 1, 0, 0, 0], [5, 0, 0, 0, 0], [1, 0, 0, 0, 0], [0, 1_025, INPUT, 0, 0]]);
}

#[test]
fn signal_expressions() {
    assert_expressions(
        &[[0, 8, STATE, 0, 0], [0, 1, STATE, 7, 0], [0, 3, STATE, 5, 0]],
        &[[0, 8, STATE, 1, 0], [0, 1, STATE, 8, 0], [0, 1, STATE, u32::MAX, 0], [0, 1, 7, 0, 0], [0, 1, ABSENT, 0, 0], [0, 1, STATE, 0, 1]],
    );
}

#[test]
fn constants() {
    // six list words: a width to 64 takes two, to 128 four, to 192 six
    assert_expressions(
        &[[1, 1, 4, 0, 0], [1, 64, 4, 0, 0], [1, 65, 2, 0, 0], [1, 128, 2, 0, 0], [1, 192, 0, 0, 0]],
        &[[1, 1, 5, 0, 0], [1, 65, 3, 0, 0], [1, 193, 0, 0, 0], [1, 1, u32::MAX, 0, 0], [1, 1, 0, 1, 0], [1, 1, 0, 0, 1]],
    );
}

#[test]
fn unary_operators() {
    assert_expressions(
        &[[2, 8, 0, 0, 0], [2, 1, 0, 3, 0], [2, 1, 1, 0, 0], [2, 1, 2, 0, 0], [2, 1, 3, 3, 0], [2, 1, 4, 0, 0]],
        &[[2, 4, 0, 0, 0], [2, 8, 1, 0, 0], [2, 8, 2, 0, 0], [2, 8, 3, 0, 0], [2, 8, 4, 0, 0], [2, 1, 5, 0, 0]],
    );
    assert_expressions(&[], &[[2, 1, 1, EXPRESSIONS, 0], [2, 1, 1, ABSENT, 0], [2, 1, 1, 0, 1]]);
}

#[test]
fn binary_operators() {
    // expression 0 is 8 wide, 8 is 4 wide, 3 is 1 wide
    for operator in 0..6 {
        assert_expressions(
            &[[3, 8, operator, 0, 1]],
            &[[3, 8, operator, 0, 8], [3, 8, operator, 8, 0], [3, 4, operator, 0, 1], [3, 1, operator, 0, 1]],
        );
    }
    for operator in 6..16 {
        assert_expressions(
            &[[3, 1, operator, 0, 1], [3, 1, operator, 3, 3]],
            &[[3, 1, operator, 0, 8], [3, 1, operator, 8, 0], [3, 8, operator, 0, 1]],
        );
    }
    for operator in 16..19 {
        assert_expressions(
            &[[3, 8, operator, 0, 3], [3, 8, operator, 0, 0], [3, 1, operator, 3, 0]],
            &[[3, 4, operator, 0, 8], [3, 1, operator, 0, 3]],
        );
    }
    assert_expressions(&[], &[[3, 8, 19, 0, 1], [3, 8, 0, 0, EXPRESSIONS], [3, 8, 0, EXPRESSIONS, 0], [3, 8, 0, ABSENT, 0]]);
}

#[test]
fn muxes() {
    assert_expressions(
        &[[4, 8, 3, 0, 1], [4, 1, 3, 3, 3]],
        &[[4, 8, 8, 0, 1], [4, 8, 3, 8, 1], [4, 8, 3, 0, 8], [4, 4, 3, 0, 1]],
    );
    assert_expressions(&[], &[[4, 8, EXPRESSIONS, 0, 1], [4, 8, 3, EXPRESSIONS, 1], [4, 8, 3, 0, EXPRESSIONS]]);
}

#[test]
fn concats() {
    // list words 2 and 3 name expressions of 4, words 4 and 5 expression 0 of 8
    assert_expressions(
        &[[5, 4, 2, 1, 0], [5, 16, 4, 2, 0], [5, 24, 2, 4, 0], [5, 8, 5, 1, 0]],
        &[[5, 8, 2, 1, 0], [5, 4, 2, 0, 0], [5, 8, 5, 2, 0], [5, 8, 6, 1, 0], [5, 8, 5, u32::MAX, 0], [5, 8, 5, 1, 1]],
    );
    // a part that is not lower
    let with_part = |part| after(|rows| { rows.list.push(part); rows.expressions.push([5, 1, 6, 1, 0]) });
    assert_eq!(with_part(EXPRESSIONS - 1), FINE);
    assert_eq!(with_part(EXPRESSIONS), REFUSED);
    assert_eq!(with_part(ABSENT), REFUSED);
}

#[test]
fn concat_of_all_list_words() {
    // 8,192 parts of 1,024 bits: no sum that wraps passes
    let mut rows = Image { list: vec![0; 8_192], ..Image::default() };
    rows.expressions = vec![[1, 1_024, 0, 0, 0], [5, 1_024, 0, 8_192, 0]];
    assert_eq!(judge_image(&rows), [4, 1, 1]);
    rows.expressions[1][3] = 1;
    assert_eq!(judge_image(&rows), FINE);
}

#[test]
fn slices() {
    assert_expressions(
        &[[6, 8, 0, 0, 0], [6, 1, 0, 7, 0]],
        &[[6, 8, 0, 1, 0], [6, 1, 0, 8, 0], [6, 1, 0, u32::MAX, 0], [6, 1, EXPRESSIONS, 0, 0], [6, 1, 0, 0, 1]],
    );
}

// ---- 4: assignments ----

/// `base` with one more assignment.
fn with_assignment(fields: [u32; 4]) -> [u32; 3] {
    after(|rows| rows.assignments.push(fields))
}

#[test]
fn assignments() {
    let refused = [4, 3, 2];
    for fields in [[SPARE, 0, 8, 0], [SPARE, 4, 4, 8], [SPARE, 7, 1, 3]] {
        assert_eq!(with_assignment(fields), FINE, "{fields:?}");
    }
    for fields in [
        [SPARE, 1, 8, 0],
        [SPARE, 5, 4, 8],
        [SPARE, u32::MAX, 1, 3],
        [SPARE, 0, 0, 0],
        [SPARE, 0, 4, 0],
        [SPARE, 0, 8, 8],
        [SPARE, 0, 8, EXPRESSIONS],
        [SPARE, 0, 8, ABSENT],
        [7, 0, 8, 0],
        [ABSENT, 0, 8, 0],
    ] {
        assert_eq!(with_assignment(fields), refused, "{fields:?}");
    }
}

#[test]
fn second_driver_of_an_assignment() {
    assert_eq!(with_assignment([OUTPUT, 3, 1, 3]), [4, 3, 2]);
    assert_eq!(with_assignment([OUTPUT, 4, 4, 8]), [4, 3, 2]);
    assert_eq!(with_assignment([INPUT, 0, 1, 3]), [4, 3, 2]);
    // against the later record: the register, the memory
    assert_eq!(with_assignment([STATE, 7, 1, 3]), [4, 4, 0]);
    assert_eq!(with_assignment([DATA_B, 0, 1, 3]), [4, 5, 0]);
}

// ---- 4: registers ----

#[test]
fn registers() {
    let refused = [4, 4, 0];
    let with = |field: usize, value: u32| after(|rows| rows.registers[0][field] = value);
    for (field, value) in [(3, 0), (5, 1), (7, 0), (9, 1), (10, 0), (11, 0), (6, CLOCK), (2, SPARE)] {
        assert_eq!(with(field, value), FINE, "field {field} = {value}");
    }
    for (field, value) in [
        (2, 7), (2, ABSENT), (2, INPUT), (2, CLOCK), (2, OUTPUT),
        (3, EXPRESSIONS), (3, ABSENT), (3, 8),
        (4, INPUT), (4, 7), (4, ABSENT),
        (5, 2), (7, 2), (9, 2), (10, 2),
        (6, INPUT), (6, 7), (8, INPUT), (8, 7),
        (11, 8), (11, EXPRESSIONS), (11, ABSENT),
        // an absent control's other fields are not 0 in `base`
        (6, ABSENT), (8, ABSENT),
    ] {
        assert_eq!(with(field, value), refused, "field {field} = {value}");
    }
}

#[test]
fn absent_controls_of_registers() {
    let with = |from: usize, fields: &[u32]| after(|rows| rows.registers[0][from..from + fields.len()].copy_from_slice(fields));
    assert_eq!(with(6, &[ABSENT, 0]), FINE);
    assert_eq!(with(6, &[ABSENT, 1]), [4, 4, 0]);
    assert_eq!(with(8, &[ABSENT, 0, 0, 0]), FINE);
    for place in 1..4 {
        let mut fields = [ABSENT, 0, 0, 0];
        fields[place] = 1;
        assert_eq!(with(8, &fields), [4, 4, 0]);
    }
}

#[test]
fn two_registers_of_one_target() {
    let mut rows = base();
    let name = rows.add_name("second");
    rows.registers.push(rows.registers[0]);
    rows.registers[1][..2].copy_from_slice(&name);
    assert_eq!(judge_image(&rows), [4, 4, 1]);
    rows.registers[1][2] = SPARE;
    assert_eq!(judge_image(&rows), FINE);
}

// ---- 4: memories ----

#[test]
fn memories() {
    let refused = [4, 5, 0];
    let with = |field: usize, value: u32| after(|rows| rows.memories[0][field] = value);
    for (field, value) in [(2, 1), (2, 65_536), (4, 1), (4, 2)] {
        assert_eq!(with(field, value), FINE, "field {field} = {value}");
    }
    for (field, value) in [(2, 0), (2, 65_537), (4, 3), (5, 0), (5, 2), (16, 0), (16, 2)] {
        assert_eq!(with(field, value), refused, "field {field} = {value}");
    }
}

#[test]
fn word_width_of_memories() {
    let refused = [4, 5, 0];
    let with = |width: u32| after(|rows| rows.memories[0][3] = width);
    assert_eq!(with(8), FINE);
    for width in [0, 1, 7, 9, 1024, 1025, 0x0108, 0x0800_0000, ABSENT] {
        assert_eq!(with(width), refused, "width {width}");
    }
    // all data 4 bits wide: the width that is written follows or is refused
    let narrow = |width: u32| {
        after(|rows| {
            rows.signals[DATA_A as usize][2] = 4;
            rows.signals[DATA_B as usize][2] = 4;
            for first in [6, 17] {
                rows.memories[0][first + 5] = 8;
            }
            rows.memories[0][3] = width;
        })
    };
    assert_eq!(narrow(4), FINE);
    assert_eq!(narrow(8), refused);
    // with another fault of the record, and after one of an earlier record
    assert_eq!(after(|rows| rows.memories[0][2..4].copy_from_slice(&[0, 9])), refused);
    assert_eq!(after(|rows| (rows.memories[0][3], rows.registers[0][5]) = (9, 2)), [4, 4, 0]);
}

#[test]
fn ports_of_memories() {
    let refused = [4, 5, 0];
    for first in [6, 17] {
        let with = |field: usize, value: u32| after(|rows| rows.memories[0][first + field] = value);
        let good = [(0, 0), (0, 3), (4, 0), (5, 1), (7, 1), (9, 1), (1, SPARE)];
        let bad = [
            (0, EXPRESSIONS), (0, ABSENT), (4, EXPRESSIONS), (4, ABSENT),
            (1, 7), (1, ABSENT), (1, INPUT), (1, CLOCK), (1, STATE), (1, OUTPUT),
            (2, INPUT), (2, 7), (3, 1), (3, 2),
            (5, 8), (5, EXPRESSIONS), (5, ABSENT),
            (6, INPUT), (6, 7), (6, ABSENT), (7, 2),
            (8, INPUT), (8, ABSENT), (9, 2),
        ];
        for (field, value) in good {
            assert_eq!(with(field, value), FINE, "port at {first}, field {field} = {value}");
        }
        for (field, value) in bad {
            assert_eq!(with(field, value), refused, "port at {first}, field {field} = {value}");
        }
        // a read enable that is there, with its polarity
        let enable = |polarity| after(|rows| rows.memories[0][first + 2..first + 4].copy_from_slice(&[CLOCK, polarity]));
        assert_eq!(enable(1), FINE);
        assert_eq!(enable(2), refused);
    }
}

#[test]
fn address_widths() {
    let with_width = |width| {
        after(|rows| {
            rows.signals[SPARE as usize][2] = 64;
            rows.expressions.push([0, width, SPARE, 0, 0]);
            rows.memories[0][6] = EXPRESSIONS;
        })
    };
    assert_eq!(with_width(32), FINE);
    assert_eq!(with_width(33), [4, 5, 0]);
}

#[test]
fn second_port() {
    assert_eq!(after(|rows| rows.memories[0][16..].fill(0)), FINE);
    for field in 17..27 {
        let odd = after(|rows| {
            rows.memories[0][16..].fill(0);
            rows.memories[0][field] = 1;
        });
        assert_eq!(odd, [4, 5, 0], "field {field}");
    }
    // both ports' read data the same signal: a second driver in one record
    assert_eq!(after(|rows| rows.memories[0][18] = DATA_A), [4, 5, 0]);
    // data of both ports have one width
    let narrow = after(|rows| {
        rows.signals[DATA_B as usize][2] = 4;
        rows.memories[0][17 + 5] = 8;
    });
    assert_eq!(narrow, [4, 5, 0]);
}

// ---- 4: the first, in image order ----

#[test]
fn first_record_in_image_order() {
    let break_signal = |rows: &mut Image| rows.signals[6][3] = 3;
    let break_expression = |rows: &mut Image| rows.expressions[2][4] = 1;
    let break_later_expression = |rows: &mut Image| rows.expressions[5][0] = 9;
    let break_assignment = |rows: &mut Image| rows.assignments[1][3] = 99;
    let break_register = |rows: &mut Image| rows.registers[0][5] = 2;
    let break_memory = |rows: &mut Image| rows.memories[0][5] = 0;
    let mut rows = base();
    break_memory(&mut rows);
    assert_eq!(judge_image(&rows), [4, 5, 0]);
    break_register(&mut rows);
    assert_eq!(judge_image(&rows), [4, 4, 0]);
    break_assignment(&mut rows);
    assert_eq!(judge_image(&rows), [4, 3, 1]);
    break_later_expression(&mut rows);
    assert_eq!(judge_image(&rows), [4, 1, 5]);
    break_expression(&mut rows);
    assert_eq!(judge_image(&rows), [4, 1, 2]);
    break_signal(&mut rows);
    assert_eq!(judge_image(&rows), [4, 0, 6]);
}
