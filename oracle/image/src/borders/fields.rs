//! Each field of each record at the borders of its sort.

use super::bases::full;
use super::Cases;
use crate::format::*;

/// What a field holds.
#[derive(Clone, Copy)]
enum Field {
    /// One of the values 0 to this.
    Enum(u32),
    Signal,
    Expression,
    Width,
    Lsb,
    ListStart,
    Count,
    NameOffset,
    NameLength,
    Depth,
    Latency,
    /// Nothing: must be 0.
    Unused,
}

use Field::*;

const SIGNAL: [Field; 4] = [NameOffset, NameLength, Width, Enum(2)];
const ASSIGNMENT: [Field; 4] = [Signal, Lsb, Width, Expression];
const REGISTER: [Field; 12] = [
    NameOffset,
    NameLength,
    Signal,
    Expression,
    Signal,
    Enum(1),
    Signal,
    Enum(1),
    Signal,
    Enum(1),
    Enum(1),
    Expression,
];
const PORT: [Field; 10] = [
    Expression,
    Signal,
    Signal,
    Enum(1),
    Expression,
    Expression,
    Signal,
    Enum(1),
    Signal,
    Enum(1),
];

pub fn add(cases: &mut Cases) {
    let image = full();
    for (number, record) in image.signals.iter().enumerate() {
        each(cases, &image, "signal", number, record, &SIGNAL, |image| {
            &mut image.signals[number]
        });
    }
    for (number, record) in image.expressions.iter().enumerate() {
        let fields = expression(record[0]);
        each(
            cases,
            &image,
            "expression",
            number,
            record,
            &fields,
            |image| &mut image.expressions[number],
        );
    }
    for (number, record) in image.assignments.iter().enumerate() {
        each(
            cases,
            &image,
            "assignment",
            number,
            record,
            &ASSIGNMENT,
            |image| &mut image.assignments[number],
        );
    }
    for (number, record) in image.registers.iter().enumerate() {
        each(
            cases,
            &image,
            "register",
            number,
            record,
            &REGISTER,
            |image| &mut image.registers[number],
        );
    }
    for (number, record) in image.memories.iter().enumerate() {
        each(
            cases,
            &image,
            "memory",
            number,
            record,
            &memory(),
            |image| &mut image.memories[number],
        );
    }
}

fn expression(kind: u32) -> [Field; 5] {
    let operands = match kind {
        kind::SIGNAL => [Signal, Lsb, Unused],
        kind::CONSTANT => [ListStart, Unused, Unused],
        kind::UNARY => [Enum(4), Expression, Unused],
        kind::BINARY => [Enum(18), Expression, Expression],
        kind::MUX => [Expression, Expression, Expression],
        kind::CONCAT => [ListStart, Count, Unused],
        _ => [Expression, Lsb, Unused],
    };
    [Enum(6), Width, operands[0], operands[1], operands[2]]
}

fn memory() -> Vec<Field> {
    let mut fields = vec![NameOffset, NameLength, Depth, Width, Enum(2), Latency];
    fields.extend(PORT);
    fields.push(Enum(1));
    fields.extend(PORT);
    fields
}

/// One case for each field and each of its border values.
fn each<const FIELDS: usize>(
    cases: &mut Cases,
    image: &Image,
    sort: &str,
    number: usize,
    record: &[u32; FIELDS],
    fields: &[Field],
    place: impl Fn(&mut Image) -> &mut [u32; FIELDS],
) {
    for (field, holds) in fields.iter().enumerate() {
        for value in values(*holds, record[field], number as u32, image) {
            let mut changed = image.clone();
            place(&mut changed)[field] = value;
            cases.image(
                format!("{sort} {number}, field {field} is {value}"),
                &changed,
            );
        }
    }
}

/// Border values of a field that holds `old` in record `number`.
fn values(field: Field, old: u32, number: u32, image: &Image) -> Vec<u32> {
    let mut values = match field {
        Enum(most) => vec![0, most, most + 1],
        Signal => ends(image.signals.len()),
        Expression => [
            vec![number, number.wrapping_sub(1)],
            ends(image.expressions.len()),
        ]
        .concat(),
        Width => vec![1, 1024, 1025],
        Lsb => vec![1, 8, ABSENT - 7],
        ListStart => [ends(image.list.len()), vec![image.list.len() as u32 - 2]].concat(),
        Count => [vec![1], ends(image.list.len())].concat(),
        NameOffset => ends(image.names.len()),
        NameLength => vec![1, 64, 65],
        Depth => vec![1, 65_536, 65_537],
        Latency => vec![1, 2, 255, 256],
        Unused => vec![1],
    };
    values.extend([
        0,
        old.wrapping_sub(1),
        old.wrapping_add(1),
        0x8000_0000,
        ABSENT,
    ]);
    values.sort_unstable();
    values.dedup();
    values.retain(|value| *value != old);
    values
}

/// The last number there is and the one past it.
fn ends(count: usize) -> Vec<u32> {
    vec![count as u32 - 1, count as u32]
}
