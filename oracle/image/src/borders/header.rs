//! Header fields, lengths, and counts at and past their most.

use super::bases::{full, inverter};
use super::Cases;
use crate::builder::Builder;
use crate::edition::to_edition_1;
use crate::format::*;

pub fn add(cases: &mut Cases) {
    for (label, image) in [
        ("empty", Image::default()),
        ("inverter", inverter()),
        ("full", full()),
    ] {
        single_fields(cases, label, &image);
        pairs(cases, label, &image);
    }
    editions(cases);
    lengths(cases);
    counts(cases);
}

/// The bytes of edition 1, and such bytes that say they are of edition 2: with a
/// memory, whose record would be longer, the names do not end at the total.
fn editions(cases: &mut Cases) {
    for (label, image) in [
        ("empty", Image::default()),
        ("inverter", inverter()),
        ("full", full()),
    ] {
        let mut bytes = to_edition_1(&image);
        cases.bytes(format!("{label}, edition 1"), bytes.clone());
        set_word(&mut bytes, 0, EDITION);
        cases.bytes(format!("{label}, edition 1, header field 0 is 2"), bytes);
    }
}

fn single_fields(cases: &mut Cases, label: &str, image: &Image) {
    let header = image.header();
    for (field, old) in header.into_iter().enumerate() {
        for value in values(field, old) {
            let mut bytes = image.encode();
            set_word(&mut bytes, field, value);
            cases.bytes(format!("{label}, header field {field} is {value}"), bytes);
        }
    }
}

/// Values around what a header field holds and may hold.
fn values(field: usize, old: u32) -> Vec<u32> {
    let most = if field >= 2 {
        MOST[field / 2 - 1] as u32
    } else {
        1
    };
    let mut values = vec![
        0,
        1,
        2,
        63,
        64,
        0x8000_0000,
        ABSENT - 1,
        ABSENT,
        most,
        most + 1,
    ];
    values.extend([1, 4, 16, 20].map(|step: u32| old.wrapping_add(step)));
    values.extend([1, 4].map(|step: u32| old.wrapping_sub(step)));
    values.sort_unstable();
    values.dedup();
    values
}

fn pairs(cases: &mut Cases, label: &str, image: &Image) {
    let header = image.header();
    for first in 0..HEADER_FIELDS {
        for second in first + 1..HEADER_FIELDS {
            for (how, change) in [("raised", 1), ("raised by 4", 4), ("lowered", u32::MAX)] {
                let mut bytes = image.encode();
                set_word(&mut bytes, first, header[first].wrapping_add(change));
                set_word(&mut bytes, second, header[second].wrapping_add(change));
                cases.bytes(
                    format!("{label}, header fields {first} and {second} {how}"),
                    bytes,
                );
            }
        }
    }
}

fn lengths(cases: &mut Cases) {
    let bytes = inverter().encode();
    for length in (0..=68).chain([bytes.len() - 4, bytes.len() - 1]) {
        cases.bytes(
            format!("inverter cut to {length} bytes"),
            bytes[..length].to_vec(),
        );
    }
    for more in [1, 3, 4, 16] {
        let longer = [bytes.clone(), vec![b'a'; more]].concat();
        cases.bytes(
            format!("inverter with {more} bytes after it"),
            longer.clone(),
        );
        let mut total = longer.clone();
        set_word(&mut total, 1, longer.len() as u32);
        cases.bytes(
            format!("inverter with {more} bytes in the total"),
            total.clone(),
        );
        let mut names = total;
        set_word(&mut names, 14, 2 + more as u32);
        cases.bytes(format!("inverter with {more} name bytes too many"), names);
    }
    let empty = Image::default().encode();
    for length in [62, 63, 64] {
        cases.bytes(
            format!("empty image of {length} bytes"),
            empty[..length].to_vec(),
        );
    }
}

/// Each section with its most records, and with one more.
fn counts(cases: &mut Cases) {
    for (section, most) in MOST.into_iter().enumerate() {
        for past in [0, 1] {
            let image = filled(section, most + past);
            cases.image(
                format!("section {section} with {} records", most + past),
                &image,
            );
        }
    }
    let mut image = Image::default();
    for (section, most) in MOST.into_iter().enumerate() {
        add_filled(&mut image, section, most);
    }
    cases.image("every section with its most records", &image);
}

/// Valid records, as many as wanted, of one section and what they need.
fn filled(section: usize, count: usize) -> Image {
    match section {
        SIGNALS => many_signals(count),
        EXPRESSIONS => many_expressions(count),
        ASSIGNMENTS => many_assignments(count),
        REGISTERS => many_registers(count),
        MEMORIES => many_memories(count),
        LIST => Image {
            list: vec![ABSENT; count],
            ..Image::default()
        },
        _ => Image {
            names: vec![0; count],
            ..Image::default()
        },
    }
}

fn add_filled(image: &mut Image, section: usize, count: usize) {
    let other = filled(section, count);
    match section {
        SIGNALS => image.signals = other.signals,
        EXPRESSIONS => image.expressions = other.expressions,
        LIST => image.list = other.list,
        ASSIGNMENTS => image.assignments = other.assignments,
        REGISTERS => image.registers = other.registers,
        MEMORIES => image.memories = other.memories,
        _ => image.names = other.names,
    }
}

fn many_signals(count: usize) -> Image {
    let mut builder = Builder::new();
    for number in 0..count {
        builder.input(&format!("a{number}"), 1);
    }
    builder.finish()
}

fn many_expressions(count: usize) -> Image {
    let mut builder = Builder::new();
    let a = builder.input("a", 1);
    let y = builder.output("y", 1);
    let mut last = builder.read(a);
    for _ in 1..count {
        last = builder.not(last);
    }
    builder.assign(y, last);
    builder.finish()
}

fn many_assignments(count: usize) -> Image {
    let mut builder = Builder::new();
    let a = builder.input("a", 1);
    let targets = [builder.output("x", 1024), builder.output("y", 1024)];
    let read = builder.read(a);
    for number in 0..count as u32 {
        builder.assign_range(targets[(number / 1024) as usize], number % 1024, read);
    }
    builder.finish()
}

fn many_registers(count: usize) -> Image {
    let mut builder = Builder::new();
    let clk = builder.input("clk", 1);
    let next = builder.read(clk);
    for number in 0..count {
        let target = builder.output(&format!("q{number}"), 1);
        builder.register(
            &format!("q{number}"),
            crate::Register::new(target, next, clk),
        );
    }
    builder.finish()
}

fn many_memories(count: usize) -> Image {
    let mut builder = Builder::new();
    let clk = builder.input("clk", 1);
    let read = builder.read(clk);
    for number in 0..count {
        let read_data = builder.output(&format!("d{number}"), 1);
        let first = super::memories::port(read, read_data, read, clk);
        let memory = crate::Memory {
            depth: 2,
            style: 0,
            first,
            second: None,
        };
        builder.memory(&format!("m{number}"), memory);
    }
    builder.finish()
}
