//! Benchmarks of the port's calls beside the Rust, in one run, on the same
//! images: time per call and ratio. It measures; it judges nothing.

use calls::Library;
use compare::limits::Limits;
use compare::subject::Subject;
use compare::timing::least_time;
use image::{memory_field, port_field, Image, ABSENT, MEMORY_FIELDS};
use std::hint::black_box;

const USAGE: &str = "bench
    Times struo_check of the port's library beside the reference checks.";

fn main() {
    if std::env::args().len() > 1 {
        println!("{USAGE}");
        return;
    }
    println!("{:<32} {:>8} {:>12} {:>12} {:>7}", "image", "bytes", "port ns", "reference ns", "ratio");
    for (name, bytes) in images() {
        row(name, &bytes);
    }
}

fn images() -> Vec<(&'static str, Vec<u8>)> {
    let mut last_name = largest();
    let end = last_name.names.len() - 1;
    last_name.names[end] = 32;
    vec![
        ("header only", Image::default().encode()),
        ("random, tiny", image::generate(1, image::Size::Tiny).encode()),
        ("random, medium", image::generate(1, image::Size::Medium).encode()),
        ("random, large", image::generate(1, image::Size::Large).encode()),
        ("largest", largest().encode()),
        ("largest, last name bad", last_name.encode()),
    ]
}

fn row(name: &str, image: &[u8]) {
    let limits = Limits { n: 65535, p: 65535, netlist_words: 458_761, scratch_words: 500_000 };
    let port = least_time(|| Library.check(black_box(image), &limits));
    let reference =
        least_time(|| reference::check(black_box(image), limits.n, limits.p, limits.netlist_words, limits.scratch_words));
    println!("{name:<32} {:>8} {port:>12.0} {reference:>12.0} {:>7.2}", image.len(), port / reference);
}

/// An image with the most records of each section: 512 names of 32 bytes that
/// differ at their ends, 1,024 assignments of one bit each.
fn largest() -> Image {
    let mut image = Image::default();
    for number in 0..512u32 {
        image.names.extend(std::iter::repeat_n(b'n', 30));
        image.names.extend([b'!' + (number / 90) as u8, b'!' + (number % 90) as u8]);
        image.signals.push([32 * number, 32, signal_width(number), signal_direction(number)]);
    }
    image.list = vec![0; 8192];
    for number in 0..2048u32 {
        image.expressions.push(expression(number));
    }
    for number in 0..1024u32 {
        image.assignments.push([1 + number / 8, number % 8, 1, number]);
    }
    for number in 0..256u32 {
        image.registers.push([32 * number, 32, 129 + number, 0, 0, 0, 0, 0, 0, 1, 1, 1]);
    }
    for number in 0..16u32 {
        image.memories.push(memory(number));
    }
    image
}

/// Signal 0 is the clock, 1 to 128 are assigned, then register targets, read
/// data, and inputs.
fn signal_width(number: u32) -> u32 {
    match number {
        1..=128 => 8,
        417.. => 29,
        _ => 1,
    }
}

fn signal_direction(number: u32) -> u32 {
    match number {
        1..=128 => 2,
        0 | 417.. => 1,
        _ => 0,
    }
}

/// Reads of the clock, then sums of 31 bits.
fn expression(number: u32) -> [u32; 5] {
    match number {
        0..=1023 => [0, 1, 0, 0, 0],
        1024 => [1, 31, 0, 0, 0],
        _ => [3, 31, 3, number - 1, 1024],
    }
}

fn memory(number: u32) -> [u32; MEMORY_FIELDS] {
    let mut fields = [0; MEMORY_FIELDS];
    fields[..2].copy_from_slice(&[32 * number, 32]);
    fields[memory_field::DEPTH] = 16;
    fields[memory_field::WORD_WIDTH] = 1;
    fields[memory_field::LATENCY] = 1;
    fields[memory_field::HAS_SECOND] = 1;
    fields[memory_field::FIRST_PORT + port_field::READ_DATA] = 385 + 2 * number;
    fields[memory_field::SECOND_PORT + port_field::READ_DATA] = 386 + 2 * number;
    fields[memory_field::SECOND_PORT + port_field::READ_ENABLE] = ABSENT;
    fields
}
