//! Memories: depth, address and data widths, latency, ports.

use super::Cases;
use crate::builder::{Builder, Control, Expr, Memory, Port, Signal};
use crate::format::*;

/// A plain port: one signal is clock and write enable, one expression both
/// addresses.
pub fn port(address: Expr, read_data: Signal, write_data: Expr, clock: Signal) -> Port {
    Port {
        read_address: address,
        read_data,
        read_enable: None,
        write_address: address,
        write_data,
        write_enable: Control {
            signal: clock,
            low: false,
        },
        clock,
        falling: false,
    }
}

pub fn add(cases: &mut Cases) {
    for depth in [0, 1, 2, 65_535, 65_536, 65_537, ABSENT] {
        changed(cases, format!("depth {depth}"), |memory| {
            memory[memory_field::DEPTH] = depth
        });
    }
    for latency in [0, 1, 2, 256, 257, ABSENT] {
        changed(cases, format!("latency {latency}"), |memory| {
            memory[memory_field::LATENCY] = latency
        });
    }
    for style in [0, 1, 2, 3, ABSENT] {
        changed(cases, format!("style {style}"), |memory| {
            memory[memory_field::STYLE] = style
        });
    }
    addresses(cases);
    word_widths(cases);
    word_widths_of_data(cases);
    data(cases);
    absent(cases);
    second_port(cases);
}

/// Expressions 0 and 1 are one bit and eight bits; 2 on are addresses of
/// the widths given.
fn two_ports(addresses: [u32; 4], read: [u32; 2], write: [u32; 2]) -> Image {
    let mut builder = Builder::new();
    let clock = builder.input("clk", 1);
    let data: Vec<Signal> = (0..2)
        .map(|port| builder.output(&format!("d{port}"), read[port]))
        .collect();
    let mut port_of = |number: usize| {
        let read_address = builder.constant_limbs(addresses[2 * number], &[1]);
        let write_address = builder.constant_limbs(addresses[2 * number + 1], &[1]);
        let write_data = builder.constant_limbs(write[number], &[3]);
        Port {
            write_address,
            ..port(read_address, data[number], write_data, clock)
        }
    };
    let first = port_of(0);
    let second = Some(port_of(1));
    builder.memory(
        "m",
        Memory {
            depth: 4,
            style: 0,
            first,
            second,
        },
    );
    builder.finish()
}

fn plain() -> Image {
    two_ports([2; 4], [8; 2], [8; 2])
}

fn changed(cases: &mut Cases, name: String, change: impl Fn(&mut [u32; MEMORY_FIELDS])) {
    let mut image = plain();
    change(&mut image.memories[0]);
    cases.image(format!("memory, {name}"), &image);
}

fn addresses(cases: &mut Cases) {
    for place in 0..4 {
        for width in [1, 2, 17, 31, 32, 33, 64, 1024] {
            let mut widths = [2; 4];
            widths[place] = width;
            let image = two_ports(widths, [8; 2], [8; 2]);
            cases.image(format!("memory, address {place} of width {width}"), &image);
        }
    }
}

/// The word width beside read data of 8 bits, alone and with another fault of
/// the record, read data that name no signal among them.
fn word_widths(cases: &mut Cases) {
    use memory_field::*;
    for width in [0, 1, 7, 8, 9, 256 + 8, 1024, 1025, 0x8000_0008, ABSENT] {
        changed(cases, format!("word width {width}"), |memory| {
            memory[WORD_WIDTH] = width
        });
        for (field, value) in [
            (0, ABSENT),
            (1, 0),
            (DEPTH, 0),
            (STYLE, 3),
            (LATENCY, 2),
            (FIRST_PORT, ABSENT),
            (FIRST_PORT + port_field::READ_DATA, ABSENT),
            (HAS_SECOND, 2),
            (SECOND_PORT + port_field::READ_DATA, ABSENT),
        ] {
            changed(
                cases,
                format!("word width {width}, field {field} is {value}"),
                |memory| {
                    memory[WORD_WIDTH] = width;
                    memory[field] = value;
                },
            );
        }
    }
}

/// The word width beside data of other widths, and of widths that differ.
fn word_widths_of_data(cases: &mut Cases) {
    use memory_field::WORD_WIDTH;
    for read in [1, 2, 7, 8, 9, 1023, 1024] {
        for width in [read - 1, read, read + 1, 16] {
            let mut image = two_ports([2; 4], [read; 2], [read; 2]);
            image.memories[0][WORD_WIDTH] = width;
            let name = format!("memory, word width {width}, data of width {read}");
            cases.image(name, &image);
        }
    }
    for (read, written) in [([8, 9], [8, 9]), ([9, 8], [9, 8]), ([8, 8], [9, 9]), ([9, 9], [8, 8])] {
        for width in [8, 9] {
            let mut image = two_ports([2; 4], read, written);
            image.memories[0][WORD_WIDTH] = width;
            let name = format!("memory, word width {width}, reads {read:?}, writes {written:?}");
            cases.image(name, &image);
        }
    }
}

/// The data are numbered: 0 and 1 read by the first and the second port, 2 and
/// 3 written.
fn data(cases: &mut Cases) {
    for place in 0..4 {
        for width in [1, 7, 8, 9, 1024] {
            let mut widths = [8; 4];
            widths[place] = width;
            let image = two_ports([2; 4], [widths[0], widths[1]], [widths[2], widths[3]]);
            cases.image(format!("memory, data {place} of width {width}"), &image);
        }
    }
    data_in_groups(cases);
    data_of_one_port(cases);
    for width in [1, 64, 65, 1024] {
        let image = two_ports([2; 4], [width; 2], [width; 2]);
        cases.image(format!("memory, words of width {width}"), &image);
    }
}

/// Two or three of the four data of another width: among these are two ports,
/// each right in itself, that differ, and reads and writes that differ.
fn data_in_groups(cases: &mut Cases) {
    let groups: [&[usize]; 10] = [
        &[0, 2],
        &[1, 3],
        &[0, 1],
        &[2, 3],
        &[0, 3],
        &[1, 2],
        &[0, 1, 2],
        &[0, 1, 3],
        &[0, 2, 3],
        &[1, 2, 3],
    ];
    for group in groups {
        for (width, others) in [(7, 8), (9, 8), (1, 2), (2, 1), (64, 65), (1023, 1024)] {
            let mut widths = [others; 4];
            group.iter().for_each(|&place| widths[place] = width);
            let image = two_ports([2; 4], [widths[0], widths[1]], [widths[2], widths[3]]);
            let name = format!("memory, data {group:?} of width {width}, others {others}");
            cases.image(name, &image);
        }
    }
}

/// A memory of one port, whose read and write data differ or not.
fn data_of_one_port(cases: &mut Cases) {
    for (read, write) in [(7, 8), (8, 7), (1, 2), (2, 1), (1023, 1024), (1024, 1024)] {
        let mut image = two_ports([2; 4], [read, 8], [write, 8]);
        image.memories[0][memory_field::HAS_SECOND..].fill(0);
        let name = format!("memory of one port, reads {read} bits, writes {write}");
        cases.image(name, &image);
    }
}

/// Absent in every field, and what must be 0 beside an absent control.
fn absent(cases: &mut Cases) {
    for field in 0..MEMORY_FIELDS {
        changed(cases, format!("field {field} absent"), |memory| {
            memory[field] = ABSENT
        });
    }
    for port in [memory_field::FIRST_PORT, memory_field::SECOND_PORT] {
        let enable = port + port_field::READ_ENABLE;
        let level = enable + 1;
        for value in [0, 1, 2, ABSENT] {
            changed(
                cases,
                format!("field {enable} absent and field {level} is {value}"),
                |memory| {
                    memory[enable] = ABSENT;
                    memory[level] = value;
                },
            );
            changed(
                cases,
                format!("field {enable} present and field {level} is {value}"),
                |memory| {
                    memory[enable] = 0;
                    memory[level] = value;
                },
            );
        }
    }
}

/// The second port's flag, and its fields where there is none.
fn second_port(cases: &mut Cases) {
    for present in [0, 1, 2, ABSENT] {
        changed(cases, format!("second port is {present}"), |memory| {
            memory[memory_field::HAS_SECOND] = present
        });
    }
    changed(cases, "no second port".to_string(), |memory| {
        memory[memory_field::HAS_SECOND..].fill(0)
    });
    for field in memory_field::SECOND_PORT..MEMORY_FIELDS {
        for value in [1, 2, ABSENT] {
            changed(
                cases,
                format!("no second port but field {field} is {value}"),
                |memory| {
                    memory[memory_field::HAS_SECOND..].fill(0);
                    memory[field] = value;
                },
            );
        }
    }
}
