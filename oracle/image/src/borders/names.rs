//! Names: lengths, bytes, places, and equal ones.

use super::bases::{full, inverter};
use super::Cases;
use crate::builder::Builder;
use crate::format::*;

pub fn add(cases: &mut Cases) {
    lengths(cases);
    bytes(cases);
    places(cases);
    equal(cases);
    shared(cases);
}

fn with_name(name: &str) -> Image {
    let mut builder = Builder::new();
    builder.input("first", 1);
    builder.input(name, 1);
    builder.finish()
}

fn lengths(cases: &mut Cases) {
    for length in [0, 1, 2, 63, 64, 65, 66, 128] {
        cases.image(
            format!("name of {length} bytes"),
            &with_name(&"n".repeat(length)),
        );
    }
}

/// Each byte at and around the ends of the range, at each place of a name.
fn bytes(cases: &mut Cases) {
    for byte in [0, 1, 10, 31, 32, 33, 34, 126, 127, 128, 200, 255] {
        for place in 0..5 {
            for section in [SIGNALS, REGISTERS, MEMORIES] {
                let mut image = full();
                let name = b"aname".to_vec();
                set_name(&mut image, section, &name);
                let at = image.names.len() - name.len() + place;
                image.names[at] = byte;
                cases.image(
                    format!("section {section}, name byte {byte} at {place}"),
                    &image,
                );
            }
        }
    }
    for byte in 0..=255u8 {
        let mut image = inverter();
        image.names[1] = byte;
        cases.image(format!("signal y named by byte {byte}"), &image);
    }
}

/// Gives record 1 of a section a name at the end of the names.
fn set_name(image: &mut Image, section: usize, name: &[u8]) {
    let place = image.add_name(name);
    match section {
        SIGNALS => image.signals[1][..2].copy_from_slice(&place),
        REGISTERS => image.registers[1][..2].copy_from_slice(&place),
        _ => image.memories[1][..2].copy_from_slice(&place),
    }
}

/// Stretches at and past the end of the names (more bytes than a name may
/// have), and past the largest number.
fn places(cases: &mut Cases) {
    let end = full().names.len().max(100) as u32;
    let stretches = [
        (end - 1, 1),
        (end, 1),
        (end - 1, 2),
        (end - 64, 64),
        (end - 63, 64),
        (end, 0),
        (0, end),
        (ABSENT, 1),
        (ABSENT, 2),
        (ABSENT - 63, 64),
        (1, ABSENT),
        (0, ABSENT),
        (end + 1, ABSENT),
        (0x8000_0000, 0x8000_0000),
    ];
    for (offset, length) in stretches {
        for section in [SIGNALS, REGISTERS, MEMORIES] {
            let mut image = full();
            image.names.resize(end as usize, b'u');
            set_name(&mut image, section, b"");
            let record: &mut [u32] = match section {
                SIGNALS => &mut image.signals[1],
                REGISTERS => &mut image.registers[1],
                _ => &mut image.memories[1],
            };
            (record[0], record[1]) = (offset, length);
            cases.image(
                format!("section {section}, name at {offset} of {length} bytes"),
                &image,
            );
        }
    }
}

/// Equal names within a section and across sections.
fn equal(cases: &mut Cases) {
    for section in [SIGNALS, REGISTERS, MEMORIES] {
        let first = match section {
            SIGNALS => full().signals[0],
            REGISTERS => first_fields(&full().registers[0]),
            _ => first_fields(&full().memories[0]),
        };
        let (offset, length) = (first[0] as usize, first[1] as usize);
        let name = full().names[offset..offset + length].to_vec();
        for other in [SIGNALS, REGISTERS, MEMORIES] {
            let mut image = full();
            set_name(&mut image, other, &name);
            cases.image(
                format!("name of section {section} again in section {other}"),
                &image,
            );
            let mut longer = full();
            set_name(&mut longer, other, &[&name[..], b"x"].concat());
            cases.image(
                format!("name of section {section} and a letter in section {other}"),
                &longer,
            );
        }
    }
    let count = full().signals.len();
    for (one, two) in [(0, count - 1), (count - 2, count - 1), (3, 7)] {
        let mut image = full();
        image.signals[two][0] = image.signals[one][0];
        image.signals[two][1] = image.signals[one][1];
        cases.image(
            format!("signals {one} and {two} share a name's stretch"),
            &image,
        );
    }
    let long = "e".repeat(63);
    for (one, two) in [("a", "a"), ("b", "c"), ("a", "b")] {
        let mut builder = Builder::new();
        builder.input(&format!("{long}{one}"), 1);
        builder.input(&format!("{long}{two}"), 1);
        cases.image(
            format!("long names that end in {one} and {two}"),
            &builder.finish(),
        );
    }
}

fn first_fields(record: &[u32]) -> [u32; 4] {
    [record[0], record[1], record[2], record[3]]
}

/// Names whose stretches overlap.
fn shared(cases: &mut Cases) {
    for text in ["abcd", "aaaa", "abab"] {
        for (one, two) in [
            ((0, 2), (2, 2)),
            ((0, 2), (1, 2)),
            ((0, 3), (1, 3)),
            ((0, 4), (0, 3)),
        ] {
            let mut image = Image {
                names: text.as_bytes().to_vec(),
                ..Image::default()
            };
            image.signals.push([one.0, one.1, 1, 1]);
            image.signals.push([two.0, two.1, 1, 1]);
            cases.image(format!("names {one:?} and {two:?} of {text}"), &image);
        }
    }
}
