//! The border cases reach every check and both sides of each border.

use image::borders;
use std::collections::{BTreeMap, BTreeSet};

fn answers() -> Vec<(String, [u32; 3])> {
    borders()
        .into_iter()
        .map(|(name, bytes, n, p, netlist, scratch)| {
            (name, reference::check(&bytes, n, p, netlist, scratch))
        })
        .collect()
}

#[test]
fn names_are_told_apart() {
    let names: Vec<String> = borders().into_iter().map(|case| case.0).collect();
    let different: BTreeSet<&String> = names.iter().collect();
    assert_eq!(different.len(), names.len());
}

#[test]
fn every_check_answers_somewhere() {
    let mut counts: BTreeMap<u32, usize> = BTreeMap::new();
    for (_, [number, ..]) in answers() {
        *counts.entry(number).or_default() += 1;
    }
    println!("{counts:?}");
    for number in 0..=5 {
        assert!(counts.get(&number).copied().unwrap_or(0) > 20, "{counts:?}");
    }
}

#[test]
fn every_header_field_and_section_is_a_place() {
    let places: BTreeSet<[u32; 2]> = answers()
        .iter()
        .map(|(_, answer)| [answer[0], answer[1]])
        .collect();
    for field in 0..16 {
        assert!(places.contains(&[3, field]), "no refusal 3 {field}");
    }
    for section in [0, 1, 3, 4, 5] {
        assert!(places.contains(&[4, section]), "no refusal 4 {section}");
    }
}

#[test]
fn known_borders_are_judged_as_the_rules_say() {
    let answers: BTreeMap<String, [u32; 3]> = answers().into_iter().collect();
    for (name, expected) in [
        ("limits 0 0", [1, 0, 0]),
        ("limits 1 0", [0, 0, 0]),
        ("limits 65535 65535", [0, 0, 0]),
        ("limits 65536 0", [1, 0, 0]),
        ("limits 1 65536", [1, 0, 0]),
        ("inverter, limits 1 0, 22 netlist and 93 scratch words", [5, 0, 0]),
        ("inverter, limits 1 0, 22 netlist and 94 scratch words", [0, 0, 0]),
        ("inverter, limits 1 0, 22 netlist and 95 scratch words", [0, 0, 0]),
        ("checks wrong 00000", [0, 0, 0]),
        ("checks wrong 11111", [1, 0, 0]),
        ("checks wrong 11110", [2, 0, 0]),
        ("checks wrong 11100", [3, 0, 0]),
        ("checks wrong 11000", [4, 0, 1]),
        ("checks wrong 10000", [5, 0, 0]),
        ("inverter cut to 63 bytes", [3, 0, 0]),
        ("inverter cut to 64 bytes", [3, 1, 0]),
        ("inverter with 1 bytes in the total", [3, 14, 0]),
        ("empty, header field 0 is 1", [3, 0, 0]),
        ("empty, header field 0 is 2", [0, 0, 0]),
        ("empty, edition 1, header field 0 is 2", [0, 0, 0]),
        ("full, edition 1", [3, 0, 0]),
        ("full, edition 1, header field 0 is 2", [3, 14, 0]),
        ("full, header fields 14 and 15 raised", [3, 14, 0]),
        ("section 0 with 512 records", [0, 0, 0]),
        ("section 0 with 513 records", [3, 2, 0]),
        ("section 1 with 2048 records", [0, 0, 0]),
        ("section 1 with 2049 records", [3, 4, 0]),
        ("section 2 with 8192 records", [0, 0, 0]),
        ("section 2 with 8193 records", [3, 6, 0]),
        ("section 3 with 1024 records", [0, 0, 0]),
        ("section 3 with 1025 records", [3, 8, 0]),
        ("section 4 with 256 records", [0, 0, 0]),
        ("section 4 with 257 records", [3, 10, 0]),
        ("section 5 with 16 records", [0, 0, 0]),
        ("section 5 with 17 records", [3, 12, 0]),
        ("section 6 with 16384 records", [0, 0, 0]),
        ("section 6 with 16385 records", [3, 14, 0]),
        ("name of 64 bytes", [0, 0, 0]),
        ("name of 65 bytes", [4, 0, 1]),
        ("signals of 8 to 8 bits, 512 of 4096", [0, 0, 0]),
        ("signals of 8 to 9 bits, 512 of 4097", [4, 0, 511]),
        ("expressions of 16 to 16 bits, 2048 of 32768", [0, 0, 0]),
        ("expressions of 16 to 17 bits, 2048 of 32769", [4, 1, 2047]),
        ("constant of 65 at 5 of 9 words", [0, 0, 0]),
        ("constant of 65 at 6 of 9 words", [4, 1, 0]),
        ("memory, depth 65536", [0, 0, 0]),
        ("memory, depth 65537", [4, 5, 0]),
        ("memory, word width 0", [4, 5, 0]),
        ("memory, word width 7", [4, 5, 0]),
        ("memory, word width 8", [0, 0, 0]),
        ("memory, word width 9", [4, 5, 0]),
        ("memory, word width 264", [4, 5, 0]),
        ("memory, word width 1024, data of width 1024", [0, 0, 0]),
        ("memory, latency 0", [4, 5, 0]),
        ("memory, latency 1", [0, 0, 0]),
        ("memory, address 3 of width 32", [0, 0, 0]),
        ("memory, address 3 of width 33", [4, 5, 0]),
        ("memory, words of width 64", [0, 0, 0]),
        ("memory, data [0, 2] of width 7, others 8", [4, 5, 0]),
        ("memory, data [1, 3] of width 7, others 8", [4, 5, 0]),
        ("memory, data [0, 1] of width 9, others 8", [4, 5, 0]),
        ("memory of one port, reads 7 bits, writes 8", [4, 5, 0]),
        ("memory of one port, reads 1024 bits, writes 1024", [0, 0, 0]),
        ("direction 2, drivers b", [4, 5, 0]),
        ("direction 1, drivers a", [4, 3, 0]),
    ] {
        assert_eq!(answers.get(name), Some(&expected), "{name}");
    }
}
