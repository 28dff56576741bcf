//! What is told of a stored netlist: each rule once, at the place that the
//! library names; and any words with any place.

use command::input::words_in;
use command::refusal::of_netlist_in_words;
use command::stored::{accepted, why};
use command::{ACCEPTED, MOST};
use image::{Random, netlist_parts};

const A: u32 = u32::MAX;

/// The nodes of a netlist with every kind but Or and Xor.
const NODES: [[u32; 6]; 14] = [
    [0, 0, 0, A, A, A],
    [0, 0, 1, A, A, A],
    [7, 0, 0, A, A, A],
    [9, 0, 0, A, A, A],
    [9, 0, 1, A, A, A],
    [1, 1, A, A, A, A],
    [5, A, A, 0, A, A],
    [2, A, A, 0, 6, A],
    [6, A, A, 0, 1, 7],
    [10, 0, 0, A, A, A],
    [10, 0, 1, A, A, A],
    [11, 0, 0, A, A, A],
    [8, 1, 0, 8, A, A],
    [8, 1, 1, 11, A, A],
];

/// One node is unused.
const N: usize = 15;

/// Its records, one of each sort and the port of its outputs.
const RECORDS: [&[u32]; 6] = [
    &[0, 0, 2, 0, 1],
    &[3, 0, 2, A, 0, 1, 6, 7, 9, 10],
    &[4, 2, 1, 0, 9, 11],
    &[2, 0, 4, 0, 1, 2, 1, 1, 1, 1, 0, 3, 1, 6, A, 0, 5, 0, 0, 0, 1, 1, 1, 1, 0, 4, 1, 6, 5, 1, 5, 0, 0, 0],
    &[1, 0, 0, 2, 8, 0, 0, A, 0, 1, 0, 0, 1],
    &[0, 1, 2, 12, 13],
];

/// A netlist of these records.
fn netlist(records: &[&[u32]]) -> Vec<u32> {
    netlist_parts::netlist(N, &NODES, records)
}

/// Word `field` of node `net`.
fn node(net: usize, field: usize) -> usize {
    16 + 6 * net + field
}

/// Word `index` of record `number`.
fn record(number: usize, index: usize) -> usize {
    16 + 6 * N + RECORDS[..number].concat().len() + index
}

/// The words are refused at the place, and told so.
fn refused(words: &[u32], place: usize, told: &str) {
    let place = place as u32;
    assert_eq!(why(words, place), told);
    assert_eq!(port::netlist_check(words), [11, place, 0], "{told}");
    assert_eq!(of_netlist_in_words([11, place, 0], words), format!("refused 11 {place} 0: {told}\n"));
}

/// The netlist with one word changed is refused at that word.
fn wrong(at: usize, value: u32, told: &str) {
    wrong_at(at, &[(at, value)], told);
}

/// The netlist with some words changed.
fn wrong_at(place: usize, changes: &[(usize, u32)], told: &str) {
    let mut words = netlist(&RECORDS);
    for &(at, value) in changes {
        words[at] = value;
    }
    refused(&words, place, told);
}

#[test]
fn an_accepted_netlist() {
    let mut words = netlist(&RECORDS);
    let counts = "accepted: 14 nets, 73 list words; 2 ports, 1 register bit, 1 memory, 1 arithmetic cell, 1 comparison cell\n";
    assert_eq!((port::netlist_check(&words), accepted(&words).as_str()), (ACCEPTED, counts));
    // Words past the list words used are not read.
    words.extend([0, 7, A]);
    assert_eq!((port::netlist_check(&words), accepted(&words).as_str()), (ACCEPTED, counts));
}

#[test]
fn header_words() {
    wrong(0, 2, "header word 0 (edition) is 2, it must be 1");
    wrong(1, 65_536, "header word 1 (nets) is 65536, at most 65535");
    wrong(2, 17, "header word 2 (where the nodes begin) is 17, it must be 16");
    wrong(3, 65_536, "header word 3 (list words used) is 65536, at most 65535");
    for offset in [0, 16, 107, 16 + 6 * (MOST + 1)] {
        wrong(4, offset, &format!("header word 4 (where the list begins) is {offset}, it must be 16 + 6N with N from 1 to 65535"));
    }
    wrong(4, 22, "header word 4 (where the list begins) is 22, which makes N 1, and there are 14 nets");
    wrong(10, 1, "header word 10 (unused) is 1, it must be 0");
    wrong(15, A, "header word 15 (unused) is 4294967295, it must be 0");
}

#[test]
fn record_counts() {
    wrong(5, 3, "header word 5 counts 3 records of sort 0 (port), and the list has 2");
    wrong(6, 0, "header word 6 counts 0 records of sort 1 (register bit), and the list has 1");
    wrong(9, 2, "header word 9 counts 2 records of sort 4 (comparison cell), and the list has 1");
}

#[test]
fn slices_that_end_too_early() {
    let words = netlist(&RECORDS);
    for length in [0, 1, 15] {
        refused(&words[..length], length, &format!("there are {length} words, and the header alone has 16"));
    }
    for length in [16, 100, 178] {
        let asked = "and the header asks for 179: the list begins at word 106, and 73 of its words are used";
        refused(&words[..length], length, &format!("there are {length} words, {asked}"));
    }
}

#[test]
fn node_words() {
    wrong(node(0, 0), 12, "node 0: its kind is 12, at most 11");
    wrong(node(0, 1), 512, "node 0 (Input): its signal is 512, at most 511");
    wrong(node(2, 1), 256, "node 2 (RegisterOutput): its register is 256, at most 255");
    wrong(node(3, 1), 16, "node 3 (MemoryOutput): its memory is 16, at most 15");
    wrong(node(5, 1), 2, "node 5 (Constant): its value is 2, at most 1");
    wrong(node(7, 1), 0, "node 7 (And): its owner is 0, and an And has no owner: the word must be 4294967295 (absent)");
    wrong(node(0, 2), 1_024, "node 0 (Input): its bit is 1024, at most 1023");
    wrong(node(11, 2), 1, "node 11 (ComparisonOutput): its bit is 1, it must be 0");
    wrong(node(5, 2), 0, "node 5 (Constant): its bit is 0, and a Constant has no bit: the word must be 4294967295 (absent)");
    wrong(node(1, 2), 0, "node 1 (Input): its bit is 0: node 0 has the same kind, owner and bit (Input, signal 0, bit 0)");
    wrong(node(7, 4), 7, "node 7 (And): its second input is net 7, which is not below it");
    wrong(node(12, 3), 20, "node 12 (Output): its first input is net 20, which is not below it");
    wrong(node(6, 4), 0, "node 6 (Not): its second input is 0, and a Not has no second input: the word must be 4294967295 (absent)");
    wrong(node(14, 2), 1, "word 102 is 1: there are 14 nets, so node 14 is unused and its words must be 0");
}

#[test]
fn nodes_without_a_record() {
    let words = netlist(&RECORDS[..5]);
    refused(&words, node(12, 0), "node 12 (Output, signal 1, bit 0) stands in no record");
    let words = netlist(&[]);
    refused(&words, node(0, 0), "node 0 (Input, signal 0, bit 0) stands in no record");
}

#[test]
fn records_that_do_not_fit() {
    wrong(record(0, 0), 5, "record 0: its sort is 5, at most 4");
    let port = "record 5 (port of signal 1) does not fit: it has 6 words, and 5 list words are left";
    wrong_at(record(5, 0), &[(record(5, 2), 3)], port);
    // 4 + 3w is 6 modulo 2^32.
    let cell = "record 1 (arithmetic cell 0) does not fit: it has 4294967302 words, and 68 list words are left";
    wrong_at(record(1, 0), &[(record(1, 2), 1_431_655_766)], cell);
    let memory = "record 3 (memory 0) does not fit: it has at least 1054 words, and 52 list words are left";
    wrong_at(record(3, 0), &[(record(3, 6), 1_035)], memory);
    let ports = "record 3 (memory 0) does not fit: it has at least 72 words, and 52 list words are left";
    wrong_at(record(3, 0), &[(record(3, 5), A)], ports);
}

#[test]
fn words_of_ports() {
    wrong(record(0, 1), 512, "record 0 (port of signal 512): its signal is 512, at most 511");
    wrong(record(0, 2), 0, "record 0 (port of signal 0): its width is 0, it must be 1 to 1024");
    wrong(record(0, 3), 14, "record 0 (port of signal 0): bit 0 is net 14, and there are 14 nets");
    wrong(record(0, 3), 6, "record 0 (port of signal 0): bit 0 is net 6, which is a Not and no Input or Output");
    wrong(record(0, 4), 12, "record 0 (port of signal 0): bit 1 is net 12, which is an Output and no Input");
    wrong(record(5, 4), 12, "record 5 (port of signal 1): bit 1 is net 12, which has signal 1, bit 0, and must have signal 1, bit 1");
    let signal = "record 0 (port of signal 1): bit 0 is net 0, which has signal 0, bit 0, and must have signal 1, bit 0";
    wrong_at(record(0, 3), &[(record(0, 1), 1)], signal);
}

#[test]
fn nets_that_are_listed_twice() {
    let words = netlist(&[&RECORDS[..], &[RECORDS[4]]].concat());
    let register = "record 6 (register 0, bit 0): its output is net 2, which is listed a second time (first in record 4 (register 0, bit 0))";
    refused(&words, record(5, 5) + 3, register);
    let words = netlist(&[&RECORDS[..], &[RECORDS[0]]].concat());
    let port = "record 6 (port of signal 0): bit 0 is net 0, which is listed a second time (first in record 0 (port of signal 0))";
    refused(&words, record(5, 5) + 3, port);
}

#[test]
fn words_of_registers() {
    wrong(record(4, 1), 256, "record 4 (register 256, bit 0): its register is 256, at most 255");
    wrong(record(4, 2), 1_024, "record 4 (register 0, bit 1024): its bit is 1024, at most 1023");
    wrong(record(4, 3), 7, "record 4 (register 0, bit 0): its output is net 7, which is an And and no RegisterOutput");
    let bit = "record 4 (register 0, bit 1): its output is net 2, which has register 0, bit 0, and must have register 0, bit 1";
    wrong_at(record(4, 3), &[(record(4, 2), 1)], bit);
    wrong(record(4, 4), A, "record 4 (register 0, bit 0): its data is absent, it must be a net");
    wrong(record(4, 5), 14, "record 4 (register 0, bit 0): its clock is net 14, and there are 14 nets");
    wrong(record(4, 6), 2, "record 4 (register 0, bit 0): its edge is 2, at most 1");
    wrong(record(4, 7), 14, "record 4 (register 0, bit 0): its enable is net 14, and there are 14 nets");
    wrong(record(4, 8), 1, "record 4 (register 0, bit 0): its enable's level is 1, it must be 0, since the enable is absent");
    wrong(record(4, 10), 2, "record 4 (register 0, bit 0): its reset's level is 2, at most 1");
    let value = "record 4 (register 0, bit 0): its reset value is 1, it must be 0, since the reset is absent";
    wrong_at(record(4, 12), &[(record(4, 9), A)], value);
}

#[test]
fn words_of_memories() {
    wrong(record(3, 1), 16, "record 3 (memory 16): its number is 16, at most 15");
    wrong(record(3, 2), 65_537, "record 3 (memory 0): its depth is 65537, it must be 1 to 65536");
    wrong(record(3, 3), 3, "record 3 (memory 0): its style is 3, at most 2");
    wrong(record(3, 4), 2, "record 3 (memory 0): its latency is 2, it must be 1");
    for ports in [0, 3] {
        wrong(record(3, 5), ports, &format!("record 3 (memory 0): its port count is {ports}, it must be 1 to 2"));
    }
    wrong(record(3, 6), 0, "record 3 (memory 0): port 0's read address width is 0, it must be 1 to 32");
    wrong(record(3, 7), 0, "record 3 (memory 0): port 0's read data width is 0, it must be 1 to 1024");
    wrong(record(3, 9), 2, "record 3 (memory 0): port 0's write data width is 2, and port 0's read data are 1 wide");
    wrong(record(3, 21), 0, "record 3 (memory 0): port 1's read data width is 0, and port 0's read data are 1 wide");
    wrong(record(3, 10), 14, "record 3 (memory 0): bit 0 of port 0's read address is net 14, and there are 14 nets");
    wrong(record(3, 25), 3, "record 3 (memory 0): bit 0 of port 1's read data is net 3, which has memory 0, bit 0, and must have memory 0, bit 1");
    wrong(record(3, 13), A, "record 3 (memory 0): bit 0 of port 0's write data is absent, it must be a net");
    wrong(record(3, 14), 99, "record 3 (memory 0): port 0's read enable is net 99, and there are 14 nets");
    wrong(record(3, 15), 1, "record 3 (memory 0): port 0's read enable's level is 1, it must be 0, since the read enable is absent");
    wrong(record(3, 29), 2, "record 3 (memory 0): port 1's read enable's level is 2, at most 1");
    wrong(record(3, 16), A, "record 3 (memory 0): port 0's write enable is absent, it must be a net");
    wrong(record(3, 17), 2, "record 3 (memory 0): port 0's write enable's level is 2, at most 1");
    wrong(record(3, 32), A, "record 3 (memory 0): port 1's clock is absent, it must be a net");
    wrong(record(3, 33), 2, "record 3 (memory 0): port 1's edge is 2, at most 1");
}

#[test]
fn words_of_cells() {
    wrong(record(1, 1), 3, "record 1 (arithmetic cell 0): its operation is 3, at most 2");
    wrong(record(2, 1), 4, "record 2 (comparison cell 0): its operation is 4, at most 3");
    wrong(record(1, 2), 0, "record 1 (arithmetic cell 0): its width is 0, it must be 1 to 1024");
    wrong(record(1, 3), 14, "record 1 (arithmetic cell 0): its carry is net 14, and there are 14 nets");
    wrong(record(1, 4), A, "record 1 (arithmetic cell 0): bit 0 of its left operand is absent, it must be a net");
    wrong(record(1, 7), 14, "record 1 (arithmetic cell 0): bit 1 of its right operand is net 14, and there are 14 nets");
    wrong(record(1, 9), 9, "record 1 (arithmetic cell 0): output bit 1 is net 9, which has cell 0, bit 0, and must have cell 0, bit 1");
    wrong(record(2, 5), 10, "record 2 (comparison cell 0): output bit 0 is net 10, which is an ArithmeticOutput and no ComparisonOutput");
    let own = "record 1 (arithmetic cell 0): output bit 0 is net 9, and net 9, an input of the cell, is not below it";
    wrong_at(record(1, 8), &[(record(1, 6), 9)], own);
    let carry = "record 1 (arithmetic cell 0): output bit 0 is net 9, and net 10, an input of the cell, is not below it";
    wrong_at(record(1, 8), &[(record(1, 3), 10)], carry);
    let later = "record 2 (comparison cell 0): output bit 0 is net 11, and net 13, an input of the cell, is not below it";
    wrong_at(record(2, 5), &[(record(2, 4), 13)], later);
}

/// What is told where the words do not tell what is wrong.
const NOT_TOLD: &str = "which breaks a rule of docs/RULES.md, stored netlist";

#[test]
fn an_answer_that_is_not_known() {
    let words = netlist(&RECORDS);
    assert_eq!(of_netlist_in_words([12, 0, 0], &words), "refused 12 0 0: an answer that docs/RULES.md does not know\n");
    // A right word.
    assert_eq!(why(&words, 106), format!("word 106 is 0, {NOT_TOLD}"));
}

/// A number that a netlist may have: small, absent, at a border, or any.
fn number(random: &mut Random) -> u32 {
    match random.below(8) {
        0 => A,
        1 => random.next() as u32,
        2 => 16 + 6 * random.below(20) as u32,
        3 => random.pick(&[511, 512, 1_023, 1_024, 1_025, 65_535, 65_536, A / 2, A - 1]),
        _ => random.below(16) as u32,
    }
}

#[test]
fn any_words_and_any_place() {
    let mut random = Random::new(11);
    for round in 0..600 {
        let mut words: Vec<u32> = match round % 3 {
            0 => (0..random.below(200)).map(|_| number(&mut random)).collect(),
            1 => netlist(&RECORDS).into_iter().map(|word| if random.below(8) == 0 { number(&mut random) } else { word }).collect(),
            _ => [&netlist(&RECORDS)[..106], &(0..73).map(|_| number(&mut random)).collect::<Vec<_>>()].concat(),
        };
        words.truncate(if random.below(4) == 0 { random.below(200) } else { words.len() });
        let beyond = [A, A - 1, A / 2, 65_536, 500];
        for place in (0..words.len() as u32 + 2).chain(beyond) {
            assert!(!why(&words, place).is_empty());
        }
        accepted(&words);
    }
}

/// The stored runs (oracle/replay/README.md), which name every place: the library
/// answers as stored, and the place is told by a rule that the word there breaks.
#[test]
fn every_refusal_is_told() {
    const FOLDER: &str = concat!(env!("CARGO_MANIFEST_DIR"), "/../crates/netlist_runs");
    let words = words_in(&format!("{FOLDER}/stdin")).expect("the stored slices");
    let answers = std::fs::read_to_string(format!("{FOLDER}/stdout")).expect("the stored answers");
    let mut left = &words[1..];
    for line in answers.lines() {
        let (slice, behind) = left[1..].split_at(left[0] as usize);
        left = behind;
        let answer = port::netlist_check(slice);
        assert_eq!(answer.map(|number| number.to_string()).join(" "), line);
        let told = why(slice, answer[1]);
        assert!(answer == ACCEPTED || !told.contains(NOT_TOLD), "{answer:?}: {told}");
    }
    assert!(left.is_empty());
}
