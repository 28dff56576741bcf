//! Netlist images put together from their parts, right or wrong: nodes and records
//! as words, and the whole with its header.

use crate::format::ABSENT;
use crate::listing::SORTS;
use crate::netlist::{EDITION, HEADER_WORDS, NODE_WORDS};

/// A node: kind, owner or value, bit, three inputs.
pub type NodeWords = [u32; NODE_WORDS];

/// A netlist image with room for `n` nodes, up to the last list word used; the
/// counts are those of the records.
pub fn netlist<R: AsRef<[u32]>>(n: usize, nodes: &[NodeWords], records: &[R]) -> Vec<u32> {
    let records: Vec<&[u32]> = records.iter().map(AsRef::as_ref).collect();
    let list = records.concat();
    let list_offset = HEADER_WORDS + NODE_WORDS * n;
    let mut words = [EDITION, nodes.len() as u32, HEADER_WORDS as u32, list.len() as u32, list_offset as u32].to_vec();
    words.extend((0..SORTS.len() as u32).map(|sort| records.iter().filter(|record| record.first() == Some(&sort)).count() as u32));
    words.resize(HEADER_WORDS, 0);
    words.extend(nodes.as_flattened());
    words.resize(list_offset, 0);
    words.extend(list);
    words
}

/// As [`netlist`], with no more room than the nodes take.
pub fn exact(nodes: &[NodeWords], records: &[&[u32]]) -> Vec<u32> {
    netlist(nodes.len().max(1), nodes, records)
}

pub fn input(signal: u32, bit: u32) -> NodeWords {
    [0, signal, bit, ABSENT, ABSENT, ABSENT]
}

pub fn constant(value: u32) -> NodeWords {
    [1, value, ABSENT, ABSENT, ABSENT, ABSENT]
}

pub fn not(net: u32) -> NodeWords {
    [5, ABSENT, ABSENT, net, ABSENT, ABSENT]
}

pub fn register_output(register: u32, bit: u32) -> NodeWords {
    [7, register, bit, ABSENT, ABSENT, ABSENT]
}

pub fn output(signal: u32, bit: u32, net: u32) -> NodeWords {
    [8, signal, bit, net, ABSENT, ABSENT]
}

pub fn memory_output(memory: u32, bit: u32) -> NodeWords {
    [9, memory, bit, ABSENT, ABSENT, ABSENT]
}

pub fn arithmetic_output(cell: u32, bit: u32) -> NodeWords {
    [10, cell, bit, ABSENT, ABSENT, ABSENT]
}

pub fn comparison_output(cell: u32) -> NodeWords {
    [11, cell, 0, ABSENT, ABSENT, ABSENT]
}

/// A register bit with net 0 as clock and data, without controls.
pub fn register(register: u32, bit: u32, output: u32) -> [u32; 13] {
    [1, register, bit, output, 0, 0, 0, ABSENT, 0, ABSENT, 0, 0, 0]
}

/// A memory of one port and one bit, all its nets 0 but the read data.
pub fn memory(memory: u32, depth: u32, read_data: u32) -> [u32; 20] {
    [2, memory, depth, 0, 1, 1, 1, 1, 1, 1, 0, read_data, 0, 0, ABSENT, 0, 0, 0, 0, 0]
}
