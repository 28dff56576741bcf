//! Refusal 11 rule by rule: each border on both sides, and for each open point of
//! the request the smallest netlist on which two readings differ.

use image::every_kind;
use image::netlist_parts::{
    arithmetic_output, comparison_output, constant, exact, input, memory, memory_output, netlist, not, output, register, register_output,
};
use reference::{netlist_answer, netlist_node, netlist_record, FINE};

const A: u32 = u32::MAX;

fn accepted(words: &[u32]) {
    assert_eq!(netlist_answer(words), FINE, "{words:?}");
}

fn wrong(words: &[u32], place: usize) {
    assert_eq!(netlist_answer(words), [11, place as u32, 0], "{words:?}");
}

/// A copy with other words.
fn with(words: &[u32], changes: &[(usize, u32)]) -> Vec<u32> {
    let mut words = words.to_vec();
    changes.iter().for_each(|&(at, value)| words[at] = value);
    words
}

/// Each value of `right` at a word is accepted, each of `refused` is wrong there.
fn border(words: &[u32], at: usize, right: &[u32], refused: &[u32]) {
    right.iter().for_each(|&value| accepted(&with(words, &[(at, value)])));
    refused.iter().for_each(|&value| wrong(&with(words, &[(at, value)]), at));
}

// ---- a netlist with every kind and every sort ----

/// Where the records of [`whole`] begin.
const PORT: usize = 16 + 6 * 16;
const REGISTER: usize = PORT + 5;
const MEMORY: usize = REGISTER + 13;
const ARITHMETIC: usize = MEMORY + 6 + 14 + 15;
const COMPARISON: usize = ARITHMETIC + 10;
const LAST: usize = COMPARISON + 6;
const END: usize = LAST + 4;

/// 15 nets, room for 16.
fn whole() -> Vec<u32> {
    let (nodes, records) = every_kind();
    netlist(16, &nodes, &records)
}

fn node(net: usize) -> usize {
    16 + 6 * net
}

#[test]
fn the_whole_is_accepted() {
    accepted(&whole());
    assert_eq!(whole().len(), END);
}

#[test]
fn header_words() {
    let whole = whole();
    border(&whole, 0, &[1], &[0, 2, A]);
    border(&whole, 1, &[], &[65_536, A]);
    border(&whole, 2, &[16], &[0, 15, 17, A]);
    border(&whole, 3, &[], &[65_536, A]);
    border(&whole, 4, &[112], &[0, 4, 15, 16, 22, 111, 113, A]);
    (10..16).for_each(|word| border(&whole, word, &[0], &[1, A]));
    (5..10).for_each(|word| border(&whole, word, &[whole[word]], &[whole[word] + 1, whole[word].wrapping_sub(1), A]));
}

/// N from 1 to 65,535, and the net count at most N.
#[test]
fn net_limits() {
    for n in [1, 2, 65_535] {
        let words = netlist::<[u32; 0]>(n, &[constant(1)], &[]);
        accepted(&words);
        wrong(&with(&words, &[(4, words[4] + 1)]), 4);
    }
    wrong(&netlist::<[u32; 0]>(65_536, &[constant(1)], &[]), 4);
    wrong(&[1, 0, 16, 0, 16, 0, 0, 0, 0, 0, 0, 0, 0, 0, 0, 0], 4);
    accepted(&exact(&vec![constant(1); 65_535], &[]));
    wrong(&exact(&vec![constant(1); 65_536], &[]), 1);
}

/// Most list words: 65,535, here register bits and a port.
#[test]
fn list_words_used() {
    let list = |width: u32| {
        let mut nodes: Vec<[u32; 6]> = (0..5_040).map(|number| register_output(number / 1_024, number % 1_024)).collect();
        let mut records: Vec<Vec<u32>> =
            (0..5_040).map(|number| register(number / 1_024, number % 1_024, number).to_vec()).collect();
        nodes.extend((0..width).map(|bit| input(0, bit)));
        records.push([0, 0, width].into_iter().chain(5_040..5_040 + width).collect());
        netlist(nodes.len(), &nodes, &records)
    };
    let words = list(12);
    assert_eq!(words[3], 65_535);
    accepted(&words);
    wrong(&list(13), 3);
    let words = exact(&[], &[]);
    wrong(&with(&words, &[(3, 65_535)]), words.len());
    wrong(&with(&words, &[(3, 65_536)]), 3);
}

#[test]
fn node_kinds_and_unused_words() {
    let whole = whole();
    for net in 0..15 {
        border(&whole, node(net), &[], &[12, A]);
        for unused in [0, 1, 2, 3, 4, 5] {
            let at = node(net) + unused;
            if whole[at] == A {
                border(&whole, at, &[A], &[0, 1, A - 1]);
            }
        }
    }
    (node(15)..PORT).for_each(|word| border(&whole, word, &[0], &[1, A]));
}

/// Inputs: lower nets, all of them there.
#[test]
fn node_inputs() {
    let whole = whole();
    for (net, inputs) in [(3, 2), (4, 2), (5, 2), (6, 1), (7, 3), (14, 1)] {
        for word in node(net) + 3..node(net) + 3 + inputs {
            border(&whole, word, &[0, net as u32 - 1], &[net as u32, net as u32 + 1, 15, A]);
        }
    }
    wrong(&exact(&[not(0)], &[]), 19);
}

#[test]
fn owners_and_bits() {
    let one = |node: [u32; 6], record: &[u32]| exact(&[constant(0), node], &[record]);
    accepted(&one(input(511, 0), &[0, 511, 1, 1]));
    wrong(&one(input(512, 0), &[0, 512, 1, 1]), 23);
    accepted(&one(output(511, 0, 0), &[0, 511, 1, 1]));
    wrong(&one(output(512, 0, 0), &[0, 512, 1, 1]), 23);
    accepted(&one(register_output(255, 1_023), &register(255, 1_023, 1)));
    wrong(&one(register_output(256, 0), &register(256, 0, 1)), 23);
    wrong(&one(register_output(0, 1_024), &register(0, 1_024, 1)), 24);
    accepted(&one(memory_output(15, 0), &memory(15, 1, 1)));
    wrong(&one(memory_output(16, 0), &memory(16, 1, 1)), 23);
    wrong(&exact(&[input(0, 1_024)], &[]), 18);
    wrong(&exact(&[input(0, 1_023)], &[]), 16);
    wrong(&exact(&[constant(0), output(0, 1_024, 0)], &[]), 24);
    wrong(&exact(&[constant(0), output(0, 1_023, 0)], &[]), 22);
    wrong(&exact(&[memory_output(0, 2_048)], &[]), 18);
    wrong(&exact(&[memory_output(0, 2_047)], &[]), 16);
    wrong(&exact(&[arithmetic_output(0, 1_024)], &[]), 18);
    wrong(&exact(&[arithmetic_output(0, 1_023)], &[]), 16);
    wrong(&exact(&[[11, 0, 1, A, A, A]], &[]), 18);
    border(&exact(&[constant(0)], &[]), 17, &[0, 1], &[2, A]);
}

#[test]
fn ports() {
    let whole = whole();
    border(&whole, PORT + 1, &[0], &[512, A]);
    border(&whole, PORT + 2, &[2], &[0]);
    border(&whole, PORT + 3, &[0], &[1, 2, 8, 14, 15, A]);
    border(&whole, PORT + 4, &[1], &[0, 2, 14, 15, A]);
    border(&whole, LAST + 3, &[14], &[0, 13, 15, A]);
    wrong(&with(&whole, &[(PORT + 1, 1)]), PORT + 3);
}

/// Widths up to 1,024; one more is wrong where the record fits.
#[test]
fn port_widths() {
    let port = |width: u32| {
        let nodes: Vec<[u32; 6]> = (0..width.min(1_024)).map(|bit| input(0, bit)).collect();
        let record: Vec<u32> = [0, 0, width].into_iter().chain(0..width).collect();
        exact(&nodes, &[&record])
    };
    accepted(&port(1_024));
    let words = port(1_025);
    wrong(&words, words[4] as usize + 2);
}

#[test]
fn registers() {
    let whole = whole();
    let at = |word: usize| REGISTER + word;
    border(&whole, at(1), &[0], &[256, A]);
    border(&whole, at(2), &[0], &[1_024, A]);
    border(&whole, at(3), &[8], &[0, 7, 9, 15, A]);
    [4, 5].into_iter().for_each(|word| border(&whole, at(word), &[0, 8, 14], &[15, A]));
    border(&whole, at(6), &[0, 1], &[2, A]);
    border(&whole, at(7), &[0, 14, A], &[15, A - 1]);
    border(&whole, at(8), &[0, 1], &[2, A]);
    border(&whole, at(9), &[0, 14], &[15, A - 1]);
    [10, 11, 12].into_iter().for_each(|word| border(&whole, at(word), &[0, 1], &[2, A]));
    wrong(&with(&whole, &[(at(1), 1)]), at(3));
    wrong(&with(&whole, &[(at(2), 1)]), at(3));
}

/// Each control has its own words, and the edge none.
#[test]
fn one_control_absent() {
    let reset_alone = with(&whole(), &[(REGISTER + 7, A)]);
    border(&reset_alone, REGISTER + 8, &[0], &[1]);
    [10, 11, 12].into_iter().for_each(|word| border(&reset_alone, REGISTER + word, &[0, 1], &[2]));
    let enable_alone = with(&whole(), &[(REGISTER + 9, A), (REGISTER + 10, 0), (REGISTER + 11, 0), (REGISTER + 12, 0)]);
    border(&enable_alone, REGISTER + 8, &[0, 1], &[2]);
    let neither = exact(&[register_output(0, 0)], &[&register(0, 0, 0)]);
    border(&neither, 22 + 6, &[0, 1], &[2]);
}

/// An absent control's words are 0.
#[test]
fn absent_controls() {
    let whole = with(&whole(), &[(REGISTER + 7, A), (REGISTER + 9, A), (REGISTER + 10, 0), (REGISTER + 11, 0), (REGISTER + 12, 0)]);
    [8, 10, 11, 12].into_iter().for_each(|word| border(&whole, REGISTER + word, &[0], &[1, A]));
    let read_enable = MEMORY + 6 + 8;
    border(&whole, read_enable, &[A, 0, 14], &[15, A - 1]);
    border(&whole, read_enable + 1, &[0], &[1, A]);
}

#[test]
fn memories() {
    let whole = whole();
    let at = |word: usize| MEMORY + word;
    border(&whole, at(1), &[0], &[16, A]);
    border(&whole, at(2), &[1, 2, 65_536], &[0, 65_537, A]);
    border(&whole, at(3), &[0, 1, 2], &[3, A]);
    border(&whole, at(4), &[1], &[0, 2, A]);
    border(&whole, at(5), &[2], &[0]);
    wrong(&with(&whole, &[(at(1), 1)]), at(11));
    // The first port: widths, lists, controls, clock, edge.
    (6..10).for_each(|word| border(&whole, at(word), &[1], &[0]));
    border(&whole, at(10), &[0, 14], &[15, A]);
    border(&whole, at(11), &[9], &[8, 10, 15, A]);
    [12, 13].into_iter().for_each(|word| border(&whole, at(word), &[0, 14], &[15, A]));
    border(&whole, at(14), &[A, 0], &[15]);
    border(&whole, at(16), &[0, 14], &[15, A]);
    border(&whole, at(17), &[0, 1], &[2, A]);
    border(&whole, at(18), &[0, 14], &[15, A]);
    border(&whole, at(19), &[0, 1], &[2, A]);
    // The second.
    border(&whole, at(20), &[2], &[0]);
    border(&whole, at(26), &[10], &[9, 11, 15, A]);
    border(&whole, at(29), &[4, 14], &[15]);
    border(&whole, at(30), &[1, 0], &[2, A]);
    border(&whole, at(34), &[0, 1], &[2, A]);
}

/// Addresses of 1 to 32 bits, words of 1 to 1,024 that agree.
#[test]
fn memory_widths() {
    let memory = |read_address: u32, read_data: u32, write_address: u32, write_data: u32| {
        let nodes: Vec<[u32; 6]> = (0..read_data.min(1_024)).map(|bit| memory_output(0, bit)).collect();
        let mut record = vec![2, 0, 1, 0, 1, 1, read_address, read_data, write_address, write_data];
        record.extend((0..read_address).map(|_| 0));
        record.extend(0..read_data);
        record.extend((0..write_address + write_data).map(|_| 0));
        record.extend([A, 0, 0, 0, 0, 0]);
        exact(&nodes, &[&record])
    };
    let wrong_width = |words: Vec<u32>, word: usize| wrong(&words, words[4] as usize + 6 + word);
    accepted(&memory(32, 1_024, 1, 1_024));
    accepted(&memory(1, 1, 32, 1));
    wrong_width(memory(33, 1, 1, 1), 0);
    wrong_width(memory(1, 1_025, 1, 1_025), 1);
    wrong_width(memory(1, 1, 33, 1), 2);
    wrong_width(memory(1, 2, 1, 1), 3);
    wrong_width(memory(1, 1, 1, 2), 3);
}

#[test]
fn arithmetic_cells() {
    let whole = whole();
    let at = |word: usize| ARITHMETIC + word;
    border(&whole, at(1), &[0, 1, 2], &[3, A]);
    border(&whole, at(2), &[2], &[0]);
    border(&whole, at(3), &[0, 10, A], &[15, A - 1]);
    (4..8).for_each(|word| border(&whole, at(word), &[0, 10], &[15, A]));
    border(&whole, at(8), &[11], &[0, 10, 12, 13, 15, A]);
    border(&whole, at(9), &[12], &[0, 11, 13, 15, A]);
}

#[test]
fn comparison_cells() {
    let whole = whole();
    let at = |word: usize| COMPARISON + word;
    border(&whole, at(1), &[0, 1, 2, 3], &[4, A]);
    border(&whole, at(2), &[1], &[0]);
    [3, 4].into_iter().for_each(|word| border(&whole, at(word), &[0, 12], &[15, A]));
    border(&whole, at(5), &[13], &[0, 12, 14, 15, A]);
}

/// Wide cells: 1,024 bits are right, one more is wrong at the width.
#[test]
fn cell_widths() {
    let arithmetic = |width: u32| {
        let nodes: Vec<[u32; 6]> = std::iter::once(constant(0)).chain((0..width.min(1_024)).map(|bit| arithmetic_output(0, bit))).collect();
        let mut record = vec![3, 0, width, A];
        record.extend((0..2 * width).map(|_| 0));
        record.extend(1..=width);
        exact(&nodes, &[&record])
    };
    accepted(&arithmetic(1_024));
    let words = arithmetic(1_025);
    wrong(&words, words[4] as usize + 2);
    let comparison = |width: u32| {
        let mut record = vec![4, 0, width];
        record.extend((0..2 * width).map(|_| 0));
        record.push(1);
        exact(&[constant(0), comparison_output(0)], &[&record])
    };
    accepted(&comparison(1_024));
    wrong(&comparison(1_025), 28 + 2);
}

#[test]
fn sorts_and_records_that_do_not_fit() {
    let whole = whole();
    border(&whole, LAST, &[0], &[1, 2, 3, 4, 5, A]);
    // One word less than each record has.
    for (start, end) in [(PORT, REGISTER), (REGISTER, MEMORY), (MEMORY, ARITHMETIC), (ARITHMETIC, COMPARISON), (COMPARISON, LAST)] {
        let cut = with(&whole[..end - 1], &[(3, (end - 1 - PORT) as u32)]);
        wrong(&cut, start);
        let single = with(&whole[..start + 1], &[(3, (start + 1 - PORT) as u32)]);
        wrong(&single, start);
    }
}

// ---- one node, one record; the order of what is judged ----

/// A1: the word that lists a node of another owner or bit, not the record's.
#[test]
fn another_owner_is_wrong_where_it_is_listed() {
    wrong(&exact(&[input(0, 0)], &[&[0, 1, 1, 0]]), 25);
    wrong(&exact(&[input(0, 1)], &[&[0, 0, 1, 0]]), 25);
    wrong(&exact(&[register_output(0, 0)], &[&register(1, 0, 0)]), 25);
    wrong(&exact(&[register_output(0, 0)], &[&register(0, 1, 0)]), 25);
    wrong(&exact(&[memory_output(0, 0)], &[&memory(1, 1, 0)]), 22 + 11);
    wrong(&exact(&[constant(0), comparison_output(1)], &[&[4, 0, 1, 0, 0, 1]]), 28 + 5);
}

/// A2: a node of another kind, at the listing; a port of both kinds at the first
/// net that differs from the one before it.
#[test]
fn another_kind_is_wrong_where_it_is_listed() {
    wrong(&exact(&[constant(0), not(0)], &[&register(0, 0, 1)]), 28 + 3);
    wrong(&exact(&[register_output(0, 0)], &[&[0, 0, 1, 0]]), 25);
    wrong(&exact(&[input(0, 0), output(0, 1, 0)], &[&[0, 0, 2, 0, 1]]), 28 + 4);
    wrong(&exact(&[constant(0), output(0, 0, 0), input(0, 1)], &[&[0, 0, 2, 1, 2]]), 34 + 4);
    let nodes = [input(0, 0), input(0, 1), output(0, 2, 0), input(0, 3)];
    wrong(&exact(&nodes, &[&[0, 0, 4, 0, 1, 2, 3]]), 40 + 5);
}

/// A3: a node in two records is wrong in the later.
#[test]
fn a_node_in_two_records() {
    wrong(&exact(&[input(0, 0)], &[&[0, 0, 1, 0], &[0, 0, 1, 0]]), 29);
    wrong(&exact(&[register_output(0, 0)], &[&register(0, 0, 0), &register(0, 0, 0)]), 22 + 13 + 3);
    let cell: &[u32] = &[4, 0, 1, 0, 0, 1];
    wrong(&exact(&[constant(0), comparison_output(0)], &[cell, cell]), 28 + 6 + 5);
    wrong(&exact(&[memory_output(0, 0)], &[&memory(0, 1, 0), &memory(0, 1, 0)]), 22 + 20 + 11);
}

/// A4: two nodes of one kind, owner and bit: the later one's bit, before any
/// record. Gates and constants may repeat.
#[test]
fn equal_nodes() {
    wrong(&exact(&[input(0, 0), input(0, 0)], &[&[0, 0, 1, 0]]), 24);
    wrong(&exact(&[constant(0), output(0, 0, 0), output(0, 0, 0)], &[&[0, 0, 1, 1]]), 30);
    wrong(&exact(&[register_output(0, 0), register_output(0, 0)], &[&register(0, 0, 1)]), 24);
    wrong(&exact(&[memory_output(0, 0), memory_output(0, 0)], &[&memory(0, 1, 1)]), 24);
    wrong(&exact(&[constant(0), comparison_output(0), comparison_output(0)], &[&[4, 0, 1, 0, 0, 1]]), 30);
    wrong(&exact(&[constant(0), arithmetic_output(0, 0), arithmetic_output(0, 0)], &[&[3, 0, 1, A, 0, 0, 1]]), 30);
    accepted(&exact(&[constant(0), constant(0), not(0), not(0), [2, A, A, 0, 0, A], [2, A, A, 0, 0, A]], &[]));
    // Another kind, owner or bit is another node.
    accepted(&exact(&[input(0, 0), register_output(0, 0), input(1, 0), register_output(0, 1)], &[
        &[0, 0, 1, 0],
        &[0, 1, 1, 2],
        &register(0, 0, 1),
        &register(0, 1, 3),
    ]));
}

/// A5: a cell input that is not lower is wrong at the output; a gate's at the
/// input.
#[test]
fn cell_inputs_are_lower() {
    wrong(&exact(&[comparison_output(0)], &[&[4, 0, 1, 0, 0, 0]]), 27);
    wrong(&exact(&[comparison_output(0), constant(0)], &[&[4, 0, 1, 1, 1, 0]]), 28 + 5);
    accepted(&exact(&[constant(0), comparison_output(0)], &[&[4, 0, 1, 0, 0, 1]]));
    wrong(&exact(&[constant(0), arithmetic_output(0, 0)], &[&[3, 0, 1, A, 1, 0, 1]]), 28 + 6);
    wrong(&exact(&[constant(0), arithmetic_output(0, 0)], &[&[3, 0, 1, A, 0, 1, 1]]), 28 + 6);
    wrong(&exact(&[constant(0), arithmetic_output(0, 0)], &[&[3, 0, 1, 1, 0, 0, 1]]), 28 + 6);
    wrong(&exact(&[not(0)], &[]), 19);
    wrong(&exact(&[output(0, 0, 0)], &[&[0, 0, 1, 0]]), 19);
}

/// A6: lower than every output; the first output that is not above all inputs.
#[test]
fn every_output_is_above_all_inputs() {
    let nodes = [constant(0), arithmetic_output(0, 1), arithmetic_output(0, 0)];
    accepted(&exact(&nodes, &[&[3, 0, 2, A, 0, 0, 0, 0, 2, 1]]));
    wrong(&exact(&nodes, &[&[3, 0, 2, A, 1, 0, 0, 0, 2, 1]]), 34 + 9);
    wrong(&exact(&nodes, &[&[3, 0, 2, A, 2, 0, 0, 0, 2, 1]]), 34 + 8);
    wrong(&exact(&nodes, &[&[3, 0, 2, 1, 0, 0, 0, 0, 2, 1]]), 34 + 9);
}

/// A7: a record that does not fit is wrong at its first word, not at its width;
/// lengths need more than 32 bits.
#[test]
fn a_width_out_of_range_that_does_not_fit() {
    wrong(&exact(&[input(0, 0)], &[&[0, 0, 1_025, 0]]), 22);
    wrong(&exact(&[input(0, 0)], &[&[0, 0, 0]]), 24);
    wrong(&exact(&[input(0, 0)], &[&[0, 0, A, 0]]), 22);
    // 4 + 3 × 1,431,655,766 is 6 modulo 2^32.
    wrong(&exact(&[input(0, 0)], &[&[3, 0, 1_431_655_766, A, 0, 0]]), 22);
    // 4 + 2 × 2^31 is 4.
    wrong(&exact(&[input(0, 0)], &[&[4, 0, 1 << 31, 0]]), 22);
    // 3 + 2^32 - 3 is 0.
    wrong(&exact(&[input(0, 0)], &[&[0, 0, A - 2]]), 22);
    // A signal out of range stands before the width, but not before the first word.
    wrong(&exact(&[input(0, 0)], &[&[0, 512, 1_025, 0]]), 22);
    let mut memory = memory(0, 1, 0);
    memory[6] = A - 8;
    memory[7] = 9;
    wrong(&exact(&[memory_output(0, 0)], &[&memory]), 22);
}

/// A8: a memory is as long as its port count says, whatever the count.
#[test]
fn port_counts() {
    let mut three = memory(0, 1, 0).to_vec();
    let port = three[6..].to_vec();
    three[5] = 3;
    wrong(&exact(&[memory_output(0, 0)], &[&three]), 22);
    three.extend([&port[..], &port].concat());
    wrong(&exact(&[memory_output(0, 0)], &[&three]), 22 + 5);
    wrong(&exact(&[memory_output(0, 0)], &[&three[..three.len() - 1]]), 22);
    wrong(&exact(&[memory_output(0, 0)], &[&with(&three, &[(1, 16)])]), 22 + 1);
    wrong(&exact(&[memory_output(0, 0)], &[&with(&three, &[(5, A)])]), 22);
    // None: six words. Two, with words for one alone.
    wrong(&exact(&[memory_output(0, 0)], &[&[2, 0, 1, 0, 1, 0]]), 22 + 5);
    wrong(&exact(&[memory_output(0, 0)], &[&with(&memory(0, 1, 0), &[(5, 0)])]), 22 + 5);
    wrong(&exact(&[memory_output(0, 0)], &[&with(&memory(0, 1, 0), &[(5, 2)])]), 22);
}

/// A9: fits into the list words used, though the slice has more.
#[test]
fn fits_into_the_list_words_used() {
    let words = exact(&[input(0, 0)], &[&[0, 0, 1, 0]]);
    wrong(&with(&words, &[(3, 3)]), 22);
    wrong(&with(&words, &[(22, 5)]), 22);
    wrong(&with(&words, &[(22, A)]), 22);
}

/// A10, A11: the length is judged after the header words that are there, before
/// any node; its place is the number of words.
#[test]
fn slices_that_end_too_early() {
    wrong(&[], 0);
    wrong(&[1], 1);
    wrong(&[2], 0);
    let words = exact(&[input(0, 0)], &[&[0, 0, 1, 0]]);
    for length in 0..words.len() {
        wrong(&words[..length], length);
    }
    accepted(&words);
    for (word, value) in [(0, 2), (1, 65_536), (2, 17), (3, 65_536), (4, 23), (4, 16), (10, 1), (15, 1)] {
        let changed = with(&words, &[(word, value)]);
        wrong(&changed[..word], word);
        for length in word + 1..=words.len() {
            wrong(&changed[..length], word);
        }
    }
    // Word 4 with word 1.
    wrong(&[1, 2, 16, 0, 22], 4);
    wrong(&[1, 1, 16, 0, 22], 5);
    // A wrong node, counts that are wrong: after the length.
    wrong(&with(&words, &[(16, 12)])[..22], 22);
    wrong(&with(&words, &[(5, 9)])[..12], 12);
    wrong(&with(&words, &[(5, 9)]), 5);
}

/// A12: more nets than N is wrong at word 4, more than 65,535 at word 1.
#[test]
fn nets_above_the_limit() {
    let words = exact(&[input(0, 0)], &[&[0, 0, 1, 0]]);
    wrong(&with(&words, &[(1, 2)]), 4);
    wrong(&with(&words, &[(1, 65_535)]), 4);
    wrong(&with(&words, &[(1, 65_536)]), 1);
    wrong(&with(&words, &[(1, 65_536), (4, 16 + 6 * 65_536)]), 1);
    wrong(&with(&words, &[(1, 65_535), (4, 16 + 6 * 65_535)]), words.len());
}

/// A13: a wrong list word, even the last, comes before a node that is left.
#[test]
fn nodes_left_without_a_record() {
    let nodes = [input(0, 0), input(1, 0), input(2, 0)];
    let words = exact(&nodes, &[&[0, 1, 1, 1]]);
    wrong(&words, 16);
    wrong(&exact(&nodes, &[&[0, 0, 1, 0], &[0, 1, 1, 1]]), 28);
    wrong(&exact(&nodes, &[&[0, 1, 1, 2]]), 37);
    wrong(&with(&words, &[(5, 7)]), 16);
    for node in [register_output(0, 0), memory_output(0, 0), arithmetic_output(0, 0), comparison_output(0)] {
        wrong(&exact(&[node], &[]), 16);
    }
    wrong(&exact(&[constant(0), output(0, 0, 0)], &[]), 22);
}

/// A14: counts last, the lowest of them.
#[test]
fn counts_come_last() {
    let whole = whole();
    wrong(&with(&whole, &[(6, 0), (9, 0)]), 6);
    wrong(&with(&whole, &[(5, 0), (LAST + 3, 13)]), LAST + 3);
    wrong(&with(&whole, &[(5, 0), (node(15), 1)]), node(15));
}

/// A15: a data width that differs is wrong at itself, also where the first port's
/// read data is the odd one out.
#[test]
fn data_widths_agree_with_the_first() {
    let port = |read: u32, written: u32, from: u32| {
        let mut words = vec![1, read, 1, written, 0];
        words.extend(from..from + read);
        words.push(0);
        words.extend((0..written).map(|_| 0));
        words.extend([A, 0, 0, 0, 0, 0]);
        words
    };
    let memory = |first: (u32, u32), second: (u32, u32)| {
        let nodes: Vec<[u32; 6]> = (0..first.0 + second.0).map(|bit| memory_output(0, bit)).collect();
        let record = [vec![2, 0, 1, 0, 1, 2], port(first.0, first.1, 0), port(second.0, second.1, first.0)].concat();
        (16 + 6 * nodes.len(), exact(&nodes, &[&record]))
    };
    accepted(&memory((2, 2), (2, 2)).1);
    for (first, second, word) in [((2, 1), (1, 1), 9), ((2, 2), (1, 2), 21 + 2), ((2, 2), (2, 1), 23 + 2), ((2, 2), (1, 1), 21 + 2)] {
        let (list, words) = memory(first, second);
        wrong(&words, list + word);
    }
}

/// A17: a carry with any operation.
#[test]
fn carries() {
    for operation in [0, 1, 2] {
        accepted(&exact(&[constant(0), arithmetic_output(0, 0)], &[&[3, operation, 1, 0, 0, 0, 1]]));
    }
}

/// A18: one signal as input and as output port.
#[test]
fn a_signal_in_both_directions() {
    accepted(&exact(&[input(0, 0), output(0, 0, 0)], &[&[0, 0, 1, 0], &[0, 0, 1, 1]]));
}

/// A19: a cell's number has no range; it is its place among the records of its sort.
#[test]
fn cell_numbers() {
    wrong(&exact(&[arithmetic_output(5, 0)], &[]), 16);
    wrong(&exact(&[arithmetic_output(A, 0)], &[]), 16);
    wrong(&exact(&[comparison_output(A)], &[]), 16);
    let nodes = [constant(0), comparison_output(1), comparison_output(0), arithmetic_output(0, 0)];
    let first: &[u32] = &[4, 0, 1, 0, 0, 2];
    let second: &[u32] = &[4, 0, 1, 0, 0, 1];
    let sum: &[u32] = &[3, 0, 1, A, 0, 0, 3];
    accepted(&exact(&nodes, &[first, sum, second]));
    wrong(&exact(&nodes, &[second, sum, first]), 40 + 5);
}

/// A20: a second memory port's bits number on, up to 2,047.
#[test]
fn second_port_bits() {
    let width = 1_024;
    let nodes: Vec<[u32; 6]> = (0..2 * width).map(|bit| memory_output(3, bit)).collect();
    let port = |from: u32| {
        let lists = [vec![1, width, 1, width, 0], (from..from + width).collect(), vec![0; 1 + width as usize]];
        [lists.concat(), vec![A, 0, 0, 0, 0, 0]].concat()
    };
    let record = [vec![2, 3, 1, 0, 1, 2], port(0), port(width)].concat();
    accepted(&exact(&nodes, &[&record]));
}

/// A21: no sum of widths is asked for.
#[test]
fn width_sums() {
    let nodes: Vec<[u32; 6]> = (0..5 * 1_024).map(|net| input(net / 1_024, net % 1_024)).collect();
    let ports: Vec<Vec<u32>> =
        (0..5).map(|signal| [0, signal, 1_024].into_iter().chain(1_024 * signal..1_024 * (signal + 1)).collect()).collect();
    let ports: Vec<&[u32]> = ports.iter().map(Vec::as_slice).collect();
    accepted(&exact(&nodes, &ports));
}

/// A22: registers and memories read any net, later ones and their own output too.
#[test]
fn state_reads_any_net() {
    let mut own = register(0, 0, 0);
    own[4] = 0;
    own[5] = 1;
    own[7] = 1;
    own[9] = 0;
    accepted(&exact(&[register_output(0, 0), constant(0)], &[&own]));
    let record = with(&memory(0, 1, 0), &[(10, 1), (12, 1), (13, 0), (14, 1), (16, 0), (18, 1)]);
    accepted(&exact(&[memory_output(0, 0), constant(0)], &[&record]));
}

/// A23: output nodes are read like any other.
#[test]
fn output_nodes_are_read() {
    let nodes = [constant(0), output(0, 0, 0), not(1), output(1, 0, 1), comparison_output(0)];
    accepted(&exact(&nodes, &[&[0, 0, 1, 1], &[0, 1, 1, 3], &[4, 0, 1, 1, 3, 4]]));
}

/// A24: gaps, orders, equal cells, equal inputs, depths beyond the address.
#[test]
fn what_no_rule_names() {
    accepted(&exact(&[register_output(7, 1)], &[&register(7, 1, 0)]));
    accepted(&exact(&[register_output(0, 0), register_output(0, 1)], &[&register(0, 1, 1), &register(0, 0, 0)]));
    accepted(&exact(&[memory_output(9, 0)], &[&memory(9, 65_536, 0)]));
    let nodes = [constant(0), comparison_output(0), comparison_output(1), [2, A, A, 0, 0, A], [3, A, A, 3, 0, A]];
    accepted(&exact(&nodes, &[&[4, 0, 1, 0, 0, 1], &[4, 0, 1, 0, 0, 2]]));
}

/// A25: output k of a cell has bit k; nets need not rise or be neighbours.
#[test]
fn output_orders() {
    let nodes = [constant(0), arithmetic_output(0, 1), constant(1), arithmetic_output(0, 0)];
    accepted(&exact(&nodes, &[&[3, 0, 2, A, 0, 0, 0, 0, 3, 1]]));
    wrong(&exact(&nodes, &[&[3, 0, 2, A, 0, 0, 0, 0, 1, 3]]), 40 + 8);
    accepted(&exact(&[input(0, 1), input(0, 0)], &[&[0, 0, 2, 1, 0]]));
}

/// A26: a constant's bit is absent, a gate's owner and bit too.
#[test]
fn unused_is_absent() {
    border(&exact(&[constant(0)], &[]), 18, &[A], &[0, 1]);
    border(&exact(&[constant(0), not(0)], &[]), 23, &[A], &[0]);
    border(&exact(&[constant(0), not(0)], &[]), 24, &[A], &[0]);
}

/// A27: unused node words are 0, unused list words not read.
#[test]
fn unused_words() {
    let words = netlist::<[u32; 0]>(2, &[constant(0)], &[]);
    (22..28).for_each(|word| border(&words, word, &[0], &[1, A]));
    accepted(&[words.clone(), vec![7, A, 0]].concat());
    wrong(&with(&words, &[(22, A), (23, A)]), 22);
}

/// A28, A29: edition 1; the place is the word's number in the slice, then 0.
#[test]
fn editions_and_places() {
    assert_eq!(netlist_answer(&with(&whole(), &[(0, 2)])), [11, 0, 0]);
    assert_eq!(netlist_answer(&with(&whole(), &[(LAST + 3, A)])), [11, LAST as u32 + 3, 0]);
}

/// No nets, no records.
#[test]
fn nothing_is_accepted() {
    accepted(&netlist::<[u32; 0]>(1, &[], &[]));
    wrong(&netlist(1, &[], &[&[0, 0, 1, 0]]), 25);
}

// ---- one by one ----

#[test]
fn nodes_one_by_one() {
    let whole = whole();
    assert_eq!(netlist_node(&whole, 0), Some(input(0, 0)));
    assert_eq!(netlist_node(&whole, 7), Some([6, A, A, 0, 1, 6]));
    assert_eq!(netlist_node(&whole, 14), Some(output(1, 0, 13)));
    [15, 16, A].into_iter().for_each(|net| assert_eq!(netlist_node(&whole, net), None));
    // Words past the end are 0, for any net count.
    assert_eq!(netlist_node(&[1, A, 16], 0), Some([0; 6]));
    assert_eq!(netlist_node(&[1, A, 16], A - 1), Some([0; 6]));
    assert_eq!(netlist_node(&[1, A, 16], A), None);
    assert_eq!(netlist_node(&whole[..18], 0), Some([0, 0, 0, 0, 0, 0]));
    assert_eq!(netlist_node(&whole[..20], 0), Some([0, 0, 0, A, 0, 0]));
    assert_eq!(netlist_node(&[1], 0), None);
    // The offset is word 2, whatever it is: a node further on, the header itself, past the end.
    assert_eq!(netlist_node(&with(&whole, &[(2, 16 + 6 * 7)]), 0), Some([6, A, A, 0, 1, 6]));
    assert_eq!(netlist_node(&[9, 2, 0, 7, 8, 5], 0), Some([9, 2, 0, 7, 8, 5]));
    assert_eq!(netlist_node(&[9, 2, 3, 7, 8, 5], 0), Some([7, 8, 5, 0, 0, 0]));
    assert_eq!(netlist_node(&[9, 2], 0), Some([9, 2, 0, 0, 0, 0]));
    assert_eq!(netlist_node(&with(&whole, &[(2, A)]), 0), Some([0; 6]));
    assert_eq!(netlist_node(&with(&whole, &[(1, A), (2, A)]), A - 1), Some([0; 6]));
}

#[test]
fn records_one_by_one() {
    let whole = whole();
    let starts = [PORT, REGISTER, MEMORY, ARITHMETIC, COMPARISON, LAST, END].map(|at| (at - PORT) as u32);
    for (sort, pair) in [0, 1, 2, 3, 4, 0].into_iter().zip(starts.windows(2)) {
        assert_eq!(netlist_record(&whole, pair[0]), Some([sort, pair[1] - pair[0], pair[1]]));
    }
    [starts[6], starts[6] + 1, A].into_iter().for_each(|at| assert_eq!(netlist_record(&whole, at), None));
    // Into the list words used, and into the slice.
    assert_eq!(netlist_record(&with(&whole, &[(3, starts[6] - 1)]), starts[5]), None);
    assert_eq!(netlist_record(&whole[..END - 1], starts[5]), None);
    assert_eq!(netlist_record(&whole[..LAST], starts[5]), None);
    assert_eq!(netlist_record(&whole[..LAST], starts[4]), Some([4, 6, starts[5]]));
    // No sort, no list, an offset past the end.
    assert_eq!(netlist_record(&with(&whole, &[(LAST, 5)]), starts[5]), None);
    assert_eq!(netlist_record(&[1, 0, 16, 1], 0), None);
    assert_eq!(netlist_record(&with(&whole, &[(4, A)]), 0), None);
    assert_eq!(netlist_record(&with(&whole, &[(3, A), (4, A)]), A - 1), None);
    // The offset is word 4, whatever it is: here the header itself is the list.
    assert_eq!(netlist_record(&[0, 9, 1, 4, 0], 0), Some([0, 4, 4]));
    assert_eq!(netlist_record(&[0, 9, 1, 4], 0), Some([0, 4, 4]));
}

/// A memory has two ports if its port count is 2, else one.
#[test]
fn memory_records_one_by_one() {
    for (count, length) in [(1, Some(20)), (2, None), (0, Some(20)), (3, Some(20)), (A, Some(20))] {
        let words = exact(&[memory_output(0, 0)], &[&with(&memory(0, 1, 0), &[(5, count)])]);
        assert_eq!(netlist_record(&words, 0), length.map(|length| [2, length, length]), "{count}");
    }
    assert_eq!(netlist_record(&whole(), (MEMORY - PORT) as u32), Some([2, 35, (ARITHMETIC - PORT) as u32]));
}
