//! The trace program on cases worked out by hand: the step rule line by line, words
//! beyond 64 bits, the order of ports, what is refused and in which order. Write
//! clashes stand in clashes.rs, keeps and backs in keeps.rs.

use driver::{TraceProgram, trace};
use image::ABSENT;
use image::netlist_parts::*;

const N: usize = 1_024;

fn input_of(nodes: &[NodeWords], records: &[&[u32]], trace: &str) -> Vec<u8> {
    bytes(&netlist(N, nodes, records), trace)
}

fn bytes(words: &[u32], trace: &str) -> Vec<u8> {
    words.iter().flat_map(|word| word.to_le_bytes()).chain(trace.bytes()).collect()
}

fn printed(input: &[u8]) -> String {
    String::from_utf8(trace(input)).unwrap()
}

/// What is printed, lines joined by spaces.
fn run(nodes: &[NodeWords], records: &[&[u32]], trace: &str) -> String {
    printed(&input_of(nodes, records, trace)).trim_end().replace('\n', " ")
}

fn lines(settings: &str) -> String {
    settings.split_whitespace().map(|line| format!("{line}\n")).collect()
}

/// Inputs clk, d, en, rst in one port; register bit q with these words from the edge
/// on; output q.
fn register_run(controls: [u32; 7], settings: &str) -> String {
    let nodes = [input(0, 0), input(0, 1), input(0, 2), input(0, 3), register_output(9, 1_023), output(1, 0, 4)];
    let record = [&[1, 9, 1_023, 4, 1, 0][..], &controls].concat();
    run(&nodes, &[&[0, 0, 4, 0, 1, 2, 3], &record, &[0, 1, 1, 5]], &lines(settings))
}

const A: u32 = ABSENT;

#[test]
fn a_register_takes_what_stood_before_its_edge() {
    let plain = [0, A, 0, A, 0, 0, 0];
    // The first line makes no step; the data that change with the clock come late.
    assert_eq!(register_run(plain, "1100 0100 1000 0000 1100 1100 0100 1100"), "0 0 1 1 0 0 0 1");
    let falling = [1, A, 0, A, 0, 0, 0];
    assert_eq!(register_run(falling, "1100 0000 1100 1000 0100"), "0 1 1 1 0");
}

#[test]
fn enables_are_read_before_the_step() {
    let high = [0, 2, 0, A, 0, 0, 0];
    assert_eq!(register_run(high, "0100 1110 0110 1100"), "0 0 0 1");
    let low = [0, 2, 1, A, 0, 0, 0];
    assert_eq!(register_run(low, "0110 1100 0100 1110"), "0 0 0 1");
}

#[test]
fn a_synchronous_reset_acts_at_the_edge_and_before_the_enable() {
    let reset = [0, 2, 0, 3, 0, 0, 1];
    assert_eq!(register_run(reset, "0001 0000 1001 0001 1000 0010 1000"), "0 0 0 0 1 1 0");
}

#[test]
fn an_asynchronous_reset_acts_in_the_new_inputs_and_not_at_the_start() {
    let reset = [0, A, 0, 3, 0, 1, 1];
    // At the start nothing; then with the same line it acts, without an edge.
    assert_eq!(register_run(reset, "0001 0001 0000 1000 0000 1001 0000"), "0 1 1 0 0 1 1");
    let low = [0, A, 0, 3, 1, 1, 1];
    assert_eq!(register_run(low, "0000 0001 1001 0000 0001 1001"), "0 0 0 1 1 0");
}

/// A memory of three words of one bit: clk, address (2), data, write enable of port
/// one, then of port two data and write enable; outputs both read data.
fn memory_run(settings: &str) -> String {
    let mut nodes: Vec<NodeWords> = (0..7).map(|bit| input(0, bit)).collect();
    nodes.extend([memory_output(5, 1), memory_output(5, 0), output(1, 0, 8), output(1, 1, 7)]);
    let port = |read: u32, data: u32, enable: u32| [2, 1, 2, 1, 1, 2, read, 1, 2, data, A, 0, enable, 0, 0, 0];
    let record = [&[2, 5, 3, 0, 1, 2][..], &port(8, 3, 4), &port(7, 5, 6)].concat();
    run(&nodes, &[&[0, 1, 2, 9, 10], &record, &[0, 0, 7, 0, 1, 2, 3, 4, 5, 6]], &lines(settings))
}

#[test]
fn memories_read_the_old_word() {
    // Port one writes 1 to word 2: read data are the old word; then the new one.
    assert_eq!(memory_run("0011100 1011100 0010000 1010000"), "00 00 00 11");
    // Port two writes 1 to word 1, then port one a 0.
    assert_eq!(memory_run("0100011 1100011 0100000 1100000"), "00 00 00 11");
    assert_eq!(memory_run("0100011 1100011 0100100 1100100 0100000 1100000"), "00 00 00 11 11 00");
}

#[test]
fn past_the_depth_nothing_is_stored_and_zero_is_read() {
    // Word 0 is 1 and read; address 3 reads 0 and stores nothing in any word.
    let settings = "0001100 1001100 0000000 1000000 0111100 1111100 0000000 1000000 0010000 1010000";
    assert_eq!(memory_run(settings), "00 00 00 11 11 00 00 11 11 00");
}

/// A cell of 65 bits. The left word has input 1 at bit 64 and input 0 below, the
/// right word 0 at bit 64 and input 0 below; input 2 is the carry. Outputs are bits
/// 0, 63 and 64.
fn wide(operation: u32, settings: &str) -> String {
    const WIDTH: u32 = 65;
    let mut nodes = vec![input(0, 0), input(0, 1), input(0, 2), constant(0)];
    // The outputs stand in the other order.
    nodes.extend((0..WIDTH).rev().map(|bit| arithmetic_output(0, bit)));
    let net = |bit: u32| 4 + (WIDTH - 1 - bit);
    nodes.extend([0, 63, 64].into_iter().zip(0..).map(|(bit, place)| output(1, place, net(bit))));
    let lhs = (0..WIDTH).map(|bit| u32::from(bit == 64));
    let rhs = (0..WIDTH).map(|bit| if bit < 64 { 0 } else { 3 });
    let mut cell = vec![3, operation, WIDTH, 2];
    cell.extend(lhs);
    cell.extend(rhs);
    cell.extend((0..WIDTH).map(net));
    let last = 4 + WIDTH;
    run(&nodes, &[&[0, 0, 3, 0, 1, 2], &cell, &[0, 1, 3, last, last + 1, last + 2]], &lines(settings))
}

#[test]
fn words_go_beyond_64_bits_and_every_operation_has_a_carry() {
    // With a = 2^64 - 1 where input 0 is 1, h = 2^64 where input 1 is 1:
    // a + a = 2^65 - 2: bits 63 and 64 are 1; with carry bit 0 too; h falls out.
    assert_eq!(wide(0, "100 101 110 001 010"), "011 111 010 100 001");
    // (a + h) - a + c = h + c.
    assert_eq!(wide(1, "100 101 110 111 001"), "000 100 001 101 100");
    // a * a = 2^128 - 2^65 + 1 is 1; (a + h) * a adds 2^64 * a, which is 2^64 odd times.
    assert_eq!(wide(2, "100 101 110 111 010"), "100 000 101 001 000");
}

#[test]
fn comparisons_of_both_signs() {
    let mut nodes = vec![input(0, 0), input(0, 1), input(0, 2), input(0, 3)];
    nodes.extend((0..4).map(comparison_output));
    nodes.extend((0..4).map(|bit| output(1, bit, 4 + bit)));
    let cells: Vec<Vec<u32>> = (0..4).map(|operation| vec![4, operation, 2, 0, 1, 2, 3, 4 + operation]).collect();
    let records: Vec<&[u32]> = [&[0, 0, 4, 0, 1, 2, 3][..]].into_iter().chain(cells.iter().map(Vec::as_slice)).chain([&[0, 1, 4, 8, 9, 10, 11][..]]).collect();
    // 1 and 2, which is -2 signed; 2 and 1; 3 and 3.
    assert_eq!(run(&nodes, &records, &lines("1001 0110 1111")), "1100 0011 0101");
}

#[test]
fn gates() {
    let mut nodes = vec![input(0, 0), input(0, 1), input(0, 2)];
    nodes.extend([[2, A, A, 1, 2, A], [3, A, A, 1, 2, A], [4, A, A, 1, 2, A], [5, A, A, 1, A, A], [6, A, A, 0, 1, 2]]);
    nodes.extend((0..5).map(|bit| output(1, bit, 3 + bit)));
    let records: [&[u32]; 2] = [&[0, 0, 3, 0, 1, 2], &[0, 1, 5, 8, 9, 10, 11, 12]];
    assert_eq!(run(&nodes, &records, &lines("000 001 010 011 110 101")), "00010 01111 01100 11001 01101 01110");
}

/// Signals 5 and 3 as inputs, 7 and 3 as outputs: the list's order counts, not the
/// signals' and not the nets'.
#[test]
fn ports_come_in_the_order_of_their_records() {
    let nodes = [input(3, 0), input(5, 1), input(5, 0), output(3, 0, 0), output(7, 0, 2), output(7, 1, 1)];
    let records: [&[u32]; 4] = [&[0, 7, 2, 4, 5], &[0, 5, 2, 2, 1], &[0, 3, 1, 3], &[0, 3, 1, 0]];
    assert_eq!(run(&nodes, &records, &lines("100 010 001")), "100 010 001");
}

#[test]
fn a_registers_data_and_clock_may_be_later_nets() {
    let nodes = [register_output(0, 0), not(0), input(0, 0), output(1, 0, 0)];
    let record = [1, 0, 0, 0, 1, 2, 0, A, 0, A, 0, 0, 0];
    assert_eq!(run(&nodes, &[&[0, 0, 1, 2], &record, &[0, 1, 1, 3]], &lines("1 0 1 0 0 1 1")), "0 0 1 1 1 0 0");
}

fn inverter(trace: &str) -> Vec<u8> {
    input_of(&[input(0, 0), not(0), output(1, 0, 1)], &[&[0, 0, 1, 0], &[0, 1, 1, 2]], trace)
}

#[test]
fn lines_and_their_ends() {
    let cases = [
        ("", ""),
        ("0\n1\n", "1\n0\n"),
        ("0\n1", "1\nrefused 13 1 0\n"),
        ("0\n\n1\n", "1\nrefused 13 1 0\n"),
        ("0\n1\n01\n", "1\n0\nrefused 13 2 0\n"),
        ("0\r\n", "refused 13 0 0\n"),
        ("x\n0\n", "refused 13 0 0\n"),
        ("keep  a\n", "refused 13 0 0\n"),
    ];
    for (trace, expected) in cases {
        assert_eq!(printed(&inverter(trace)), expected, "{trace:?}");
    }
    assert_eq!(printed(&input_of(&[constant(1), output(0, 0, 0)], &[&[0, 0, 1, 1]], "\n\n")), "1\n1\n");
    assert_eq!(printed(&input_of(&[input(0, 0)], &[&[0, 0, 1, 0]], "0\n1\n")), "\n\n");
    assert_eq!(printed(&input_of(&[], &[], "\n")), "\n");
}

#[test]
fn the_order_of_refusals() {
    let words = |n: usize| netlist(n, &[input(0, 0)], &[[0, 0, 1, 0]]);
    let with = |n: usize, at: usize, value: u32| {
        let mut words = words(n);
        words[at] = value;
        words
    };
    let cases = [
        (vec![], "11 0"),
        (words(1_025)[..15].to_vec(), "11 15"),
        (words(1_025)[..16].to_vec(), "12 0"),
        (words(N)[..16].to_vec(), "11 16"),
        (words(N)[..6_163].to_vec(), "11 6163"),
        (with(1_025, 15, 1), "11 15"),
        (with(1_025, 5, 9), "12 0"),
        (with(N, 5, 9), "11 5"),
        (with(N, 3, 2_049), "12 0"),
        (with(N, 3, 2_048), "11 6164"),
        (with(N, 3, 65_536), "11 3"),
        (with(N, 17, 600), "11 17"),
    ];
    for (words, expected) in cases {
        assert_eq!(printed(&bytes(&words, "")), format!("refused {expected} 0\n"));
    }
    // Bytes of the trace fill a netlist that is too short; a cut word counts as none.
    assert_eq!(printed(&bytes(&words(N)[..6_163], "0\n\0")), "refused 11 6163 0\n");
    assert_eq!(printed(&bytes(&words(N)[..6_163], "\0\0\0\x000\n")), "\n");
}

#[test]
fn clocks_resets_and_memory_bits() {
    let with_register = |clock: u32, reset: u32, asynchronous: u32| {
        let nodes = [input(0, 0), not(0), register_output(0, 0), output(1, 0, 0)];
        let mut record = register(0, 0, 2);
        (record[5], record[9], record[11]) = (clock, reset, asynchronous);
        input_of(&nodes, &[&[0, 0, 1, 0], &record, &[0, 1, 1, 3]], "0\n")
    };
    assert_eq!(printed(&with_register(0, 0, 1)), "0\n");
    assert_eq!(printed(&with_register(0, 1, 0)), "0\n");
    for (clock, reset, asynchronous) in [(1, A, 0), (2, A, 0), (3, A, 0), (0, 1, 1), (0, 3, 1)] {
        assert_eq!(printed(&with_register(clock, reset, asynchronous)), "refused 12 0 0\n");
    }
    let with_memories = |depths: [u32; 2]| {
        let nodes = [input(0, 0), memory_output(7, 0), memory_output(2, 0)];
        input_of(&nodes, &[&[0, 0, 1, 0], &memory(7, depths[0], 1), &memory(2, depths[1], 2)], "0\n1\n")
    };
    assert_eq!(printed(&with_memories([65_535, 1])), "\n\n");
    assert_eq!(printed(&with_memories([65_535, 2])), "refused 12 0 0\n");
    assert_eq!(printed(&with_memories([65_536, 1])), "refused 12 0 0\n");
}

/// In whatever parts the bytes come, the text is the same, and no line waits.
#[test]
fn parts_of_an_input() {
    for input in [inverter("0\n1\n0\n2\n1\n"), inverter("0\n1"), inverter("")[..20_001].to_vec()] {
        for size in [1, 3, 1_000] {
            let (mut program, mut text) = (TraceProgram::default(), Vec::new());
            input.chunks(size).for_each(|part| program.take(part, &mut text));
            program.end(&mut text);
            assert_eq!(text, trace(&input));
        }
    }
    let (mut program, mut text) = (TraceProgram::default(), Vec::new());
    program.take(&inverter("0"), &mut text);
    assert_eq!(text, b"");
    program.take(b"\n1", &mut text);
    assert_eq!(text, b"1\n");
    program.take(b"\n", &mut text);
    assert_eq!(text, b"1\n0\n");
    assert!(!program.is_refused());
}
