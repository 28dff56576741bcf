//! Inputs of the trace program at each of its limits and just beyond, by name: what
//! 12 refuses and what it just lets pass, the order of 11 and 12, where the netlist
//! ends, ends of traces, write clashes and what is just none, keeps and backs.

use super::clashes;
use super::machine::{N, P};
use super::name_limits;
use crate::netlists::draft::Draft;
use image::netlist_parts::{
    arithmetic_output, comparison_output, constant, input, memory, memory_output, not, output, register, register_output, NodeWords,
};
use image::ABSENT;

pub type Named = (&'static str, Vec<u8>);

/// All of them.
pub fn at_the_limits() -> Vec<Named> {
    let lines = [traces(), clashes::named(), name_limits::named()];
    [headers(), sizes(), clocks(), resets(), memories(), borders_of_the_netlist(), lines.concat()].concat()
}

/// Words as bytes, low first, and what follows.
pub fn bytes(words: &[u32], trace: &[u8]) -> Vec<u8> {
    words.iter().flat_map(|word| word.to_le_bytes()).chain(trace.iter().copied()).collect()
}

fn draft(nodes: Vec<NodeWords>, records: &[&[u32]]) -> Draft {
    Draft { n: N, nodes, records: records.iter().map(|record| record.to_vec()).collect() }
}

/// Output 1 is the inverse of input 0.
pub fn inverter() -> Draft {
    draft(vec![input(0, 0), not(0), output(1, 0, 1)], &[&[0, 0, 1, 0], &[0, 1, 1, 2]])
}

fn with_n(n: usize) -> Vec<u32> {
    Draft { n, ..inverter() }.words()
}

/// A netlist's words with one of them changed.
fn changed(mut words: Vec<u32>, at: usize, value: u32) -> Vec<u32> {
    words[at] = value;
    words
}

// ---- header words ----

fn headers() -> Vec<Named> {
    let header = |n: usize, length: usize| bytes(&with_n(n)[..length], b"");
    let with = |at: usize, value: u32| bytes(&changed(with_n(N), at, value)[..16], b"");
    vec![
        ("no bytes", Vec::new()),
        ("a cut word", vec![1, 0, 0]),
        ("a word", header(N, 1)),
        ("a wrong word", bytes(&[2], b"")),
        ("five header words with another N", header(1_023, 5)),
        ("fifteen header words with another N", header(1_025, 15)),
        ("sixteen header words", header(N, 16)),
        ("sixteen header words and a cut word", bytes(&with_n(N)[..16], b"\0\0\0")),
        ("sixteen header words, N 1,023", header(1_023, 16)),
        ("sixteen header words, N 1,025", header(1_025, 16)),
        ("header word 15 is wrong, and N", bytes(&changed(with_n(1_025), 15, 7)[..16], b"")),
        ("a record count is wrong, and N", bytes(&changed(with_n(1_025), 5, 7), b"0\n")),
        ("sixteen header words, 2,048 list words", with(3, 2_048)),
        ("sixteen header words, 2,049 list words", with(3, 2_049)),
        ("sixteen header words, 65,535 list words", with(3, 65_535)),
        ("sixteen header words, 65,536 list words", with(3, 65_536)),
        ("1,025 nets", with(1, 1_025)),
    ]
}

// ---- N and list words ----

/// Two inputs added, and an output: so many list words.
fn with_list_words(words: usize) -> Draft {
    const WIDTH: u32 = 512;
    let inputs = (words - (3 + 4 + 3 * WIDTH as usize + 4)) as u32;
    let mut nodes: Vec<NodeWords> = (0..inputs).map(|bit| input(0, bit)).collect();
    nodes.extend((0..WIDTH).map(|bit| arithmetic_output(0, bit)));
    nodes.push(output(1, 0, inputs + WIDTH - 1));
    let port: Vec<u32> = [0, 0, inputs].into_iter().chain(0..inputs).collect();
    let operands = (0..2 * WIDTH).map(|bit| bit % inputs);
    let cell: Vec<u32> = [3, 0, WIDTH, ABSENT].into_iter().chain(operands).chain(inputs..inputs + WIDTH).collect();
    draft(nodes, &[&port, &cell, &[0, 1, 1, inputs + WIDTH]])
}

/// Inverters in a row.
fn with_nets(nets: u32) -> Draft {
    let mut nodes = vec![input(0, 0)];
    nodes.extend((1..nets - 1).map(|net| not(net - 1)));
    nodes.push(output(0, 0, nets - 2));
    draft(nodes, &[&[0, 0, 1, 0], &[0, 0, 1, nets - 1]])
}

fn sizes() -> Vec<Named> {
    let long = |words: usize| {
        let netlist = with_list_words(words);
        let bits = netlist.nodes.iter().filter(|node| node[0] == 0).count();
        bytes(&netlist.words(), &["0".repeat(bits), "1".repeat(bits), String::new()].join("\n").into_bytes())
    };
    vec![
        ("N 1,024", bytes(&with_n(N), b"0\n1\n")),
        ("N 1,023", bytes(&with_n(1_023), b"0\n1\n")),
        ("N 1,025", bytes(&with_n(1_025), b"0\n1\n")),
        ("N 3", bytes(&with_n(3), b"0\n1\n")),
        ("as many list words as there may be", long(P)),
        ("a list word more", long(P + 1)),
        ("as many nets as there may be", bytes(&with_nets(N as u32).words(), b"0\n1\n0\n")),
    ]
}

// ---- clocks and resets ----

/// Nets of every kind: inputs 0 and 1, a constant, a gate, a register output, a
/// memory output, a sum, a comparison, an output node on input 0, the output of the
/// register. Register and memory take the given nets as clocks; the reset is given.
fn every_kind(clock: u32, memory_clock: u32, reset: [u32; 4]) -> Draft {
    let nodes = vec![
        input(0, 0),
        input(0, 1),
        constant(1),
        not(0),
        register_output(0, 0),
        memory_output(0, 0),
        arithmetic_output(0, 0),
        comparison_output(0),
        output(1, 0, 0),
        output(2, 0, 4),
    ];
    let mut stored = register(0, 0, 4);
    stored[4] = 1;
    stored[5] = clock;
    stored[9..].copy_from_slice(&reset);
    let mut words = memory(0, 2, 5);
    words[12] = 1;
    words[18] = memory_clock;
    let records: [&[u32]; 7] =
        [&[0, 0, 2, 0, 1], &stored, &words, &[3, 0, 1, ABSENT, 0, 1, 6], &[4, 0, 1, 0, 1, 7], &[0, 1, 1, 8], &[0, 2, 1, 9]];
    draft(nodes, &records)
}

const NO_RESET: [u32; 4] = [ABSENT, 0, 0, 0];

/// A name for each net of `every_kind`.
macro_rules! each_net {
    ($use:literal) => {
        [
            concat!($use, " is an input"),
            concat!($use, " is an input"),
            concat!($use, " is a constant"),
            concat!($use, " is a gate"),
            concat!($use, " is a register output"),
            concat!($use, " is a memory output"),
            concat!($use, " is a sum"),
            concat!($use, " is a comparison"),
            concat!($use, " is an output node on an input"),
            concat!($use, " is an output node"),
        ]
    };
}

/// Each kind of net as clock, of the register and of the memory.
fn clocks() -> Vec<Named> {
    const TRACE: &[u8] = b"01\n11\n00\n10\n";
    let nets = [0, 2, 3, 4, 5, 6, 7, 8];
    let registers = nets.map(|net| (each_net!("a clock")[net as usize], bytes(&every_kind(net, 0, NO_RESET).words(), TRACE)));
    let memories = nets.map(|net| (each_net!("a memory's clock")[net as usize], bytes(&every_kind(0, net, NO_RESET).words(), TRACE)));
    [registers.to_vec(), memories.to_vec(), vec![("a second port's clock is a gate", second_port_on_a_gate())]].concat()
}

fn second_port_on_a_gate() -> Vec<u8> {
    let nodes = vec![input(0, 0), not(0), memory_output(3, 0), memory_output(3, 1)];
    let port = |data: u32, clock: u32| [1, 1, 1, 1, 0, data, 0, 0, ABSENT, 0, 0, 0, clock, 0];
    let words = [&[2, 3, 4, 0, 1, 2][..], &port(2, 0), &port(3, 1)].concat();
    bytes(&draft(nodes, &[&[0, 0, 1, 0], &words]).words(), b"0\n1\n")
}

/// Each kind of net as reset, in both modes.
fn resets() -> Vec<Named> {
    const TRACE: &[u8] = b"01\n11\n01\n11\n00\n10\n";
    let nets = [1, 2, 3, 4, 5, 6, 7, 8, 9];
    let input = |net: u32, mode: u32| bytes(&every_kind(0, 0, [net, 1, mode, 1]).words(), TRACE);
    let synchronous = nets.map(|net| (each_net!("a synchronous reset")[net as usize], input(net, 0)));
    let asynchronous = nets.map(|net| (each_net!("an asynchronous reset")[net as usize], input(net, 1)));
    [synchronous.to_vec(), asynchronous.to_vec()].concat()
}

// ---- memories ----

/// Memories of these depths and widths, the first with so many ports, on one clock; the
/// ports do not write at once. A line has one letter.
pub fn of_memories(ports: u32, sizes: &[(u32, u32)], trace: &[u8]) -> Vec<u8> {
    let mut nodes = vec![input(0, 0)];
    let mut records: Vec<Vec<u32>> = vec![vec![0, 0, 1, 0]];
    for (number, &(depth, width)) in (0..).zip(sizes) {
        let ports = if number == 0 { ports } else { 1 };
        let mut record = vec![2, number, depth, 0, 1, ports];
        for port in 0..ports {
            record.extend([1, width, 1, width, 0]);
            record.extend((0..width).map(|bit| nodes.len() as u32 + bit));
            nodes.extend((0..width).map(|bit| memory_output(number, port * width + bit)));
            record.extend(vec![0; 1 + width as usize]);
            record.extend([ABSENT, 0, 0, port, 0, 1]);
        }
        records.push(record);
    }
    let last = nodes.len() as u32;
    nodes.push(output(1, 0, last - 1));
    records.push(vec![0, 1, 1, last]);
    bytes(&Draft { n: N, nodes, records }.words(), trace)
}

fn memories() -> Vec<Named> {
    let of_memories = |ports: u32, sizes: &[(u32, u32)]| of_memories(ports, sizes, b"0\n1\n0\n1\n0\n1\n");
    vec![
        ("65,536 words of one bit", of_memories(1, &[(65_536, 1)])),
        ("65,536 words of one bit, two ports", of_memories(2, &[(65_536, 1)])),
        ("65,536 words of one bit, and a word", of_memories(1, &[(65_536, 1), (1, 1)])),
        ("a word, and 65,536 words of one bit", of_memories(1, &[(1, 1), (65_536, 1)])),
        ("128 words of 512 bits", of_memories(1, &[(128, 512)])),
        ("129 words of 512 bits", of_memories(1, &[(129, 512)])),
        ("two memories of 32,768 bits", of_memories(2, &[(32_768, 1), (1_024, 32)])),
        ("two memories, a word more", of_memories(2, &[(32_768, 1), (1_025, 32)])),
        ("65,536 words of 500 bits", of_memories(1, &[(65_536, 500)])),
        ("sixteen memories of 4,096 bits", of_memories(1, &[(4_096, 1); 16])),
        ("sixteen memories, a word more", of_memories(1, &[[(4_096, 1); 15].as_slice(), &[(4_097, 1)]].concat())),
    ]
}

// ---- where the netlist ends ----

fn borders_of_the_netlist() -> Vec<Named> {
    let words = inverter().words();
    let whole = bytes(&words, b"");
    let (length, last) = (whole.len(), words.len());
    let mut buffer = words.clone();
    buffer.resize(16 + 6 * N + P, 0);
    let wrong_count = changed(every_kind(3, 0, NO_RESET).words(), 6, 5);
    vec![
        ("a byte of the netlist is missing", whole[..length - 1].to_vec()),
        ("a word of the netlist is missing", whole[..length - 4].to_vec()),
        ("two words are missing, and the trace stands in their place", bytes(&words[..last - 2], b"0\n1\n0\n1\n0\n")),
        ("a word is missing, and the trace is too short", bytes(&words[..last - 1], b"0\n")),
        ("two words are missing, and the trace has one and a cut one", bytes(&words[..last - 2], b"0\n1\n0\n1")),
        ("a whole buffer with its zeros", bytes(&buffer, b"0\n1\n")),
        ("a clock that is no input, and a wrong count", bytes(&wrong_count, b"01\n")),
        ("words follow that look like a record", bytes(&[&words[..], &[0, 2, 1, 0]].concat(), b"0\n")),
        ("no nets", bytes(&draft(vec![], &[]).words(), b"")),
        ("no nets, three lines", bytes(&draft(vec![], &[]).words(), b"\n\n\n")),
    ]
}

// ---- traces ----

/// A constant's output.
pub fn without_inputs(trace: &[u8]) -> Vec<u8> {
    bytes(&draft(vec![constant(1), output(0, 0, 0)], &[&[0, 0, 1, 1]]).words(), trace)
}

/// Two inputs.
pub fn without_outputs(trace: &[u8]) -> Vec<u8> {
    bytes(&draft(vec![input(9, 0), input(9, 1)], &[&[0, 9, 2, 0, 1]]).words(), trace)
}

fn traces() -> Vec<Named> {
    let inverted = |trace: &[u8]| bytes(&inverter().words(), trace);
    vec![
        ("no lines", inverted(b"")),
        ("a line", inverted(b"0\n")),
        ("no byte 10 at the end", inverted(b"0\n1\n0")),
        ("one letter", inverted(b"0")),
        ("an empty line", inverted(b"0\n\n1\n")),
        ("an empty line at the end", inverted(b"0\n1\n\n")),
        ("a line too long", inverted(b"0\n1\n01\n")),
        ("a letter 2", inverted(b"0\n1\n2\n")),
        ("byte 0", inverted(b"0\n\0\n")),
        ("byte 255", inverted(b"\xff\n")),
        ("a space", inverted(b"0 \n")),
        ("byte 13 and byte 10", inverted(b"0\r\n1\r\n")),
        ("byte 13 alone", inverted(b"0\r1\r")),
        ("a long line", inverted(&[b'0'; 70_000])),
        ("long output", inverted(&b"0\n1\n".repeat(40_000))),
        ("no inputs, no lines", without_inputs(b"")),
        ("no inputs, lines", without_inputs(b"\n\n")),
        ("no inputs, a letter", without_inputs(b"\n0\n")),
        ("no inputs, a letter without byte 10", without_inputs(b"\n\n1")),
        ("no outputs", without_outputs(b"00\n11\n01\n")),
        ("no outputs, too short", without_outputs(b"00\n1\n01\n")),
    ]
}
