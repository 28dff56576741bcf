//! Netlists about as large as the trace program takes, each with much of one sort:
//! what it costs to run a line.

use super::machine::N;
use crate::netlists::draft::Draft;
use image::netlist_parts::{arithmetic_output, comparison_output, input, memory_output, output, register_output, NodeWords};
use image::{Random, ABSENT};

/// By name.
pub const HEAVY: [(&str, fn() -> Draft); 9] = [
    ("gates", gates),
    ("adders, 10 of 64 bits", || cells(0, 10, 64)),
    ("multipliers, 10 of 64 bits", || cells(2, 10, 64)),
    ("an adder of 500 bits", || cells(0, 1, 500)),
    ("a multiplier of 500 bits", || cells(2, 1, 500)),
    ("comparisons, 14 of 60 bits", comparisons),
    ("counters, 3 of 32 bits", counters),
    ("a memory of 1,024 words of 64 bits", memory),
    ("all of it", mixed),
];

/// Signals of inputs and outputs, and clock and reset bits of the first.
const INPUT: u32 = 0;
const OUTPUT: u32 = 1;
const CLOCK: u32 = 0;
const RESET: u32 = 1;

#[derive(Default)]
struct Parts {
    nodes: Vec<NodeWords>,
    records: Vec<Vec<u32>>,
}

impl Parts {
    fn push(&mut self, node: NodeWords) -> u32 {
        self.nodes.push(node);
        self.nodes.len() as u32 - 1
    }

    /// The input port; its first bits are the clock and the reset.
    fn inputs(&mut self, width: u32) -> Vec<u32> {
        let nets: Vec<u32> = (0..width).map(|bit| self.push(input(INPUT, bit))).collect();
        self.records.push([vec![0, INPUT, width], nets.clone()].concat());
        nets
    }

    fn outputs(mut self, of: &[u32]) -> Draft {
        let nets: Vec<u32> = (0..).zip(of).map(|(bit, &net)| self.push(output(OUTPUT, bit, net))).collect();
        self.records.push([vec![0, OUTPUT, of.len() as u32], nets].concat());
        Draft { n: N, nodes: self.nodes, records: self.records }
    }

    fn count(&self, sort: u32) -> u32 {
        self.records.iter().filter(|record| record[0] == sort).count() as u32
    }

    fn cell(&mut self, operation: u32, lhs: &[u32], rhs: &[u32], carry: u32) -> Vec<u32> {
        let (cell, width) = (self.count(3), lhs.len() as u32);
        let outputs: Vec<u32> = (0..width).map(|bit| self.push(arithmetic_output(cell, bit))).collect();
        self.records.push([&[3, operation, width, carry], lhs, rhs, &outputs].concat());
        outputs
    }

    fn comparison(&mut self, operation: u32, lhs: &[u32], rhs: &[u32]) -> u32 {
        let result = self.push(comparison_output(self.count(4)));
        self.records.push([&[4, operation, lhs.len() as u32], lhs, rhs, &[result]].concat());
        result
    }

    /// Gates of each kind in turn, each on one of the last nets, any net and one of
    /// the first.
    fn gates(&mut self, on: &[u32], count: usize) -> Vec<u32> {
        let (random, mut nets) = (&mut Random::new(1), on.to_vec());
        for number in 0..count {
            let last = nets.len() - 1 - random.below(nets.len().min(30));
            let inputs = [nets[last], random.pick(&nets), random.pick(on)];
            let (kind, used) = [(4, 2), (6, 3), (4, 2), (2, 2), (4, 2), (3, 2), (5, 1)][number % 7];
            let mut node = [kind, ABSENT, ABSENT, ABSENT, ABSENT, ABSENT];
            node[3..3 + used].copy_from_slice(&inputs[..used]);
            let net = self.push(node);
            nets.push(net);
        }
        nets.split_off(on.len())
    }

    /// Output nodes of a register; its records follow when the data are there.
    fn register(&mut self, number: u32, width: u32) -> Vec<u32> {
        (0..width).map(|bit| self.push(register_output(number, bit))).collect()
    }

    fn load(&mut self, number: u32, outputs: &[u32], data: &[u32], reset: u32) {
        let has_reset = u32::from(reset != ABSENT);
        for (bit, (&output, &data)) in (0..).zip(outputs.iter().zip(data)) {
            self.records.push(vec![1, number, bit, output, data, CLOCK, 0, ABSENT, 0, reset, 0, has_reset, 0]);
        }
    }

    /// A memory of two ports; the first writes where the given net is 1.
    fn memory(&mut self, depth: u32, width: u32, address: &[u32], data: &[u32], enable: u32) -> Vec<u32> {
        let read: Vec<u32> = (0..2 * width).map(|bit| self.push(memory_output(0, bit))).collect();
        let mut record = vec![2, 0, depth, 0, 1, 2];
        for (port, edge) in [(&read[..width as usize], 0), (&read[width as usize..], 1)] {
            record.extend([address.len() as u32, width, address.len() as u32, width]);
            record.extend([address, port, address, data].concat());
            record.extend([ABSENT, 0, enable, edge, CLOCK, edge]);
        }
        self.records.push(record);
        read
    }
}

fn gates() -> Draft {
    let mut parts = Parts::default();
    let inputs = parts.inputs(32);
    let made = parts.gates(&inputs, N - 32 - 32);
    parts.outputs(&made[made.len() - 32..])
}

/// Cells one after another, each on the input word and the result before.
fn cells(operation: u32, count: usize, width: usize) -> Draft {
    let mut parts = Parts::default();
    let inputs = parts.inputs(width.min(64) as u32);
    let word: Vec<u32> = inputs.iter().copied().cycle().take(width).collect();
    let mut result: Vec<u32> = word.iter().rev().copied().collect();
    for _ in 0..count {
        result = parts.cell(operation, &result, &word, inputs[0]);
    }
    let low = &result[..result.len().min(4)];
    parts.outputs(low)
}

fn comparisons() -> Draft {
    const WIDTH: usize = 60;
    let mut parts = Parts::default();
    let mut word = parts.inputs(2 * WIDTH as u32);
    for operation in 0..14 {
        let result = parts.comparison(operation % 4, &word[..WIDTH], &word[WIDTH..]);
        word.rotate_left(17);
        word[5] = result;
    }
    parts.outputs(&word[..4])
}

fn counters() -> Draft {
    const WIDTH: u32 = 32;
    let mut parts = Parts::default();
    let inputs = parts.inputs(4);
    let mut seen = Vec::new();
    for number in 0..3 {
        let now = parts.register(number, WIDTH);
        let step: Vec<u32> = inputs[2..].iter().copied().cycle().take(WIDTH as usize).collect();
        let next = parts.cell(number % 2, &now, &step, ABSENT);
        parts.load(number, &now, &next, inputs[RESET as usize]);
        seen.extend(now);
    }
    parts.outputs(&seen)
}

fn memory() -> Draft {
    let mut parts = Parts::default();
    let inputs = parts.inputs(3 + 10 + 64);
    let read = parts.memory(1_024, 64, &inputs[3..13], &inputs[13..], inputs[2]);
    parts.outputs(&read)
}

/// A counter that addresses a memory, its words added, compared and mixed by gates.
fn mixed() -> Draft {
    let mut parts = Parts::default();
    let inputs = parts.inputs(20);
    let now = parts.register(0, 16);
    let next = parts.cell(0, &now, &inputs[4..20], inputs[2]);
    parts.load(0, &now, &next, inputs[RESET as usize]);
    let read = parts.memory(1_024, 32, &now[..10], &[&next[..], &now].concat(), inputs[3]);
    let sum = parts.cell(0, &read[..32], &read[32..], ABSENT);
    let product = parts.cell(2, &sum, &read[..32], inputs[2]);
    let less = parts.comparison(2, &sum, &product);
    let gates = parts.gates(&[&sum[..], &product, &now, &[less]].concat(), 600);
    parts.outputs(&[&gates[gates.len() - 31..], &[less]].concat())
}

#[cfg(test)]
mod tests {
    use super::HEAVY;
    use crate::traces::limits::bytes;
    use crate::traces::lines::Inputs;
    use image::netlist::Netlist;
    use image::Random;
    use std::collections::BTreeSet;

    #[test]
    fn they_are_taken_and_they_move() {
        for (name, draft) in HEAVY {
            let words = draft().words();
            let lines = Inputs::of(&Netlist::decode(&words).unwrap()).busy_lines(&mut Random::new(1), 200);
            let text = String::from_utf8(driver::trace(&bytes(&words, &lines.concat()))).unwrap();
            assert!(!text.contains("refused"), "{name}: {text}");
            let different = text.lines().collect::<BTreeSet<_>>().len();
            assert!(different > 7, "{name}: {different}");
        }
    }
}
