//! Netlists that keep every rule and that no lowering writes: nodes and records in
//! any order, owners by any number, register bits with gaps, cell outputs apart,
//! equal gates and cells, a signal in both directions, a carry with any operation,
//! gates on output nodes, registers and memories on any net.

use super::draft::Draft;
use super::item::{node, Item};
use image::netlist_parts::NodeWords;
use image::{Random, ABSENT};
use std::collections::BTreeSet;

/// How large a netlist is.
#[derive(Clone, Copy, PartialEq, Eq)]
pub enum Size {
    /// Few nodes of each kind.
    Small,
    /// Some tens of nodes.
    Middle,
    /// One record of the largest width.
    Wide,
}

/// What is in a netlist: owners by their numbers, widths.
#[derive(Default)]
struct Plan {
    inputs: Vec<(u32, u32)>,
    outputs: Vec<(u32, u32)>,
    register_bits: Vec<(u32, u32)>,
    /// Index, ports, width.
    memories: Vec<(u32, u32, u32)>,
    arithmetic: Vec<u32>,
    comparisons: Vec<u32>,
    constants: usize,
    gates: usize,
}

/// A right netlist.
pub fn free(random: &mut Random, size: Size) -> Draft {
    let plan = plan(random, size);
    let items = items(random, &plan);
    let mut nodes: Vec<NodeWords> = (0..).zip(&items).map(|(net, &item)| node(random, net, item, lower)).collect();
    let mut records = Records { random, nodes: &nodes, list: Vec::new() };
    records.push_all(&plan);
    let mut records = records.list;
    random.shuffle(&mut records);
    number_cells(&mut nodes, &records);
    let room = random.pick(&[0, 0, 1, 2, 7]);
    Draft { n: (nodes.len() + room).max(1), nodes, records }
}

// ---- choosing owners ----

/// Some different numbers below `most`, borders among them.
fn numbers(random: &mut Random, most: u32, count: usize) -> Vec<u32> {
    let mut chosen: Vec<u32> = Vec::new();
    while chosen.len() < count {
        let number = match random.below(4) {
            0 => chosen.len() as u32,
            1 => most - 1 - random.below(3) as u32,
            _ => random.below(most as usize) as u32,
        };
        if !chosen.contains(&number) {
            chosen.push(number);
        }
    }
    chosen
}

fn plan(random: &mut Random, size: Size) -> Plan {
    let most = match size {
        Size::Small | Size::Wide => 2,
        Size::Middle => 6,
    };
    let mut plan = Plan::default();
    if size == Size::Small && random.chance(3) {
        return plan;
    }
    let count = |random: &mut Random| random.below(most + 1);
    let width = |random: &mut Random| if random.chance(60) { 1 } else { random.range(1, 4) };
    for (ports, spread) in [(&mut plan.inputs, 512), (&mut plan.outputs, if random.flag() { 512 } else { 8 })] {
        let some = count(random);
        *ports = numbers(random, spread, some).into_iter().map(|signal| (signal, width(random))).collect();
    }
    let some = count(random);
    let bits: BTreeSet<(u32, u32)> = (0..some).map(|_| register_bit(random)).collect();
    plan.register_bits = bits.into_iter().collect();
    let some = count(random);
    plan.memories = numbers(random, 16, some).into_iter().map(|memory| (memory, random.range(1, 2), width(random))).collect();
    plan.arithmetic = (0..count(random)).map(|_| width(random)).collect();
    plan.comparisons = (0..count(random)).map(|_| width(random)).collect();
    plan.constants = count(random);
    plan.gates = 2 * count(random);
    if size == Size::Wide {
        let width = random.pick(&[1_024, 1_024, 1_023]);
        match random.below(5) {
            0 => plan.inputs = vec![(511, width)],
            1 => plan.outputs = vec![(0, width)],
            2 => plan.memories = vec![(15, 2, width)],
            3 => plan.arithmetic = vec![width],
            _ => plan.comparisons = vec![width],
        }
    }
    plan
}

fn register_bit(random: &mut Random) -> (u32, u32) {
    let register = numbers(random, 256, 1)[0];
    (register, random.pick(&[0, 0, 1, 2, 3, 1_022, 1_023]))
}

// ---- nodes ----

/// The nodes in a random order, one that has no inputs in front.
fn items(random: &mut Random, plan: &Plan) -> Vec<Item> {
    let mut items = vec![Item::Constant; plan.constants];
    items.extend(vec![Item::Gate; plan.gates]);
    let own = |kind: u32, owner: u32, width: u32| (0..width).map(move |bit| Item::Owned(kind, owner, bit));
    plan.inputs.iter().for_each(|&(signal, width)| items.extend(own(0, signal, width)));
    plan.outputs.iter().for_each(|&(signal, width)| items.extend(own(8, signal, width)));
    items.extend(plan.register_bits.iter().map(|&(register, bit)| Item::Owned(7, register, bit)));
    plan.memories.iter().for_each(|&(memory, ports, width)| items.extend(own(9, memory, ports * width)));
    (0..).zip(&plan.arithmetic).for_each(|(cell, &width)| items.extend(own(10, cell, width)));
    (0..).zip(&plan.comparisons).for_each(|(cell, _)| items.extend(own(11, cell, 1)));
    if random.chance(80) {
        random.shuffle(&mut items);
    }
    let is_source = |item: &Item| matches!(item, Item::Constant | Item::Owned(0 | 7 | 9, ..));
    match items.iter().position(is_source) {
        Some(place) => items.swap(0, place),
        None if items.is_empty() => {}
        None => items.insert(0, Item::Constant),
    }
    items
}

/// A net below another.
fn lower(random: &mut Random, net: u32) -> u32 {
    match random.below(4) {
        0 => net - 1,
        1 => 0,
        _ => random.below(net as usize) as u32,
    }
}

// ---- records ----

struct Records<'a> {
    random: &'a mut Random,
    nodes: &'a [NodeWords],
    list: Vec<Vec<u32>>,
}

impl Records<'_> {
    fn push_all(&mut self, plan: &Plan) {
        for (kind, ports) in [(0, &plan.inputs), (8, &plan.outputs)] {
            for &(signal, width) in ports {
                let mut record = vec![0, signal, width];
                record.extend(self.own(kind, signal, 0..width));
                self.list.push(record);
            }
        }
        plan.register_bits.iter().for_each(|&(register, bit)| self.push_register(register, bit));
        plan.memories.iter().for_each(|&(memory, ports, width)| self.push_memory(memory, ports, width));
        for (cell, &width) in (0..).zip(&plan.arithmetic) {
            let outputs = self.own(10, cell, 0..width);
            let operation = self.random.range(0, 2);
            let carry = if self.random.flag() { ABSENT } else { self.operand(&outputs) };
            self.push_cell(vec![3, operation, width, carry], width, outputs);
        }
        for (cell, &width) in (0..).zip(&plan.comparisons) {
            let outputs = self.own(11, cell, 0..1);
            let operation = self.random.range(0, 3);
            self.push_cell(vec![4, operation, width], width, outputs);
        }
    }

    /// The nets of an owner's bits.
    fn own(&self, kind: u32, owner: u32, bits: std::ops::Range<u32>) -> Vec<u32> {
        let net = |bit: u32| self.nodes.iter().position(|node| node[..3] == [kind, owner, bit]);
        bits.map(|bit| net(bit).expect("a node that was made") as u32).collect()
    }

    fn any(&mut self) -> u32 {
        self.random.below(self.nodes.len()) as u32
    }

    /// A net below all outputs of a cell; net 0 is none of them.
    fn operand(&mut self, outputs: &[u32]) -> u32 {
        lower(self.random, outputs.iter().copied().min().expect("an output"))
    }

    fn push_cell(&mut self, mut record: Vec<u32>, width: u32, outputs: Vec<u32>) {
        record.extend((0..2 * width).map(|_| self.operand(&outputs)));
        record.extend(outputs);
        self.list.push(record);
    }

    /// A control that may be absent, and so many words that go with it.
    fn control(&mut self, words: usize) -> Vec<u32> {
        if self.random.flag() {
            return [vec![ABSENT], vec![0; words]].concat();
        }
        let net = self.any();
        [net].into_iter().chain((0..words).map(|_| self.random.range(0, 1))).collect()
    }

    fn push_register(&mut self, register: u32, bit: u32) {
        let mut record = vec![1, register, bit];
        record.extend(self.own(7, register, bit..bit + 1));
        record.extend([self.any(), self.any(), self.random.range(0, 1)]);
        record.extend(self.control(1));
        record.extend(self.control(3));
        self.list.push(record);
    }

    fn push_memory(&mut self, memory: u32, ports: u32, width: u32) {
        let depth = self.random.pick(&[1, 2, 3, 5, 65_535, 65_536]);
        let style = self.random.range(0, 2);
        let mut record = vec![2, memory, depth, style, 1, ports];
        for port in 0..ports {
            let [read_address, write_address] = [(); 2].map(|()| self.random.pick(&[1, 1, 2, 3, 31, 32]));
            record.extend([read_address, width, write_address, width]);
            record.extend((0..read_address).map(|_| self.any()));
            record.extend(self.own(9, memory, port * width..(port + 1) * width));
            record.extend((0..write_address + width).map(|_| self.any()));
            record.extend(self.control(1));
            record.extend([self.any(), self.random.range(0, 1), self.any(), self.random.range(0, 1)]);
        }
        self.list.push(record);
    }
}

/// Cells are numbered by the order of their records.
pub fn number_cells(nodes: &mut [NodeWords], records: &[Vec<u32>]) {
    for (sort, head) in [(3, 4), (4, 3)] {
        for (cell, record) in (0..).zip(records.iter().filter(|record| record[0] == sort)) {
            let outputs = &record[head + 2 * record[2] as usize..];
            outputs.iter().for_each(|&net| nodes[net as usize][1] = cell);
        }
    }
}

#[cfg(test)]
mod tests {
    use super::{free, Size};
    use image::Random;

    #[test]
    fn what_is_made_by_hand_keeps_every_rule() {
        for (size, count) in [(Size::Small, 3_000), (Size::Middle, 1_000), (Size::Wide, 30)] {
            for number in 0..count {
                let draft = free(&mut Random::of_case(1, number), size);
                assert_eq!(reference::netlist_answer(&draft.words()), reference::FINE, "{number}: {draft:?}");
            }
        }
    }
}
