//! Netlists that the trace program takes and that move much: every kind of node and
//! every sort of record, words of up to some hundred bits, registers with all their
//! controls, memories of one or two ports; nodes and records in any order, the bits
//! of registers with gaps, outputs of cells apart and in any order.

use crate::netlists::draft::Draft;
use crate::netlists::free::number_cells;
use crate::netlists::item::{node, Item};
use image::netlist_parts::NodeWords;
use image::{Random, ABSENT};
use std::collections::BTreeSet;
use std::ops::Range;

/// The trace program's limits.
pub const N: usize = 1_024;
pub const P: usize = 2_048;

/// How large a netlist is.
#[derive(Clone, Copy, PartialEq, Eq, Debug)]
pub enum Size {
    Small,
    Middle,
    Large,
}

/// Nets and list words that are left, and the widest word.
struct Room {
    nets: usize,
    words: usize,
    widest: u32,
}

struct Memory {
    number: u32,
    ports: u32,
    width: u32,
    depth: u32,
}

#[derive(Default)]
struct Plan {
    inputs: Vec<(u32, u32)>,
    outputs: Vec<(u32, u32)>,
    /// Register and its bits.
    registers: Vec<(u32, Vec<u32>)>,
    memories: Vec<Memory>,
    arithmetic: Vec<u32>,
    comparisons: Vec<u32>,
    constants: usize,
    gates: usize,
}

/// A netlist of this size, with room for 1,024 nets.
pub fn machine(random: &mut Random, size: Size) -> Draft {
    let plan = plan(random, size);
    let items = items(random, &plan);
    let mut nodes: Vec<NodeWords> = (0..).zip(&items).map(|(net, &item)| node(random, net, item, lower)).collect();
    let mut records = Records { random, nodes: &nodes, list: Vec::new() };
    records.push_all(&plan);
    let mut records = records.list;
    if random.chance(70) {
        random.shuffle(&mut records);
    }
    number_cells(&mut nodes, &records);
    Draft { n: N, nodes, records }
}

// ---- what is in it ----

fn plan(random: &mut Random, size: Size) -> Plan {
    let (nets, words, widest, parts) = match size {
        Size::Small => (120, 400, random.pick(&[3, 8, 33]), random.range(1, 8)),
        Size::Middle => (350, 1_000, random.pick(&[8, 65, 130]), random.range(4, 25)),
        Size::Large => (N - 1, P, random.pick(&[16, 70, 300, 640]), random.range(10, 90)),
    };
    let mut room = Room { nets, words, widest };
    let mut plan = Plan::default();
    let has_inputs = random.chance(96);
    if has_inputs {
        plan.input(random, &mut room, 1);
    }
    if random.chance(96) {
        plan.output(random, &mut room);
    }
    for _ in 0..parts {
        match random.below(10) {
            0 if has_inputs => plan.input(random, &mut room, 9),
            1 => plan.output(random, &mut room),
            2 | 3 if has_inputs => plan.register(random, &mut room),
            4 if has_inputs => plan.memory(random, &mut room),
            5 | 6 => plan.cell(random, &mut room),
            7 => plan.comparison(random, &mut room),
            8 => plan.constants += usize::from(room.takes(1, 0)),
            _ => {
                let gates = random.range(1, 12) as usize;
                plan.gates += if room.takes(gates, 0) { gates } else { 0 };
            }
        }
    }
    plan
}

impl Room {
    /// Whether there is room for so many nets and list words; takes it.
    fn takes(&mut self, nets: usize, words: usize) -> bool {
        let fits = nets <= self.nets && words <= self.words;
        if fits {
            self.nets -= nets;
            self.words -= words;
        }
        fits
    }

    /// A width, those around a limb's often.
    fn width(&self, random: &mut Random) -> u32 {
        let width = match random.below(8) {
            0 | 1 => 1,
            2 | 3 => random.range(1, 4),
            4 => random.pick(&[31, 32, 33, 63, 64, 65]),
            5 => random.pick(&[127, 128, 129, 200, 640]),
            _ => random.range(1, self.widest),
        };
        width.min(self.widest)
    }
}

/// A number below `most` that is not among these, borders often.
fn other_than(random: &mut Random, most: u32, taken: &[u32]) -> u32 {
    loop {
        let number = match random.below(4) {
            0 => taken.len() as u32 % most,
            1 => most - 1 - random.below(3) as u32,
            _ => random.below(most as usize) as u32,
        };
        if !taken.contains(&number) {
            return number;
        }
    }
}

impl Plan {
    fn input(&mut self, random: &mut Random, room: &mut Room, most: u32) {
        let width = room.width(random).min(most);
        let taken: Vec<u32> = self.inputs.iter().map(|(signal, _)| *signal).collect();
        if room.takes(width as usize, 3 + width as usize) {
            self.inputs.push((other_than(random, 512, &taken), width));
        }
    }

    fn output(&mut self, random: &mut Random, room: &mut Room) {
        let width = room.width(random);
        let taken: Vec<u32> = self.outputs.iter().map(|(signal, _)| *signal).collect();
        if room.takes(width as usize, 3 + width as usize) {
            let most = if random.flag() { 512 } else { 100 };
            self.outputs.push((other_than(random, most, &taken), width));
        }
    }

    fn register(&mut self, random: &mut Random, room: &mut Room) {
        let width = room.width(random).min(24);
        let first = random.pick(&[0, 0, 0, 1, 1_000]);
        let bits: BTreeSet<u32> = (first..first + width).filter(|_| random.chance(90)).collect();
        let taken: Vec<u32> = self.registers.iter().map(|(register, _)| *register).collect();
        if !bits.is_empty() && taken.len() < 200 && room.takes(bits.len(), 13 * bits.len()) {
            self.registers.push((other_than(random, 256, &taken), bits.into_iter().collect()));
        }
    }

    fn memory(&mut self, random: &mut Random, room: &mut Room) {
        const ADDRESSES: usize = 2 * 32;
        let (ports, width) = (random.range(1, 2), room.width(random));
        let depth = random.pick(&[1, 2, 3, 4, 5, 7, 8, 16, 33, 100]);
        let taken: Vec<u32> = self.memories.iter().map(|memory| memory.number).collect();
        let words = 6 + ports as usize * (10 + ADDRESSES + 2 * width as usize);
        if taken.len() < 16 && room.takes((ports * width) as usize, words) {
            self.memories.push(Memory { number: other_than(random, 16, &taken), ports, width, depth });
        }
    }

    fn cell(&mut self, random: &mut Random, room: &mut Room) {
        let width = room.width(random);
        if room.takes(width as usize, 4 + 3 * width as usize) {
            self.arithmetic.push(width);
        }
    }

    fn comparison(&mut self, random: &mut Random, room: &mut Room) {
        let width = room.width(random);
        if room.takes(1, 4 + 2 * width as usize) {
            self.comparisons.push(width);
        }
    }
}

// ---- nodes ----

/// The nodes in an order that leaves what cells and gates read below them: sources
/// first or anywhere, the outputs of a cell together or apart.
fn items(random: &mut Random, plan: &Plan) -> Vec<Item> {
    let mut sources: Vec<Vec<Item>> = vec![vec![Item::Constant]; plan.constants];
    let own = |kind: u32, owner: u32, bits: Range<u32>| bits.map(move |bit| Item::Owned(kind, owner, bit));
    plan.inputs.iter().for_each(|&(signal, width)| sources.extend(own(0, signal, 0..width).map(|item| vec![item])));
    for (register, bits) in &plan.registers {
        sources.extend(bits.iter().map(|&bit| vec![Item::Owned(7, *register, bit)]));
    }
    for memory in &plan.memories {
        sources.extend(own(9, memory.number, 0..memory.ports * memory.width).map(|item| vec![item]));
    }
    let mut others: Vec<Vec<Item>> = vec![vec![Item::Gate]; plan.gates];
    plan.outputs.iter().for_each(|&(signal, width)| others.extend(own(8, signal, 0..width).map(|item| vec![item])));
    (0..).zip(&plan.arithmetic).for_each(|(cell, &width)| others.push(own(10, cell, 0..width).collect()));
    (0..).zip(&plan.comparisons).for_each(|(cell, _)| others.push(own(11, cell, 0..1).collect()));
    if random.flag() {
        others.append(&mut sources);
    }
    for groups in [&mut sources, &mut others] {
        random.shuffle(groups);
    }
    let mut items = [sources, others].concat();
    items.iter_mut().filter(|group| group.len() > 1).for_each(|group| if random.flag() { random.shuffle(group) });
    let mut items = items.concat();
    spread(random, &mut items);
    begin_with_source(&mut items);
    items
}

/// Moves some outputs of cells up, away from the others.
fn spread(random: &mut Random, items: &mut Vec<Item>) {
    for _ in 0..random.pick(&[0, 0, 3, 20]) {
        if items.is_empty() {
            return;
        }
        let from = random.below(items.len());
        if matches!(items[from], Item::Owned(10, ..)) {
            let item = items.remove(from);
            items.insert(random.range(from as u32, items.len() as u32) as usize, item);
        }
    }
}

fn begin_with_source(items: &mut Vec<Item>) {
    let is_source = |item: &Item| matches!(item, Item::Constant | Item::Owned(0 | 7 | 9, ..));
    match items.iter().position(is_source) {
        Some(place) => items.swap(0, place),
        None if items.is_empty() => {}
        None => items.insert(0, Item::Constant),
    }
}

/// A net below another, often a near one.
fn lower(random: &mut Random, net: u32) -> u32 {
    match random.below(3) {
        0 => net - 1 - random.below(net.min(8) as usize) as u32,
        _ => random.below(net as usize) as u32,
    }
}

// ---- records ----

struct Records<'a> {
    random: &'a mut Random,
    nodes: &'a [NodeWords],
    list: Vec<Vec<u32>>,
}

impl Records<'_> {
    fn push_all(&mut self, plan: &Plan) {
        for (kind, ports) in [(0, &plan.inputs), (8, &plan.outputs)] {
            for &(signal, width) in ports {
                let mut record = vec![0, signal, width];
                record.extend(self.own(kind, signal, 0..width));
                self.list.push(record);
            }
        }
        plan.registers.iter().for_each(|(register, bits)| self.push_register(*register, bits));
        plan.memories.iter().for_each(|memory| self.push_memory(memory));
        for (cell, &width) in (0..).zip(&plan.arithmetic) {
            let outputs = self.own(10, cell, 0..width);
            let operation = self.random.range(0, 2);
            let carry = if self.random.flag() { ABSENT } else { self.operand(&outputs, 1)[0] };
            self.push_cell(vec![3, operation, width, carry], width, outputs);
        }
        for (cell, &width) in (0..).zip(&plan.comparisons) {
            let outputs = self.own(11, cell, 0..1);
            let operation = self.random.range(0, 3);
            self.push_cell(vec![4, operation, width], width, outputs);
        }
    }

    /// The nets of an owner's bits.
    fn own(&self, kind: u32, owner: u32, bits: Range<u32>) -> Vec<u32> {
        let net = |bit: u32| self.nodes.iter().position(|node| node[..3] == [kind, owner, bit]);
        bits.map(|bit| net(bit).expect("a node that was made") as u32).collect()
    }

    fn any(&mut self) -> u32 {
        self.random.below(self.nodes.len()) as u32
    }

    /// An input, the first ones most often, so that clocks are shared.
    fn input(&mut self) -> u32 {
        let inputs: Vec<u32> = (0..).zip(self.nodes).filter(|(_, node)| node[0] == 0).map(|(net, _)| net).collect();
        let most = if self.random.chance(80) { inputs.len().min(2) } else { inputs.len() };
        inputs[self.random.below(most)]
    }

    /// Nets below all outputs of a cell: a row of them, or any.
    fn operand(&mut self, outputs: &[u32], width: u32) -> Vec<u32> {
        let end = outputs.iter().copied().min().expect("an output");
        if self.random.flag() {
            let first = self.random.below(end as usize) as u32;
            return (first..first + width).map(|net| net % end).collect();
        }
        (0..width).map(|_| lower(self.random, end)).collect()
    }

    fn push_cell(&mut self, mut record: Vec<u32>, width: u32, outputs: Vec<u32>) {
        record.extend(self.operand(&outputs, width));
        record.extend(self.operand(&outputs, width));
        record.extend(outputs);
        self.list.push(record);
    }

    /// An enable, or none, and its level.
    fn enable(&mut self) -> [u32; 2] {
        match self.random.below(3) {
            0 => [self.any(), self.random.range(0, 1)],
            1 => [self.input(), self.random.range(0, 1)],
            _ => [ABSENT, 0],
        }
    }

    /// A reset, or none: net, level, mode, value.
    fn reset(&mut self) -> [u32; 4] {
        let [level, value] = [(); 2].map(|()| self.random.range(0, 1));
        match self.random.below(4) {
            0 => [self.any(), level, 0, value],
            1 => [self.input(), level, 0, value],
            2 => [self.input(), level, 1, value],
            _ => [ABSENT, 0, 0, 0],
        }
    }

    /// A record for each bit; controls are the same for all, or each has its own.
    fn push_register(&mut self, register: u32, bits: &[u32]) {
        let mut controls = self.controls();
        let are_shared = self.random.chance(70);
        for &bit in bits {
            if !are_shared {
                controls = self.controls();
            }
            let output = self.own(7, register, bit..bit + 1)[0];
            let data = self.any();
            self.list.push([&[1, register, bit, output, data], &controls[..]].concat());
        }
    }

    /// Clock, edge, enable and reset.
    fn controls(&mut self) -> Vec<u32> {
        let clock = [self.input(), self.random.range(0, 1)];
        [&clock[..], &self.enable(), &self.reset()].concat()
    }

    fn address(&mut self) -> Vec<u32> {
        let width = self.random.pick(&[1, 1, 2, 2, 3, 4, 8, 32]);
        (0..width).map(|_| self.any()).collect()
    }

    /// A second port often has the first one's write address, sometimes with a bit
    /// more, and its clock.
    fn push_memory(&mut self, memory: &Memory) {
        let &Memory { number, ports, width, depth } = memory;
        let mut record = vec![2, number, depth, self.random.range(0, 2), 1, ports];
        let clock = [self.input(), self.random.range(0, 1)];
        let mut written = Vec::new();
        for port in 0..ports {
            let read = self.address();
            match self.random.below(10) {
                5..9 if port == 1 => {}
                9 if port == 1 && written.len() < 32 => written.push(self.any()),
                _ => written = self.address(),
            }
            record.extend([read.len() as u32, width, written.len() as u32, width]);
            record.extend(read);
            record.extend(self.own(9, number, port * width..(port + 1) * width));
            record.extend(&written);
            record.extend((0..width).map(|_| self.any()));
            record.extend(self.enable());
            record.extend([if self.random.flag() { self.any() } else { self.input() }, self.random.range(0, 1)]);
            record.extend(if self.random.chance(70) { clock } else { [self.input(), self.random.range(0, 1)] });
        }
        self.list.push(record);
    }
}

#[cfg(test)]
mod tests {
    use super::{machine, Size};
    use image::Random;
    use std::collections::BTreeSet;

    #[test]
    fn what_is_made_is_taken_and_has_every_kind_and_sort() {
        let mut seen = BTreeSet::new();
        for number in 0..600 {
            let size = [Size::Small, Size::Middle, Size::Large][number as usize % 3];
            let draft = machine(&mut Random::of_case(1, number), size);
            let words = draft.words();
            let bytes: Vec<u8> = words.iter().flat_map(|word| word.to_le_bytes()).collect();
            assert_eq!(String::from_utf8_lossy(&driver::trace(&bytes)), "", "{number}: {draft:?}");
            seen.extend(draft.nodes.iter().map(|node| ("kind", node[0])));
            seen.extend(draft.records.iter().map(|record| ("sort", record[0])));
        }
        assert_eq!(seen.len(), 12 + 5);
    }
}
