//! Which bits need which: docs/RULES.md, needed bits, sentence by sentence, as a
//! graph. Here sentences can be read wrongly on purpose, for the self-test.

use super::selftest::Fault;
use image::memory_field::{FIRST_PORT, HAS_SECOND, SECOND_PORT};
use image::{kind, port_field, Image, ABSENT, BINARY_OPS, DIRECTIONS, UNARY_OPS};
use std::collections::{HashMap, HashSet};

/// A signal and a bit of it.
pub type Bit = (u32, u32);

/// What can be needed.
#[derive(Clone, Copy, Debug, PartialEq, Eq, Hash)]
pub enum Need {
    Signal(Bit),
    /// An expression whole.
    Whole(u32),
    /// A bit that is taken of an expression.
    Taken(u32, u32),
}

/// Whose something is that is needed from the start.
#[derive(Clone, Copy, Debug, PartialEq, Eq)]
pub enum Owner {
    Memory(u32),
    Register(u32),
    Output(u32),
}

/// What drives a bit.
#[derive(Clone, Copy)]
enum Driver {
    Input,
    /// Its bit of an expression.
    Assignment(u32, u32),
    /// With the register's next.
    Register(u32),
    /// With the port's read address.
    Memory(u32),
}

/// An image that passes checks 3 and 4.
pub struct Graph<'a> {
    image: &'a Image,
    fault: Option<Fault>,
    drivers: HashMap<Bit, Driver>,
}

impl<'a> Graph<'a> {
    pub fn new(image: &'a Image, fault: Option<Fault>) -> Self {
        let mut graph = Graph { image, fault, drivers: HashMap::new() };
        for signal in graph.signals("input") {
            graph.drive(signal, Driver::Input);
        }
        for &[signal, lsb, width, value] in &image.assignments {
            let bits = (0..width).map(|bit| ((signal, lsb + bit), Driver::Assignment(value, bit)));
            graph.drivers.extend(bits);
        }
        for register in &image.registers {
            graph.drive(register[2], Driver::Register(register[3]));
        }
        for port in image.memories.iter().flat_map(ports) {
            graph.drive(port[port_field::READ_DATA], Driver::Memory(port[port_field::READ_ADDRESS]));
        }
        graph
    }

    fn has(&self, fault: Fault) -> bool {
        self.fault == Some(fault)
    }

    /// Gives all bits of a signal a driver.
    fn drive(&mut self, signal: u32, driver: Driver) {
        let bits = self.bits(signal).map(|bit| (bit, driver));
        self.drivers.extend(bits);
    }

    fn signals(&self, direction: &str) -> Vec<u32> {
        let is = |&signal: &u32| DIRECTIONS[self.image.signals[signal as usize][3] as usize] == direction;
        (0..self.image.signals.len() as u32).filter(is).collect()
    }

    /// All bits of a signal.
    fn bits(&self, signal: u32) -> impl Iterator<Item = Bit> {
        let width = self.image.signals[signal as usize][2];
        (0..width).map(move |bit| (signal, bit))
    }

    fn all_bits(&self) -> impl Iterator<Item = Bit> + '_ {
        (0..self.image.signals.len() as u32).flat_map(|signal| self.bits(signal))
    }

    // ---- what needs what ----

    /// What something needs, in one step.
    pub fn needs(&self, need: Need) -> Vec<Need> {
        match need {
            Need::Signal(bit) => self.of_signal_bit(bit),
            Need::Whole(expression) => self.of_whole(expression),
            Need::Taken(expression, bit) => self.of_taken(expression, bit),
        }
    }

    /// "A signal bit that is driven by an assignment needs that assignment's
    /// expression whole, not only its own bit." "An input bit, a register's target
    /// bit and a read data bit need nothing."
    fn of_signal_bit(&self, bit: Bit) -> Vec<Need> {
        match self.drivers.get(&bit) {
            Some(&Driver::Assignment(value, bit)) if self.has(Fault::DriverByBit) => vec![Need::Taken(value, bit)],
            Some(&Driver::Assignment(value, _)) => vec![Need::Whole(value)],
            Some(&Driver::Register(next)) if self.has(Fault::TargetNeedsNext) => vec![Need::Whole(next)],
            Some(&Driver::Memory(address)) if self.has(Fault::ReadDataNeedAddress) => vec![Need::Whole(address)],
            _ => vec![],
        }
    }

    /// "An expression that is needed whole needs its operands whole, except that a
    /// Slice needs the bits that it takes." What an Add that is fused leaves out are
    /// constants, which need nothing.
    fn of_whole(&self, expression: u32) -> Vec<Need> {
        let [kind, width, first, second, third] = self.image.expressions[expression as usize];
        match kind {
            kind::SIGNAL => (second..second + width).map(|bit| Need::Signal((first, bit))).collect(),
            kind::CONSTANT => vec![],
            kind::UNARY => vec![Need::Whole(second)],
            kind::BINARY => vec![Need::Whole(second), Need::Whole(third)],
            kind::MUX => self.of_mux(first, Need::Whole(second), Need::Whole(third)),
            kind::CONCAT => self.parts(first, second).map(Need::Whole).collect(),
            _ if self.has(Fault::SliceNeedsWhole) => vec![Need::Whole(first)],
            _ => (second..second + width).map(|bit| Need::Taken(first, bit)).collect(),
        }
    }

    /// "Of bits that are taken, Signal, Constant, BitNot, And, Or, Xor, Mux (its
    /// condition whole), Slice and Concat need the bits of the operands behind them;
    /// every other kind needs its operands whole."
    fn of_taken(&self, expression: u32, bit: u32) -> Vec<Need> {
        let [kind, _, first, second, third] = self.image.expressions[expression as usize];
        match kind {
            kind::SIGNAL => vec![Need::Signal((first, second + bit))],
            kind::CONSTANT => vec![],
            kind::UNARY if UNARY_OPS[first as usize] == "not" => vec![Need::Taken(second, bit)],
            kind::BINARY if self.is_bitwise(first) => vec![Need::Taken(second, bit), Need::Taken(third, bit)],
            kind::BINARY if self.has(Fault::ShiftByBit) && is_shift(first) => vec![Need::Taken(second, bit), Need::Whole(third)],
            kind::MUX if self.has(Fault::MuxTakenWhole) => self.of_whole(expression),
            kind::MUX => self.of_mux(first, Need::Taken(second, bit), Need::Taken(third, bit)),
            kind::CONCAT => vec![self.of_concat(first, second, bit)],
            kind::SLICE => vec![Need::Taken(first, second + bit)],
            _ => self.of_whole(expression),
        }
    }

    fn is_bitwise(&self, op: u32) -> bool {
        match BINARY_OPS[op as usize] {
            "and" | "or" | "xor" => !self.has(Fault::AndTakenWhole),
            "add" | "sub" => self.has(Fault::AddByBit),
            _ => false,
        }
    }

    fn of_mux(&self, condition: u32, then: Need, otherwise: Need) -> Vec<Need> {
        match self.fault {
            Some(Fault::ConditionAlone) => vec![Need::Whole(condition)],
            Some(Fault::SidesAlone) => vec![then, otherwise],
            _ => vec![Need::Whole(condition), then, otherwise],
        }
    }

    fn parts(&self, start: u32, count: u32) -> impl DoubleEndedIterator<Item = u32> + '_ {
        self.image.list[start as usize..(start + count) as usize].iter().copied()
    }

    /// The part that a bit lies in; the first is the most significant.
    fn of_concat(&self, start: u32, count: u32, mut bit: u32) -> Need {
        let mut parts: Vec<u32> = self.parts(start, count).rev().collect();
        if self.has(Fault::FirstPartLowest) {
            parts.reverse();
        }
        for part in parts {
            let width = self.image.expressions[part as usize][1];
            if bit < width {
                return Need::Taken(part, bit);
            }
            bit -= width;
        }
        unreachable!("the parts sum to the Concat's width")
    }

    // ---- what is needed from the start ----

    /// "Needed are: all bits of outputs; of each register next, clock, enable, reset
    /// value and reset signal; of each memory the addresses, write data, clocks and
    /// enables." In the order of the section lowering.
    pub fn starts(&self) -> Vec<(Owner, Vec<Need>)> {
        let mut starts = Vec::new();
        for (number, memory) in (0..).zip(&self.image.memories) {
            for (port, second) in ports(memory).zip([false, true]) {
                starts.extend(self.of_port(port, second).into_iter().map(|needs| (Owner::Memory(number), needs)));
            }
        }
        for (number, register) in (0..).zip(&self.image.registers) {
            starts.extend(self.of_register(register).into_iter().map(|needs| (Owner::Register(number), needs)));
        }
        let outputs = self.signals("output").into_iter().map(|signal| (Owner::Output(signal), self.signal(signal)));
        match self.fault {
            Some(Fault::OutputsFirst) => outputs.chain(starts).collect(),
            _ => starts.into_iter().chain(outputs).collect(),
        }
    }

    /// All bits of a signal; of one that is absent none.
    fn signal(&self, signal: u32) -> Vec<Need> {
        if signal == ABSENT {
            return vec![];
        }
        self.bits(signal).map(Need::Signal).collect()
    }

    /// "Read address, write address, write data, clock, write enable, read enable, at
    /// the second port the clock last."
    fn of_port(&self, port: &[u32], second: bool) -> Vec<Vec<Need>> {
        use port_field::{CLOCK, READ_ADDRESS, READ_ENABLE, WRITE_ADDRESS, WRITE_DATA, WRITE_ENABLE};
        let order = match second {
            true if self.has(Fault::SecondPortUnneeded) => return vec![],
            true if !self.has(Fault::SecondClockEarly) => [READ_ADDRESS, WRITE_ADDRESS, WRITE_DATA, WRITE_ENABLE, READ_ENABLE, CLOCK],
            _ => [READ_ADDRESS, WRITE_ADDRESS, WRITE_DATA, CLOCK, WRITE_ENABLE, READ_ENABLE],
        };
        let unneeded = |field| match self.fault {
            Some(Fault::AddressesUnneeded) => field == READ_ADDRESS || field == WRITE_ADDRESS,
            Some(Fault::WriteDataUnneeded) => field == WRITE_DATA,
            Some(Fault::EnablesUnneeded) => field == WRITE_ENABLE || field == READ_ENABLE,
            _ => false,
        };
        let needs = |field| match field {
            READ_ADDRESS | WRITE_ADDRESS | WRITE_DATA => vec![Need::Whole(port[field])],
            _ => self.signal(port[field]),
        };
        order.into_iter().filter(|&field| !unneeded(field)).map(needs).collect()
    }

    /// "Next, clock, enable, reset value, reset signal."
    fn of_register(&self, register: &[u32; 12]) -> Vec<Vec<Need>> {
        let &[_, _, _, next, clock, _, enable, _, reset, _, _, value] = register;
        let value = if reset == ABSENT || self.has(Fault::ResetValueUnneeded) { vec![] } else { vec![Need::Whole(value)] };
        let clock = if self.has(Fault::ClocksUnneeded) { vec![] } else { self.signal(clock) };
        let mut needs = vec![vec![Need::Whole(next)], clock, self.signal(enable), value, self.signal(reset)];
        if self.has(Fault::ResetFirst) {
            needs.rotate_right(2);
        }
        needs
    }
}

/// The ports of a memory, ten fields each.
fn ports(memory: &[u32; image::MEMORY_FIELDS]) -> impl Iterator<Item = &[u32]> {
    let second = (memory[HAS_SECOND] == 1).then_some(&memory[SECOND_PORT..]);
    std::iter::once(&memory[FIRST_PORT..HAS_SECOND]).chain(second)
}

fn is_shift(op: u32) -> bool {
    ["shl", "shr", "sar"].contains(&BINARY_OPS[op as usize])
}

/// What the rules say of an image's bits.
pub struct Reading {
    /// Whose the starts are, in their order.
    pub owners: Vec<Owner>,
    /// The needed bits, each with the first start that needs it.
    pub needed: HashMap<Bit, usize>,
    /// Bits without a driver, needed or not.
    pub undriven: HashSet<Bit>,
    /// Bits that need themselves, needed or not.
    pub looping: HashSet<Bit>,
}

impl Reading {
    pub fn of(graph: &Graph) -> Self {
        let starts = graph.starts();
        let (mut met, mut needed) = (HashSet::new(), HashMap::new());
        for (number, (_, needs)) in starts.iter().enumerate() {
            for need in reach(graph, needs, &mut met) {
                if let Need::Signal(bit) = need {
                    needed.insert(bit, number);
                }
            }
        }
        let undriven = graph.all_bits().filter(|bit| !graph.drivers.contains_key(bit)).collect();
        let looping = Loops::of(graph).looping;
        Reading { owners: starts.into_iter().map(|(owner, _)| owner).collect(), needed, undriven, looping }
    }

    /// The first start that needs a bit without a driver or one that needs itself.
    pub fn first_fault(&self) -> Option<usize> {
        let faulty = self.needed.iter().filter(|(bit, _)| self.undriven.contains(bit) || self.looping.contains(bit));
        faulty.map(|(_, &start)| start).min()
    }
}

/// What is reached from these and was not met before.
fn reach(graph: &Graph, from: &[Need], met: &mut HashSet<Need>) -> Vec<Need> {
    let mut open = from.to_vec();
    let mut reached = Vec::new();
    while let Some(need) = open.pop() {
        if met.insert(need) {
            reached.push(need);
            open.extend(graph.needs(need));
        }
    }
    reached
}

/// The search for strongly connected parts of the graph (Tarjan): a part of two or
/// more needs is a loop.
struct Loops<'a> {
    graph: &'a Graph<'a>,
    /// When a need was met; the last number once its part is known.
    order: HashMap<Need, usize>,
    open: Vec<Need>,
    looping: HashSet<Bit>,
}

impl<'a> Loops<'a> {
    fn of(graph: &'a Graph) -> Self {
        let mut loops = Loops { graph, order: HashMap::new(), open: Vec::new(), looping: HashSet::new() };
        for bit in graph.all_bits() {
            if !loops.order.contains_key(&Need::Signal(bit)) {
                loops.visit(Need::Signal(bit));
            }
        }
        loops
    }

    /// The earliest open need that is reached.
    fn visit(&mut self, need: Need) -> usize {
        let (own, place) = (self.order.len(), self.open.len());
        self.order.insert(need, own);
        self.open.push(need);
        let mut earliest = own;
        for next in self.graph.needs(need) {
            let reached = match self.order.get(&next) {
                Some(&order) => order,
                None => self.visit(next),
            };
            earliest = earliest.min(reached);
        }
        if earliest == own {
            let part = self.open.split_off(place);
            for &need in &part {
                self.order.insert(need, usize::MAX);
                if let (Need::Signal(bit), 2..) = (need, part.len()) {
                    self.looping.insert(bit);
                }
            }
        }
        earliest
    }
}

#[cfg(test)]
mod tests {
    use super::*;
    use image::{tangled, Random};

    /// A bit needs itself if it is among what is reached from what it needs.
    #[test]
    fn loops_are_bits_that_reach_themselves() {
        let mut found = [0; 2];
        for seed in 0..3_000 {
            let image = tangled(&mut Random::new(seed));
            let graph = Graph::new(&image, None);
            let looping = Reading::of(&graph).looping;
            for bit in graph.all_bits() {
                let reached = reach(&graph, &graph.needs(Need::Signal(bit)), &mut HashSet::new());
                let itself = reached.contains(&Need::Signal(bit));
                assert_eq!(looping.contains(&bit), itself, "seed {seed}, bit {bit:?}");
                found[usize::from(itself)] += 1;
            }
        }
        assert!(found.iter().all(|&count| count > 1_000), "{found:?}");
    }
}
