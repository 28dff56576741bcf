//! Which assignments a module's outputs, registers and memories need. What a
//! Slice takes is read by bit, and a driver is needed whole (docs/RULES.md,
//! needed bits), stated here a second time, apart from the driver. The others may
//! hold loops or undriven bits and are not written.

use image::memory_field::{FIRST_PORT, HAS_SECOND, SECOND_PORT};
use image::{ABSENT, Image, MEMORY_FIELDS, kind};

/// For each assignment whether a value that can be seen rests on it.
pub fn needed_assignments(image: &Image) -> Vec<bool> {
    let mut search = Search::new(image);
    for expression in root_expressions(image) {
        search.whole(expression);
    }
    for signal in root_signals(image) {
        for bit in 0..image.signals[signal as usize][2] {
            search.signal_bit(signal, bit);
        }
    }
    search.finish();
    search.assignments
}

/// Next and reset values, addresses and write data.
fn root_expressions(image: &Image) -> Vec<u32> {
    let mut roots = Vec::new();
    for register in &image.registers {
        roots.push(register[3]);
        if register[8] != ABSENT {
            roots.push(register[11]);
        }
    }
    for port in image.memories.iter().flat_map(ports) {
        roots.extend([port[0], port[4], port[5]]);
    }
    roots
}

/// Outputs, clocks and controls.
fn root_signals(image: &Image) -> Vec<u32> {
    let signals = (0..).zip(&image.signals);
    let outputs = signals.filter_map(|(number, signal)| (signal[3] == 2).then_some(number));
    let mut roots: Vec<u32> = outputs.collect();
    for register in &image.registers {
        roots.extend([register[4], register[6], register[8]]);
    }
    for port in image.memories.iter().flat_map(ports) {
        roots.extend([port[2], port[6], port[8]]);
    }
    roots.retain(|signal| *signal != ABSENT);
    roots
}

/// The ports of a memory, ten fields each.
pub fn ports(memory: &[u32; MEMORY_FIELDS]) -> impl Iterator<Item = &[u32]> {
    let second = (memory[HAS_SECOND] == 1).then_some(&memory[SECOND_PORT..]);
    std::iter::once(&memory[FIRST_PORT..HAS_SECOND]).chain(second)
}

struct Search<'a> {
    image: &'a Image,
    /// The assignment that drives each signal bit.
    drivers: Vec<Vec<Option<usize>>>,
    assignments: Vec<bool>,
    seen: Vec<Vec<bool>>,
    /// Expression bits still to be followed.
    open: Vec<(u32, u32)>,
}

impl<'a> Search<'a> {
    fn new(image: &'a Image) -> Self {
        let empty = |width: u32| vec![None; width as usize];
        let mut drivers: Vec<_> = image.signals.iter().map(|s| empty(s[2])).collect();
        for (number, [signal, lsb, width, _]) in image.assignments.iter().enumerate() {
            let bits = *lsb as usize..(lsb + width) as usize;
            drivers[*signal as usize][bits].fill(Some(number));
        }
        let expressions = image.expressions.iter();
        Search {
            image,
            drivers,
            assignments: vec![false; image.assignments.len()],
            seen: expressions.map(|e| vec![false; e[1] as usize]).collect(),
            open: Vec::new(),
        }
    }

    fn whole(&mut self, expression: u32) {
        for bit in 0..self.image.expressions[expression as usize][1] {
            self.bit(expression, bit);
        }
    }

    fn bit(&mut self, expression: u32, bit: u32) {
        let seen = &mut self.seen[expression as usize][bit as usize];
        if !*seen {
            *seen = true;
            self.open.push((expression, bit));
        }
    }

    fn signal_bit(&mut self, signal: u32, bit: u32) {
        if let Some(number) = self.drivers[signal as usize][bit as usize]
            && !self.assignments[number]
        {
            self.assignments[number] = true;
            self.whole(self.image.assignments[number][3]);
        }
    }

    fn finish(&mut self) {
        while let Some((expression, bit)) = self.open.pop() {
            self.follow(expression, bit);
        }
    }

    fn follow(&mut self, expression: u32, bit: u32) {
        let [kind, _, first, second, third] = self.image.expressions[expression as usize];
        match (kind, first) {
            (kind::SIGNAL, signal) => self.signal_bit(signal, second + bit),
            (kind::CONSTANT, _) => {}
            (kind::UNARY, 0) => self.bit(second, bit),
            (kind::UNARY, _) => self.whole(second),
            (kind::BINARY, 0..=2) => {
                self.bit(second, bit);
                self.bit(third, bit);
            }
            (kind::BINARY, _) => {
                self.whole(second);
                self.whole(third);
            }
            (kind::MUX, condition) => {
                self.bit(condition, 0);
                self.bit(second, bit);
                self.bit(third, bit);
            }
            (kind::CONCAT, start) => self.concat_bit(start, second, bit),
            (_, input) => self.bit(input, second + bit),
        }
    }

    fn concat_bit(&mut self, start: u32, count: u32, mut bit: u32) {
        let parts = &self.image.list[start as usize..(start + count) as usize];
        for &part in parts.iter().rev() {
            let width = self.image.expressions[part as usize][1];
            if bit < width {
                return self.bit(part, bit);
            }
            bit -= width;
        }
    }
}
