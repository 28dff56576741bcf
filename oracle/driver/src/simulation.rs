//! What both simulators take and give. Bits of a word: bit 0 first.

use std::collections::BTreeMap;

use image::Random;

/// The bits of every input, by signal number.
pub type Setting = BTreeMap<u32, Vec<bool>>;

/// All that is kept from one step to the next.
#[derive(Clone, Debug, Eq, PartialEq)]
pub struct Contents {
    /// By register and bit.
    pub registers: Vec<Vec<bool>>,
    /// By memory, port and bit.
    pub read_data: Vec<Vec<Vec<bool>>>,
    /// By memory, address and bit.
    pub memories: Vec<Vec<Vec<bool>>>,
}

impl Contents {
    /// The same shape with random words.
    pub fn randomise(&mut self, random: &mut Random) {
        let mut fill = |word: &mut Vec<bool>| *word = random_word(word.len() as u32, random);
        self.registers.iter_mut().for_each(&mut fill);
        self.read_data.iter_mut().flatten().for_each(&mut fill);
        self.memories.iter_mut().flatten().for_each(&mut fill);
    }
}

/// Any bits; sometimes only few low ones, or all equal but a few.
pub fn random_word(width: u32, random: &mut Random) -> Vec<bool> {
    let base = random.flag();
    let low = random.range(1, width.min(8));
    match random.below(4) {
        0 if width > 1 => (0..width).map(|bit| bit < low && random.flag()).collect(),
        1 if width > 1 => (0..width)
            .map(|_| base ^ (random.below(width as usize) == 0))
            .collect(),
        _ => (0..width).map(|_| random.flag()).collect(),
    }
}

/// What can be seen after a setting.
#[derive(Clone, Debug, Eq, PartialEq)]
pub struct Observation {
    /// The bits of every output, by signal number.
    pub outputs: BTreeMap<u32, Vec<bool>>,
    /// The contents, steps included.
    pub contents: Contents,
}

/// What can be seen of a run.
#[derive(Clone, Debug, Eq, PartialEq)]
pub struct Seen {
    /// After each setting, up to the first step that has no defined end.
    pub observations: Vec<Observation>,
    /// Where there is such a step, the lowest memory of which both ports write to one
    /// word.
    pub clash: Option<u32>,
}

/// A run, with all settings that it was given.
#[derive(Clone, Debug, Eq, PartialEq)]
pub struct Run {
    /// The contents that it starts from.
    pub first: Contents,
    /// The start, and a step each.
    pub settings: Vec<Setting>,
    /// Up to its end.
    pub seen: Seen,
}

/// Why a run has no result.
#[derive(Clone, Debug, Eq, PartialEq)]
pub enum NoRun {
    /// A bit that is read has no driver.
    Undriven {
        /// Signal number.
        signal: u32,
        /// Bit of the signal.
        bit: u32,
    },
    /// A bit's value rests on itself.
    Loop {
        /// Signal number.
        signal: u32,
        /// Bit of the signal.
        bit: u32,
    },
    /// A clock or an asynchronous reset is no input.
    ControlNotInput,
}
