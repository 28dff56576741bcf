//! Subjects with a deliberate fault, for the self-test.

use crate::limits::Limits;
use crate::run::with_word_widths;
use crate::scratch::Scratch;
use crate::subject::{Subject, Witness};
use crate::{Answer, ACCEPTED};
use image::from_edition_1;

/// What is wrong with a subject.
#[derive(Clone, Copy, Debug, PartialEq, Eq)]
pub enum Fault {
    /// A bad expression is blamed on the next record.
    ExpressionPlace,
    /// Names that do not end at the total are blamed on field 15.
    NamesEndPlace,
    /// A memory's word width is not looked at.
    WordWidth,
    /// Edition 1 is still read.
    EditionOne,
    /// A scratch one word short is taken.
    ShortScratch,
    /// The former sum is asked for: two words for each expression bit.
    FormerSum,
    /// The net limit 65,536 is taken.
    NetLimit,
    /// A combinational loop is answered as an undriven bit.
    LoopAsUndriven,
    /// A Mux node's sides are exchanged.
    MuxSides,
    /// Or and Xor have the full range, as in struo's own rows.
    FullRanges,
    /// A memory record's depth is one too large.
    MemoryDepth,
    /// The scratch's last required word is left as it was.
    DirtyScratch,
    /// A scratch of the former sum is cleared to that sum.
    FormerClear,
    /// The word beyond the netlist's required ones is cleared.
    WordBeyond,
    /// The netlist is cleared before a refusal by 5.
    EarlyClear,
    /// A refusal by 9 leaves the netlist as it was.
    UnclearedNetlist,
}

pub const CHECK_FAULTS: [Fault; 7] = [
    Fault::ExpressionPlace,
    Fault::NamesEndPlace,
    Fault::WordWidth,
    Fault::EditionOne,
    Fault::ShortScratch,
    Fault::FormerSum,
    Fault::NetLimit,
];

pub const LOWER_FAULTS: [Fault; 9] = [
    Fault::LoopAsUndriven,
    Fault::MuxSides,
    Fault::FullRanges,
    Fault::MemoryDepth,
    Fault::DirtyScratch,
    Fault::FormerClear,
    Fault::WordBeyond,
    Fault::EarlyClear,
    Fault::UnclearedNetlist,
];

/// The reference with a fault.
pub struct Faulty(pub Fault);

impl Subject for Faulty {
    fn check(&self, image: &[u8], limits: &Limits) -> Answer {
        let mut limits = *limits;
        match self.0 {
            Fault::ShortScratch => limits.scratch_words += 1,
            Fault::FormerSum => limits.scratch_words = limits.scratch_words.saturating_sub(words_freed(image)),
            Fault::NetLimit if limits.n == 65_536 => limits.n = 65_535,
            _ => {}
        }
        let other = match self.0 {
            Fault::WordWidth => Some(with_word_widths(image)),
            Fault::EditionOne => from_edition_1(image).map(|image| image.encode()),
            _ => None,
        };
        let answer = Witness.check(other.as_deref().unwrap_or(image), &limits);
        match (self.0, answer) {
            (Fault::ExpressionPlace, [4, 1, record]) => [4, 1, record + 1],
            (Fault::NamesEndPlace, [3, 14, 0]) => [3, 15, 0],
            _ => answer,
        }
    }

    fn lower(&self, image: &[u8], n: u32, p: u32, netlist: &mut [u32], scratch: &mut [u32]) -> Answer {
        let before = netlist.to_vec();
        let last_scratch = reference::scratch_words(image, n).map(|required| required - 1);
        let dirt = last_scratch.and_then(|last| scratch.get(last).copied());
        let answer = Witness.lower(image, n, p, netlist, scratch);
        match (self.0, answer) {
            (Fault::LoopAsUndriven, [7, signal, bit]) => return [6, signal, bit],
            (Fault::MuxSides, ACCEPTED) => exchange_mux_sides(netlist),
            (Fault::FullRanges, ACCEPTED) => lower_unchanged(image, n, p, netlist),
            (Fault::MemoryDepth, ACCEPTED) => enlarge_memory(netlist),
            (Fault::DirtyScratch, ACCEPTED) => scratch[last_scratch.unwrap()] = dirt.unwrap(),
            (Fault::FormerClear, ACCEPTED) => clear_former(image, n, scratch),
            (Fault::WordBeyond, ACCEPTED) => netlist[reference::netlist_words(n, p)..].iter_mut().take(1).for_each(|word| *word = 0),
            (Fault::EarlyClear, [5, 0, 0]) => netlist[0] = 0,
            (Fault::UnclearedNetlist, [9, 0, 0]) => netlist.copy_from_slice(&before),
            _ => {}
        }
        answer
    }
}

/// What the former sum has beyond the present one, under any net limit.
fn words_freed(image: &[u8]) -> usize {
    Scratch::of(image, 1).map_or(0, |scratch| scratch.former - scratch.required)
}

fn clear_former(image: &[u8], n: u32, scratch: &mut [u32]) {
    let former = Scratch::of(image, n).expect("a checked image").former;
    if let Some(words) = scratch.get_mut(..former) {
        words.fill(0);
    }
}

/// The unchanged Rust's netlist, where it keeps the limits.
fn lower_unchanged(image: &[u8], n: u32, p: u32, netlist: &mut [u32]) {
    let answer = driver::lower_unchanged(image, false);
    if let driver::Answer::Netlist { nodes, records } = &answer {
        let list_words: usize = records.iter().map(Vec::len).sum();
        if nodes.len() <= n as usize && list_words <= p as usize {
            let words = driver::words(&answer, n, p);
            netlist[..words.len()].copy_from_slice(&words);
        }
    }
}

const MUX: u32 = 6;
const MEMORY: u32 = 2;

fn exchange_mux_sides(netlist: &mut [u32]) {
    let nets = netlist[1] as usize;
    let nodes = netlist[16..].chunks_exact_mut(6).take(nets);
    if let Some(mux) = nodes.into_iter().find(|node| node[0] == MUX) {
        mux.swap(4, 5);
    }
}

/// Adds 1 to the depth in the first memory record.
fn enlarge_memory(netlist: &mut [u32]) {
    let (used, mut at) = (netlist[3] as usize, netlist[4] as usize);
    let end = at + used;
    while at < end {
        if netlist[at] == MEMORY {
            netlist[at + 2] += 1;
            return;
        }
        at += match netlist[at] {
            0 => 3 + netlist[at + 2] as usize,
            1 => 13,
            3 => 4 + 3 * netlist[at + 2] as usize,
            _ => 4 + 2 * netlist[at + 2] as usize,
        };
    }
}
