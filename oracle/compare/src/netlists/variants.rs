//! Refusal 11 once more, in another shape than `reference`: every wrong word is
//! collected with its stage, by a table of fields, and the first of them is the
//! place. Here rules can be read wrongly on purpose, for the self-test.

use super::places::{layout, Field, Role};
use super::run::Reader;
use crate::Answer;
use image::netlist::{HEADER_WORDS, NODE_WORDS};
use image::ABSENT;
use std::borrow::Cow;
use std::collections::{BTreeMap, BTreeSet};

/// A rule or a place read wrongly.
#[derive(Clone, Copy, Debug, PartialEq, Eq)]
pub enum Fault {
    /// A gate or output may take its own net.
    OwnNetAsInput,
    /// A node in two records is wrong in the first.
    FirstListing,
    /// A node of another owner is wrong at the record's second word.
    OwnerOfRecord,
    /// A cell input that is not lower is wrong itself.
    CellInput,
    /// Cell inputs are below the output of bit 0, no matter the others.
    FirstOutputAlone,
    /// A carry need not be lower.
    AnyCarry,
    /// Widths are judged before the record is known to fit.
    WidthBeforeFit,
    /// Lengths are taken modulo 2^32.
    ShortLengths,
    /// A memory has one port unless its count is 2.
    OneOrTwoPorts,
    /// A record may reach past the list words used.
    FitsIntoSlice,
    /// The place of a slice that ends too early is the length it should have.
    LengthNeeded,
    /// The length is judged before the header words.
    LengthFirst,
    /// The counts are judged before the list.
    CountsFirst,
    /// Nodes left without a record come before the list.
    LeftFirst,
    /// Nodes left without a record are not looked for.
    LeftUnseen,
    /// Counts are not judged.
    CountsUnseen,
    /// Equal nodes are not looked for.
    EqualUnseen,
    /// Equal constants are wrong too.
    EqualConstants,
    /// More nets than N is wrong at word 1.
    NetsAtWordOne,
    /// Data widths need not agree.
    DataWidths,
    /// Words that go with an absent control may be 1.
    AbsentLevels,
    /// A carry is for Add alone.
    CarryOfAdd,
    /// A signal has one port.
    SignalOnce,
    /// A cell number is below the net count.
    CellNumbers,
    /// Memory bits go up to 1,023.
    MemoryBits,
    /// A register's data is a lower net.
    LowerData,
    /// No node reads an output node.
    OutputsUnread,
    /// Register bits have no gaps.
    BitsWithoutGaps,
    /// Outputs of a cell rise.
    RisingOutputs,
    /// A constant's bit may be 0.
    ConstantBit,
    /// Unused node words may be anything.
    UnusedNodes,
    /// Words behind the list are 0.
    UnusedList,
    /// A net named may be the net count.
    NetCountAsNet,
    /// A port may have nodes of both kinds.
    MixedPort,
    /// Widths go up to 1,023.
    NarrowWidths,
    /// Depths go up to 65,535.
    ShallowDepths,
    /// Words 10 to 15 are not looked at.
    HeaderTail,
    /// The node behind the last is given too.
    NodeBehind,
    /// What is not given is left as it was.
    NodeUnwritten,
    /// Nodes are given from word 16 on, whatever word 2 holds.
    NodesAtSixteen,
    /// A record is given at the end of the list words used, of words behind them.
    RecordBehind,
    /// A record given may reach past the slice.
    RecordPastSlice,
    /// A memory given is as long as its count says.
    RecordByCount,
    /// The next record begins at this one's length.
    NextIsLength,
}

pub const FAULTS: [Fault; 44] = [
    Fault::OwnNetAsInput,
    Fault::FirstListing,
    Fault::OwnerOfRecord,
    Fault::CellInput,
    Fault::FirstOutputAlone,
    Fault::AnyCarry,
    Fault::WidthBeforeFit,
    Fault::ShortLengths,
    Fault::OneOrTwoPorts,
    Fault::FitsIntoSlice,
    Fault::LengthNeeded,
    Fault::LengthFirst,
    Fault::CountsFirst,
    Fault::LeftFirst,
    Fault::LeftUnseen,
    Fault::CountsUnseen,
    Fault::EqualUnseen,
    Fault::EqualConstants,
    Fault::NetsAtWordOne,
    Fault::DataWidths,
    Fault::AbsentLevels,
    Fault::CarryOfAdd,
    Fault::SignalOnce,
    Fault::CellNumbers,
    Fault::MemoryBits,
    Fault::LowerData,
    Fault::OutputsUnread,
    Fault::BitsWithoutGaps,
    Fault::RisingOutputs,
    Fault::ConstantBit,
    Fault::UnusedNodes,
    Fault::UnusedList,
    Fault::NetCountAsNet,
    Fault::MixedPort,
    Fault::NarrowWidths,
    Fault::ShallowDepths,
    Fault::HeaderTail,
    Fault::NodeBehind,
    Fault::NodeUnwritten,
    Fault::NodesAtSixteen,
    Fault::RecordBehind,
    Fault::RecordPastSlice,
    Fault::RecordByCount,
    Fault::NextIsLength,
];

/// The checker with a fault, or with none.
pub struct Variant(pub Option<Fault>);

/// Stages of the order, in which the least is looked for.
const HEADER: u32 = 0;
const LENGTH: u32 = 1;
const NODES: u32 = 2;
const LIST: u32 = 3;
const LEFT: u32 = 4;
const COUNTS: u32 = 5;

impl Reader for Variant {
    fn check(&self, slice: &[u32]) -> Answer {
        let mut wrong = Wrong::default();
        if self.judge_header(slice, &mut wrong) {
            self.judge_rest(slice, &mut wrong);
        }
        wrong.first().map_or(crate::ACCEPTED, |place| [11, place as u32, 0])
    }

    fn node(&self, slice: &[u32], net: u32) -> (u32, [u32; 6]) {
        let behind = self.has(Fault::NodeBehind) && Some(&net) == slice.get(1) && net < ABSENT;
        let mut slice = Cow::Borrowed(slice);
        if self.has(Fault::NodesAtSixteen) && slice.len() > 2 {
            slice.to_mut()[2] = 16;
        }
        match reference::netlist_node(&slice, net) {
            Some(node) => (1, node),
            None if behind => (1, [0; 6]),
            None if self.has(Fault::NodeUnwritten) => (0, [7; 6]),
            None => (0, [0; 6]),
        }
    }

    fn record(&self, slice: &[u32], at: u32) -> (u32, [u32; 3]) {
        let mut slice = slice.to_vec();
        if self.has(Fault::RecordBehind) && slice.get(3) == Some(&at) {
            slice[3] = ABSENT;
        }
        if self.has(Fault::RecordPastSlice) {
            slice.extend([0; 4]);
        }
        match reference::netlist_record(&slice, at) {
            Some([sort, length, _]) if self.has(Fault::NextIsLength) => (1, [sort, length, length]),
            Some([2, length, next]) if self.has(Fault::RecordByCount) => {
                let first = (slice[4] + at) as usize;
                let by_count = slice.get(first..).and_then(layout).map(|fields| fields.len() as u32);
                by_count.map_or((0, [0; 3]), |by_count| (1, [2, by_count, next - length + by_count]))
            }
            Some(record) => (1, record),
            None => (0, [0; 3]),
        }
    }
}

/// Wrong words with their stages.
#[derive(Default)]
struct Wrong(BTreeSet<(u32, usize)>);

impl Wrong {
    fn unless(&mut self, right: bool, stage: u32, place: usize) {
        if !right {
            self.0.insert((stage, place));
        }
    }

    fn first(&self) -> Option<usize> {
        self.0.first().map(|&(_, place)| place)
    }
}

/// A right header's parts, and what the list has shown so far.
struct Open<'a> {
    slice: &'a [u32],
    nodes: &'a [[u32; NODE_WORDS]],
    list_at: usize,
    used: usize,
    /// The word that lists a net.
    listed: BTreeMap<u32, usize>,
    records: [u32; 5],
    signals: BTreeSet<u32>,
    register_bits: BTreeMap<(u32, u32), usize>,
}

impl Variant {
    fn has(&self, fault: Fault) -> bool {
        self.0 == Some(fault)
    }

    /// Header and length; whether both are right.
    fn judge_header(&self, slice: &[u32], wrong: &mut Wrong) -> bool {
        for (at, &word) in slice.iter().enumerate().take(HEADER_WORDS) {
            let right = match at {
                0 => word == 1,
                1 => word <= 65_535,
                2 => word == 16,
                3 => word <= 65_535,
                4 => word >= 22 && word <= 16 + 6 * 65_535 && (word - 16) % 6 == 0,
                5..=9 => true,
                _ => word == 0 || self.has(Fault::HeaderTail),
            };
            wrong.unless(right, HEADER, at);
        }
        if let [_, nets, _, _, offset, ..] = *slice {
            let place = if self.has(Fault::NetsAtWordOne) { 1 } else { 4 };
            wrong.unless(u64::from(nets) * 6 + 16 <= u64::from(offset), HEADER, place);
        }
        let needed = match slice {
            [_, _, _, used, offset, ..] if slice.len() >= HEADER_WORDS => *used as usize + *offset as usize,
            _ => HEADER_WORDS,
        };
        let stage = if self.has(Fault::LengthFirst) { 0 } else { LENGTH };
        if slice.len() < needed {
            let place = if self.has(Fault::LengthNeeded) { needed } else { slice.len() };
            if self.has(Fault::LengthFirst) {
                wrong.0.clear();
            }
            wrong.unless(false, stage, place);
        }
        wrong.0.is_empty()
    }

    fn judge_rest(&self, slice: &[u32], wrong: &mut Wrong) {
        let [nets, used, list_at] = [1, 3, 4].map(|at| slice[at] as usize);
        let nodes = &slice[HEADER_WORDS..].as_chunks().0[..nets];
        let mut open = Open {
            slice,
            nodes,
            list_at,
            used,
            listed: BTreeMap::new(),
            records: [0; 5],
            signals: BTreeSet::new(),
            register_bits: BTreeMap::new(),
        };
        self.judge_nodes(&open, wrong);
        self.judge_list(&mut open, wrong);
        for (net, node) in nodes.iter().enumerate() {
            let stage = if self.has(Fault::LeftFirst) { LIST } else { LEFT };
            let is_owned = matches!(node[0], 0 | 7..=11) && !self.has(Fault::LeftUnseen);
            wrong.unless(!is_owned || open.listed.contains_key(&(net as u32)), stage, HEADER_WORDS + NODE_WORDS * net);
        }
        for (sort, &count) in open.records.iter().enumerate() {
            let stage = if self.has(Fault::CountsFirst) { LIST } else { COUNTS };
            wrong.unless(slice[5 + sort] == count || self.has(Fault::CountsUnseen), stage, 5 + sort);
        }
        if self.has(Fault::UnusedList) {
            (list_at + used..slice.len()).for_each(|at| wrong.unless(slice[at] == 0, COUNTS + 1, at));
        }
    }

    fn judge_nodes(&self, open: &Open, wrong: &mut Wrong) {
        let mut earlier = BTreeSet::new();
        for (net, node) in open.nodes.iter().enumerate() {
            let first = HEADER_WORDS + NODE_WORDS * net;
            let nets = open.nodes.len() as u32;
            let kind = node[0];
            wrong.unless(kind < 12, NODES, first);
            // Owners and bits below these numbers; none where they are unused.
            let bits = if self.has(Fault::MemoryBits) { 1_024 } else { 2_048 };
            let (owners, bits, inputs) = match kind {
                0 => (Some(512), Some(1_024), 0),
                1 => (Some(2), None, 0),
                2..=4 => (None, None, 2),
                5 => (None, None, 1),
                6 => (None, None, 3),
                7 => (Some(256), Some(1_024), 0),
                8 => (Some(512), Some(1_024), 1),
                9 => (Some(16), Some(bits), 0),
                10 => (Some(u64::MAX), Some(1_024), 0),
                _ => (Some(u64::MAX), Some(1), 0),
            };
            let owners = match owners {
                Some(u64::MAX) if self.has(Fault::CellNumbers) => Some(u64::from(nets)),
                owners => owners,
            };
            let in_range = |value: u32, most: Option<u64>| most.map_or(value == ABSENT, |most| u64::from(value) < most);
            wrong.unless(in_range(node[1], owners), NODES, first + 1);
            let zero = self.has(Fault::ConstantBit) && kind == 1 && node[2] == 0;
            wrong.unless(in_range(node[2], bits) || zero, NODES, first + 2);
            let once = matches!(kind, 0 | 7..=11) && !self.has(Fault::EqualUnseen) || kind == 1 && self.has(Fault::EqualConstants);
            wrong.unless(earlier.insert([kind, node[1], node[2]]) || !once, NODES, first + 2);
            for (number, &input) in node[3..].iter().enumerate() {
                let most = net as u32 + u32::from(self.has(Fault::OwnNetAsInput));
                let reads_output = self.has(Fault::OutputsUnread) && open.nodes.get(input as usize).is_some_and(|node| node[0] == 8);
                let right = if number < inputs { input < most && !reads_output } else { input == ABSENT };
                wrong.unless(right, NODES, first + 3 + number);
            }
        }
        let unused = HEADER_WORDS + NODE_WORDS * open.nodes.len()..open.list_at;
        unused.for_each(|at| wrong.unless(open.slice[at] == 0 || self.has(Fault::UnusedNodes), NODES, at));
    }

    fn judge_list(&self, open: &mut Open, wrong: &mut Wrong) {
        let mut at = open.list_at;
        let end = open.list_at + open.used;
        while at < end {
            let limit = if self.has(Fault::FitsIntoSlice) { open.slice.len() } else { end };
            let words = &open.slice[at..limit];
            if self.has(Fault::WidthBeforeFit) && matches!(words[0], 0 | 3 | 4) && words.len() > 2 {
                wrong.unless((1..=1_024).contains(&words[2]), LIST, at + 2);
                if !(1..=1_024).contains(&words[2]) {
                    return;
                }
            }
            let Some(fields) = self.layout(words) else {
                wrong.unless(false, LIST, at);
                return;
            };
            self.judge_record(open, at, &fields, wrong);
            open.records[words[0] as usize] += 1;
            at += fields.len();
        }
    }

    fn layout(&self, words: &[u32]) -> Option<Vec<Field>> {
        let mut words = words.to_vec();
        if self.has(Fault::OneOrTwoPorts) && words[0] == 2 && words.len() > 5 && words[5] != 2 {
            words[5] = 1;
        }
        if self.has(Fault::ShortLengths) && words.len() > 2 {
            let (head, factor) = match words[0] {
                0 => (3, 1),
                3 => (4, 3),
                4 => (4, 2),
                _ => (0, 0),
            };
            let length = words[2].wrapping_mul(factor).wrapping_add(head);
            if factor > 0 && u64::from(length) != u64::from(words[2]) * u64::from(factor) + u64::from(head) {
                words[2] = length.saturating_sub(head) / factor;
            }
        }
        layout(&words)
    }

    fn judge_record(&self, open: &mut Open, at: usize, fields: &[Field], wrong: &mut Wrong) {
        let words = &open.slice[at..at + fields.len()];
        let nets = open.nodes.len() as u32;
        let is_net = |net: u32| net < nets + u32::from(self.has(Fault::NetCountAsNet));
        let inputs: Vec<(usize, u32)> = (0..fields.len())
            .filter(|&word| match fields[word].1 {
                Role::Operand => true,
                Role::Carry => words[word] != ABSENT && !self.has(Fault::AnyCarry),
                _ => false,
            })
            .map(|word| (word, words[word]))
            .collect();
        let mut last_output = None;
        for (word, &(name, role)) in fields.iter().enumerate() {
            let value = words[word];
            let right = match role {
                Role::Sort => true,
                Role::Range(1, 1_024) if self.has(Fault::NarrowWidths) => (1..1_024).contains(&value),
                Role::Range(1, 65_536) if self.has(Fault::ShallowDepths) => (1..65_536).contains(&value),
                Role::Range(low, high) => (low..=high).contains(&value),
                Role::DataWidth(measure) => {
                    (1..=1_024).contains(&value) && (value == words[measure] || self.has(Fault::DataWidths))
                }
                Role::Net if name == "data" && self.has(Fault::LowerData) => value < words[3],
                Role::Net | Role::Operand => is_net(value),
                Role::Carry if self.has(Fault::CarryOfAdd) && words[1] != 0 => value == ABSENT,
                Role::Control | Role::Carry => value == ABSENT || is_net(value),
                Role::With(control) => value == 0 || value == 1 && (words[control] != ABSENT || self.has(Fault::AbsentLevels)),
                Role::Own(bit) => {
                    let first = fields.iter().position(|(_, role)| matches!(role, Role::Own(_))) == Some(word);
                    let above = |input: &&(usize, u32)| input.1 < value || self.has(Fault::FirstOutputAlone) && !first;
                    if let Some((input, _)) = inputs.iter().find(|input| !above(input)) {
                        let place = if self.has(Fault::CellInput) { at + input } else { at + word };
                        wrong.unless(false, LIST, place);
                    }
                    let rises = last_output.is_none_or(|last| last < value) || words[0] < 3 || !self.has(Fault::RisingOutputs);
                    last_output = Some(value);
                    rises && self.judge_own(open, at, word, bit, wrong)
                }
            };
            wrong.unless(right, LIST, at + word);
        }
        if words[0] == 0 && self.has(Fault::SignalOnce) {
            wrong.unless(open.signals.insert(words[1]), LIST, at + 1);
        }
        if words[0] == 1 && self.has(Fault::BitsWithoutGaps) {
            open.register_bits.insert((words[1], words[2]), at);
            let before = words[2] == 0 || open.register_bits.contains_key(&(words[1], words[2].wrapping_sub(1)));
            wrong.unless(before, LIST, at + 2);
        }
    }

    /// A net that a record lists as its own.
    fn judge_own(&self, open: &mut Open, at: usize, word: usize, bit: u32, wrong: &mut Wrong) -> bool {
        let words = &open.slice[at..];
        let net = words[word];
        let kind_of = |net: u32| open.nodes.get(net as usize).map(|node| node[0]);
        let kind = match words[0] {
            0 if kind_of(words[3]) == Some(8) => 8,
            0 => 0,
            1 => 7,
            2 => 9,
            sort => 7 + sort,
        };
        let owner = if words[0] < 3 { words[1] } else { open.records[words[0] as usize] };
        let Some(node) = open.nodes.get(net as usize) else { return false };
        let is_kind = node[0] == kind || self.has(Fault::MixedPort) && words[0] == 0 && matches!(node[0], 0 | 8);
        if self.has(Fault::OwnerOfRecord) && is_kind && node[1] != owner && words[0] < 3 {
            wrong.unless(false, LIST, at + 1);
        }
        if !is_kind || node[1..3] != [owner, bit] {
            return false;
        }
        match open.listed.insert(net, at + word) {
            Some(first) if self.has(Fault::FirstListing) => {
                wrong.unless(false, LIST, first);
                true
            }
            earlier => earlier.is_none(),
        }
    }
}
