//! Refusal 11 (request Q-2): a reading of "take a netlist back in", made from the
//! sentences of the request alone, which stand in quotes; ranges and formats are
//! docs/FORMATS.md's. Also what a netlist gives "one by one": a node, a record.
//!
//! "Refused: 11, a broken rule, place the first wrong word in this order (of words
//! that disagree, the later in it is wrong): header without its five record
//! counts, nodes, list, nodes left without a record (their kind word), those
//! counts". So each stage goes through its words in rising order and judges a word
//! by itself and by what stands before it in that order; the first that breaks a
//! rule is the place.

use crate::{Answer, FINE};
use std::collections::HashSet;

const HEADER_WORDS: usize = 16;
const NODE_WORDS: usize = 6;
const ABSENT: u32 = u32::MAX;

const NETS: usize = 1;
const NODE_OFFSET: usize = 2;
const LIST_WORDS_USED: usize = 3;
const LIST_OFFSET: usize = 4;
const FIRST_COUNT: usize = 5;
const SORTS: usize = 5;

const INPUT: u32 = 0;
const CONSTANT: u32 = 1;
const NOT: u32 = 5;
const MUX: u32 = 6;
const REGISTER_OUTPUT: u32 = 7;
const OUTPUT: u32 = 8;
const MEMORY_OUTPUT: u32 = 9;
const ARITHMETIC_OUTPUT: u32 = 10;
const COMPARISON_OUTPUT: u32 = 11;

const PORT: u32 = 0;
const REGISTER: u32 = 1;
const MEMORY: u32 = 2;
const ARITHMETIC: u32 = 3;
const COMPARISON: u32 = 4;

const MOST_NETS: u32 = 65_535;
const MOST_LIST_WORDS: u32 = 65_535;
const SIGNALS: u32 = 512;
const REGISTERS: u32 = 256;
const MEMORIES: u32 = 16;
const MOST_WIDTH: u32 = 1_024;
const MOST_ADDRESS_WIDTH: u32 = 32;
const MOST_DEPTH: u32 = 65_536;

/// 11 with the number of the first wrong word in the slice; `FINE` for a
/// netlist that breaks no rule.
pub fn netlist_answer(slice: &[u32]) -> Answer {
    match first_wrong_word(slice) {
        Some(word) => [11, word as u32, 0],
        None => FINE,
    }
}

fn first_wrong_word(slice: &[u32]) -> Option<usize> {
    if let Some(word) = wrong_header_word(slice) {
        return Some(word);
    }
    if ends_too_early(slice) {
        return Some(slice.len());
    }
    let netlist = Opened::new(slice);
    if let Some(word) = netlist.wrong_node_word() {
        return Some(word);
    }
    let mut found = Found::new(netlist.nodes.len());
    match netlist.wrong_list_word(&mut found) {
        Some(word) => Some(word),
        None => netlist.node_left(&found).or_else(|| netlist.wrong_count(&found)),
    }
}

// ---- header ----

/// "Header without its five record counts": words 0 to 4 and 10 to 15, of "the
/// header words that are there".
fn wrong_header_word(slice: &[u32]) -> Option<usize> {
    let there = slice.len().min(HEADER_WORDS);
    let is_count = |word: &usize| (FIRST_COUNT..FIRST_COUNT + SORTS).contains(word);
    (0..there).filter(|word| !is_count(word)).find(|&word| !header_word_is_right(slice, word))
}

/// "16 header words: edition 1, nets, node offset 16, list words used, list offset
/// 16 + 6N, counts .., then 0."
fn header_word_is_right(slice: &[u32], word: usize) -> bool {
    let value = slice[word];
    match word {
        0 => value == 1,
        NETS => value <= MOST_NETS,
        NODE_OFFSET => value == HEADER_WORDS as u32,
        LIST_WORDS_USED => value <= MOST_LIST_WORDS,
        LIST_OFFSET => net_limit(value).is_some_and(|n| slice[NETS] <= n),
        _ => value == 0,
    }
}

/// "N follows from the list offset": 16 + 6N with N from 1 to 65,535.
fn net_limit(list_offset: u32) -> Option<u32> {
    let node_words = list_offset.checked_sub(HEADER_WORDS as u32)?;
    let n = node_words / NODE_WORDS as u32;
    (node_words % NODE_WORDS as u32 == 0 && (1..=MOST_NETS).contains(&n)).then_some(n)
}

/// "Where the slice ends too early, its length, judged after the header words that
/// are there"; "words past the list words used are not read".
fn ends_too_early(slice: &[u32]) -> bool {
    slice.len() < HEADER_WORDS || slice.len() < slice[LIST_OFFSET] as usize + slice[LIST_WORDS_USED] as usize
}

// ---- what the header opens ----

/// A node's six words.
type Node = [u32; NODE_WORDS];

/// A slice whose header words are right and that does not end too early.
struct Opened<'a> {
    slice: &'a [u32],
    nodes: Vec<Node>,
    list_at: usize,
    list: &'a [u32],
}

/// What the records that were gone through have taken.
struct Found {
    /// Nodes that a record lists as its own.
    is_listed: Vec<bool>,
    /// Records by sort.
    records: [u32; SORTS],
}

impl Found {
    fn new(nets: usize) -> Found {
        Found { is_listed: vec![false; nets], records: [0; SORTS] }
    }
}

impl<'a> Opened<'a> {
    fn new(slice: &'a [u32]) -> Opened<'a> {
        let list_at = slice[LIST_OFFSET] as usize;
        let (nodes, _) = slice[HEADER_WORDS..list_at].as_chunks();
        let nodes = nodes[..slice[NETS] as usize].to_vec();
        Opened { slice, nodes, list_at, list: &slice[list_at..list_at + slice[LIST_WORDS_USED] as usize] }
    }

    // ---- nodes ----

    fn wrong_node_word(&self) -> Option<usize> {
        let mut earlier = HashSet::new();
        for (net, node) in self.nodes.iter().enumerate() {
            let place = |word: usize| HEADER_WORDS + NODE_WORDS * net + word;
            let is_again = has_owner(node[0]) && !earlier.insert((node[0], node[1], node[2]));
            let is_right = |word: &usize| node_word_is_right(net as u32, node, *word) && !(is_again && *word == 2);
            if let Some(word) = (0..NODE_WORDS).find(|word| !is_right(word)) {
                return Some(place(word));
            }
        }
        self.wrong_unused_word()
    }

    /// "Unused node words are 0."
    fn wrong_unused_word(&self) -> Option<usize> {
        let first = HEADER_WORDS + NODE_WORDS * self.nodes.len();
        (first..self.list_at).find(|&word| self.slice[word] != 0)
    }

    // ---- list ----

    fn wrong_list_word(&self, found: &mut Found) -> Option<usize> {
        let mut at = 0;
        while at < self.list.len() {
            let rest = &self.list[at..];
            // "A record that does not fit is wrong at its first word."
            let Some(length) = length_by_count(rest) else {
                return Some(self.list_at + at);
            };
            let record = Record { words: &rest[..length], nodes: &self.nodes };
            if let Some(word) = record.wrong_word(found) {
                return Some(self.list_at + at + word);
            }
            found.records[record.words[0] as usize] += 1;
            at += length;
        }
        None
    }

    // ---- after the list ----

    /// "Nodes left without a record (their kind word)."
    fn node_left(&self, found: &Found) -> Option<usize> {
        let is_left = |&net: &usize| has_owner(self.nodes[net][0]) && !found.is_listed[net];
        (0..self.nodes.len()).find(is_left).map(|net| HEADER_WORDS + NODE_WORDS * net)
    }

    /// "Those counts": of ports, registers, memories, arithmetic, comparisons.
    fn wrong_count(&self, found: &Found) -> Option<usize> {
        (0..SORTS).find(|&sort| self.slice[FIRST_COUNT + sort] != found.records[sort]).map(|sort| FIRST_COUNT + sort)
    }
}

/// "Each input, output, register, memory and cell output node."
fn has_owner(kind: u32) -> bool {
    matches!(kind, INPUT | REGISTER_OUTPUT..=COMPARISON_OUTPUT)
}

/// How many inputs a kind has.
fn input_count(kind: u32) -> usize {
    match kind {
        CONSTANT | INPUT => 0,
        NOT | OUTPUT => 1,
        MUX => 3,
        2..=4 => 2,
        _ => 0,
    }
}

/// "A node is kind (`NodeKind` order from 0), owner index or constant value, bit,
/// three inputs; unused is absent". The words before this one are right.
fn node_word_is_right(net: u32, node: &Node, word: usize) -> bool {
    let (kind, value) = (node[0], node[word]);
    match word {
        0 => kind <= COMPARISON_OUTPUT,
        1 => owner_is_in_range(kind, value),
        2 => bit_is_in_range(kind, value),
        _ if word - 3 < input_count(kind) => is_lower(value, net),
        _ => value == ABSENT,
    }
}

/// "Each field lies in document 01's range." Cells have no most.
fn owner_is_in_range(kind: u32, owner: u32) -> bool {
    match kind {
        INPUT | OUTPUT => owner < SIGNALS,
        CONSTANT => owner <= 1,
        REGISTER_OUTPUT => owner < REGISTERS,
        MEMORY_OUTPUT => owner < MEMORIES,
        ARITHMETIC_OUTPUT | COMPARISON_OUTPUT => true,
        _ => owner == ABSENT,
    }
}

/// "A comparison output's bit is 0"; "a second memory port's bits number on"; a
/// constant's and a gate's bit is unused.
fn bit_is_in_range(kind: u32, bit: u32) -> bool {
    match kind {
        INPUT | OUTPUT | REGISTER_OUTPUT | ARITHMETIC_OUTPUT => bit < MOST_WIDTH,
        MEMORY_OUTPUT => bit < 2 * MOST_WIDTH,
        COMPARISON_OUTPUT => bit == 0,
        _ => bit == ABSENT,
    }
}

/// "Every gate, output or cell input is a lower net."
fn is_lower(input: u32, net: u32) -> bool {
    input < net
}

// ---- records ----

/// The length of the record that these words begin with, as its own words say;
/// `None` where its sort is none or it does not fit. A memory has as many ports as
/// its port count says, whatever the count.
fn length_by_count(words: &[u32]) -> Option<usize> {
    record_length(words, |ports| ports)
}

/// As [`length_by_count`], a memory having so many ports for its port count.
fn record_length(words: &[u32], ports: impl Fn(u32) -> u32) -> Option<usize> {
    let word = |at: usize| words.get(at).map(|&word| u64::from(word));
    let length = match *words.first()? {
        PORT => 3 + word(2)?,
        REGISTER => 13,
        MEMORY => {
            let mut end = 6;
            for _ in 0..ports(*words.get(5)?) {
                let widths = words.get(end..end + 4)?;
                let length = 10 + widths.iter().map(|&width| u64::from(width)).sum::<u64>();
                end = usize::try_from(length).ok()?.checked_add(end)?;
            }
            end as u64
        }
        ARITHMETIC => 4 + 3 * word(2)?,
        COMPARISON => 4 + 2 * word(2)?,
        _ => return None,
    };
    usize::try_from(length).ok().filter(|&length| length <= words.len())
}

/// A record that fits, and the nodes that it speaks of.
struct Record<'a> {
    words: &'a [u32],
    nodes: &'a [Node],
}

/// A node as the record that lists it would have it.
struct Own {
    kind: u32,
    owner: u32,
    bit: u32,
}

impl Record<'_> {
    /// The first wrong word; takes the nodes that it lists as its own.
    fn wrong_word(&self, found: &mut Found) -> Option<usize> {
        match self.words[0] {
            PORT => self.wrong_port(found),
            REGISTER => self.wrong_register(found),
            MEMORY => self.wrong_memory(found),
            ARITHMETIC => self.wrong_arithmetic(found),
            _ => self.wrong_comparison(found),
        }
    }

    /// The first word of a range that does not keep a rule.
    fn first_not(&self, range: std::ops::Range<usize>, mut rule: impl FnMut(usize, u32) -> bool) -> Option<usize> {
        range.into_iter().find(|&at| !rule(at, self.words[at]))
    }

    /// "Every net named is below the net count."
    fn is_net(&self, net: u32) -> bool {
        (net as usize) < self.nodes.len()
    }

    /// "Belongs to exactly one record of its sort, whose owner and bit it carries;
    /// no record lists another node as its own." The word that lists it is wrong.
    fn takes(&self, net: u32, own: Own, found: &mut Found) -> bool {
        let Some(node) = self.nodes.get(net as usize) else { return false };
        let is_own = node[..3] == [own.kind, own.owner, own.bit];
        is_own && !std::mem::replace(&mut found.is_listed[net as usize], true)
    }

    /// "Port (0, signal, width, nets)"; "a port's nodes are of one kind".
    fn wrong_port(&self, found: &mut Found) -> Option<usize> {
        let signal = self.words[1];
        let head = self.first_not(1..3, |at, value| match at {
            1 => value < SIGNALS,
            _ => is_width(value),
        });
        head.or_else(|| {
            let first = self.nodes.get(self.words[3] as usize).map_or(INPUT, |node| node[0]);
            let kind = if first == OUTPUT { OUTPUT } else { INPUT };
            self.first_not(3..self.words.len(), |at, net| {
                self.takes(net, Own { kind, owner: signal, bit: at as u32 - 3 }, found)
            })
        })
    }

    /// "Register (1, then 12 words: index, bit, output, data, clock, edge, enable,
    /// level, reset, level, asynchronous, value)". "Absent controls in records are
    /// as in the module image": what goes with one is 0.
    fn wrong_register(&self, found: &mut Found) -> Option<usize> {
        let (register, bit) = (self.words[1], self.words[2]);
        self.first_not(1..13, |at, value| match at {
            1 => value < REGISTERS,
            2 => value < MOST_WIDTH,
            3 => self.takes(value, Own { kind: REGISTER_OUTPUT, owner: register, bit }, found),
            4 | 5 => self.is_net(value),
            6 => value <= 1,
            7 | 9 => self.is_control(value),
            8 => goes_with(self.words[7], value),
            _ => goes_with(self.words[9], value),
        })
    }

    fn is_control(&self, value: u32) -> bool {
        value == ABSENT || self.is_net(value)
    }

    /// "Memory (2, index, depth, style, latency, port count; per port four widths,
    /// four net lists in field order, two controls, clock, edge)".
    fn wrong_memory(&self, found: &mut Found) -> Option<usize> {
        let head = self.first_not(1..6, |at, value| match at {
            1 => value < MEMORIES,
            2 => (1..=MOST_DEPTH).contains(&value),
            3 => value <= 2,
            4 => value == 1,
            _ => (1..=2).contains(&value),
        });
        if head.is_some() {
            return head;
        }
        let mut first = 6;
        for port in 0..self.words[5] {
            if let Some(word) = self.wrong_memory_port(first, port, found) {
                return Some(word);
            }
            first += 10 + self.words[first..first + 4].iter().map(|&width| width as usize).sum::<usize>();
        }
        None
    }

    /// Port number `port`, whose words begin at `first`. "A memory's data widths
    /// agree": with that of the first port's read data.
    fn wrong_memory_port(&self, first: usize, port: u32, found: &mut Found) -> Option<usize> {
        let data_width = self.words[7];
        let widths = self.first_not(first..first + 4, |at, width| match at - first {
            0 | 2 => (1..=MOST_ADDRESS_WIDTH).contains(&width),
            _ => is_width(width) && (at == 7 || width == data_width),
        });
        if widths.is_some() {
            return widths;
        }
        let [read_address, read_data, write_address, write_data] = [0, 1, 2, 3].map(|list| self.words[first + list] as usize);
        let read = first + 4 + read_address;
        let written = read + read_data;
        let controls = written + write_address + write_data;
        let memory = self.words[1];
        self.first_not(first + 4..controls + 6, |at, value| match at {
            _ if at < read => self.is_net(value),
            _ if at < written => {
                let bit = port * data_width + (at - read) as u32;
                self.takes(value, Own { kind: MEMORY_OUTPUT, owner: memory, bit }, found)
            }
            _ if at < controls => self.is_net(value),
            _ => match at - controls {
                0 => self.is_control(value),
                1 => goes_with(self.words[controls], value),
                2 | 4 => self.is_net(value),
                _ => value <= 1,
            },
        })
    }

    /// "Arithmetic (3, operation, width, carry or absent, lhs, rhs, outputs)"; "each
    /// of the two cell kinds is numbered from 0 as made".
    fn wrong_arithmetic(&self, found: &mut Found) -> Option<usize> {
        let head = self.first_not(1..4, |at, value| match at {
            1 => value <= 2,
            2 => is_width(value),
            _ => self.is_control(value),
        });
        head.or_else(|| {
            let outputs = 4 + 2 * self.words[2] as usize;
            self.wrong_cell_net(4, outputs, ARITHMETIC_OUTPUT, found.records[ARITHMETIC as usize], found)
        })
    }

    /// "Comparison (4, operation, width, lhs, rhs, output)".
    fn wrong_comparison(&self, found: &mut Found) -> Option<usize> {
        let head = self.first_not(1..3, |at, value| match at {
            1 => value <= 3,
            _ => is_width(value),
        });
        head.or_else(|| {
            let output = 3 + 2 * self.words[2] as usize;
            self.wrong_cell_net(3, output, COMPARISON_OUTPUT, found.records[COMPARISON as usize], found)
        })
    }

    /// The operands of a cell, then its outputs: "every .. cell input is a lower
    /// net", so an output above all of them, the carry included. The output
    /// stands later, so it is the wrong one where they disagree.
    fn wrong_cell_net(&self, operands: usize, outputs: usize, kind: u32, cell: u32, found: &mut Found) -> Option<usize> {
        let carry = if kind == ARITHMETIC_OUTPUT { self.words[3] } else { ABSENT };
        let inputs = || self.words[operands..outputs].iter().copied().chain((carry != ABSENT).then_some(carry));
        let highest = inputs().max().unwrap_or(0);
        self.first_not(operands..self.words.len(), |at, net| {
            if at < outputs {
                return self.is_net(net);
            }
            let own = Own { kind, owner: cell, bit: (at - outputs) as u32 };
            is_lower(highest, net) && self.takes(net, own, found)
        })
    }
}

/// "Width 1 to 1,024."
fn is_width(value: u32) -> bool {
    (1..=MOST_WIDTH).contains(&value)
}

/// A level, mode or value: 0 or 1, and 0 where the control is absent.
fn goes_with(control: u32, value: u32) -> bool {
    value == 0 || value == 1 && control != ABSENT
}

// ---- one by one ----

/// A node's six words, the nodes beginning at word 2's number, whatever it is;
/// `None` where the net is not below word 1. A word past the slice's end reads as 0.
pub fn netlist_node(slice: &[u32], net: u32) -> Option<Node> {
    let first = u64::from(word_of(slice, NODE_OFFSET as u64)) + NODE_WORDS as u64 * u64::from(net);
    (net < word_of(slice, NETS as u64)).then(|| [0, 1, 2, 3, 4, 5].map(|word| word_of(slice, first + word)))
}

fn word_of(slice: &[u32], at: u64) -> u32 {
    usize::try_from(at).ok().and_then(|at| slice.get(at)).copied().unwrap_or(0)
}

/// Sort and length of the record at list word `at`, and the list word where the
/// next begins; `None` where `at` is not below the list words used, the sort is
/// none, or the record does not fit into the list words used that the slice has
/// from there on. A memory with another port count than 2 has one port here.
pub fn netlist_record(slice: &[u32], at: u32) -> Option<[u32; 3]> {
    let used = word_of(slice, LIST_WORDS_USED as u64);
    if at >= used {
        return None;
    }
    let offset = u64::from(word_of(slice, LIST_OFFSET as u64));
    let place = |list_word: u32| usize::try_from(offset + u64::from(list_word)).map_or(slice.len(), |place| place.min(slice.len()));
    let words = &slice[place(at)..place(used)];
    let length = record_length(words, |ports| if ports == 2 { 2 } else { 1 })? as u32;
    Some([words[0], length, at + length])
}
