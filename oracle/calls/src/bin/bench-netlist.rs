//! Benchmarks of `struo_netlist_check` beside struo's own `Netlist::validate`, in
//! one run, on the same netlists. It measures; it judges nothing.

use compare::netlists::cases::{draft_of, HEAVY};
use compare::netlists::draft::Draft;
use compare::netlists::free::{free, Size as FreeSize};
use compare::timing::{least_of, least_time};
use driver::Rebuilt;
use image::netlist_parts::{
    arithmetic_output, comparison_output, constant, input, memory_output, not, output, register, register_output, NodeWords,
};
use image::{generate, Image, Random, Size, ABSENT};
use std::hint::black_box;

const USAGE: &str = "bench-netlist
    Times of struo_netlist_check and of Netlist::validate, netlist by netlist.
    struo_netlist_check takes words; validate takes a Netlist that stands ready.
    Both accept every one of them. Both times are the least processor time of many
    calls. Then slices that are refused, whose nodes are chosen so that the search
    for equal ones takes long; validate has no such search.";

fn main() {
    if std::env::args().len() > 1 {
        println!("{USAGE}");
        return;
    }
    driver::with_big_stack(|| {
        println!("| netlist | nets | list words | port | Rust | port / Rust | port, ns a net and list word |\n|---|---|---|---|---|---|---|");
        rows("bench case K2", &[lowered(&k2())]);
        for (name, size) in [("random tiny", Size::Tiny), ("random small", Size::Small), ("random medium", Size::Medium), ("random large", Size::Large)] {
            rows(&format!("lowered, {name}, 20 netlists"), &random(size, 20));
        }
        for (name, image) in HEAVY {
            rows(&format!("lowered, {name}"), &[lowered(&image())]);
        }
        let by_hand = (0..).map(|number| free(&mut Random::of_case(1, number), FreeSize::Middle));
        rows("made by hand, 20 netlists", &by_hand.filter(is_valid).take(20).collect::<Vec<_>>());
        for (name, draft) in WORST {
            rows(&format!("worst: {name}"), &[draft()]);
        }
        for nets in [1_000, 2_000, 4_000, 8_000, 16_000, 32_000, 65_535] {
            rows(&format!("growth: gates, {nets}"), &[gates(nets)]);
        }
        for nets in [1_024, 2_048, 4_096, 8_192, 16_384, 32_768, 65_280] {
            rows(&format!("growth: ports, registers, cells and gates, {nets}"), &[all_kinds(nets)]);
        }
        println!("\n| refused: outputs of cells, in no record | nets | port | port, ns a net |\n|---|---|---|---|");
        for nets in [1_000, 4_000, 16_000, 60_000] {
            refused_row("numbered from 0", &numbered(nets, &|number| number));
            refused_row("one root, most digits equal", &one_root(nets));
        }
    });
}

/// One row of a slice in which the first node is left without a record.
fn refused_row(name: &str, draft: &Draft) {
    let words = draft.words();
    assert_eq!(port::netlist_check(&words), [11, 16, 0], "{name}");
    let port = least_time(|| port::netlist_check(black_box(&words)));
    println!("| {name} | {} | {} | {:.1} |", words[1], time(port), port / f64::from(words[1]));
}

/// One row: the sums over some netlists.
fn rows(name: &str, drafts: &[Draft]) {
    let (mut nets, mut list_words, mut port, mut rust) = (0, 0, 0.0, 0.0);
    for draft in drafts {
        let words = draft.words();
        assert_eq!(port::netlist_check(&words), port::ACCEPTED, "{name}: a right netlist");
        let rebuilt = Rebuilt::new(&words).expect("a netlist that struo can hold");
        assert_eq!(rebuilt.validate(), Ok(()), "{name}: a netlist that validate accepts");
        nets += words[1];
        list_words += words[3];
        port += least(drafts.len(), || port::netlist_check(black_box(&words)));
        rust += least(drafts.len(), || rebuilt.validate().is_ok());
    }
    let each = port / f64::from((nets + list_words).max(1));
    println!("| {name} | {nets} | {list_words} | {} | {} | {:.2} | {each:.1} |", time(port), time(rust), port / rust);
}

/// The least time of a call; of one among many in a tenth of the time.
fn least<T>(among: usize, mut call: impl FnMut() -> T) -> f64 {
    match among {
        1 => least_time(call),
        _ => least_of(50, 20, &mut call),
    }
}

fn time(nanoseconds: f64) -> String {
    match nanoseconds {
        ..10_000.0 => format!("{:.2} µs", nanoseconds / 1e3),
        ..10_000_000.0 => format!("{:.0} µs", nanoseconds / 1e3),
        _ => format!("{:.1} ms", nanoseconds / 1e6),
    }
}

fn k2() -> Image {
    let bytes = image::assemble(include_str!("../../../../corpus/k02.txt"));
    bytes.ok().and_then(|bytes| Image::decode(&bytes)).expect("a text of the corpus")
}

fn lowered(image: &Image) -> Draft {
    draft_of(&image.encode(), 0, false).expect("an image that is accepted")
}

fn random(size: Size, count: usize) -> Vec<Draft> {
    let lowered = (0u64..).filter_map(|seed| draft_of(&generate(seed, size).encode(), 0, false));
    lowered.filter(is_valid).take(count).collect()
}

/// Whether validate goes through it to the end.
fn is_valid(draft: &Draft) -> bool {
    Rebuilt::new(&draft.words()).is_ok_and(|netlist| netlist.validate().is_ok())
}

// ---- growth ----

/// An input, then gates of each kind in turn on the nets before them.
fn gates(nets: u32) -> Draft {
    let gate = |net: u32| {
        let inputs = [net - 1, net / 2, net / 3];
        let (kind, count) = [(2, 2), (3, 2), (4, 2), (5, 1), (6, 3)][net as usize % 5];
        let mut node = [kind, ABSENT, ABSENT, ABSENT, ABSENT, ABSENT];
        node[3..3 + count].copy_from_slice(&inputs[..count]);
        node
    };
    let nodes: Vec<NodeWords> = std::iter::once(input(0, 0)).chain((1..nets).map(gate)).collect();
    laid_out(nodes, vec![vec![0, 0, 1, 0]])
}

/// Blocks of 256 nets: an input of 64 bits, a register bit, a comparison, a sum of
/// 4 bits, gates, an output of 64 bits.
fn all_kinds(nets: u32) -> Draft {
    const BLOCK: u32 = 256;
    const WIDTH: u32 = 64;
    let mut draft = Parts::default();
    for block in 0..nets / BLOCK {
        let first = draft.port(block, WIDTH, &|bit| input(block, bit));
        let stored = draft.push(register_output(block % 256, block / 256));
        draft.record(register(block % 256, block / 256, stored).to_vec());
        draft.comparison(block, 4, stored);
        draft.sum(block, 4, first);
        while draft.nodes.len() as u32 % BLOCK < BLOCK - WIDTH {
            draft.push(not(draft.nodes.len() as u32 - 1));
        }
        draft.port(256 + block, WIDTH, &|bit| output(256 + block, bit, first));
    }
    draft.finish()
}

// ---- slices against the search for equal nodes ----

/// Outputs of cells of chosen numbers.
fn numbered(nets: u32, cell: &dyn Fn(u32) -> u32) -> Draft {
    laid_out((0..nets).map(|number| arithmetic_output(cell(number), 0)).collect(), Vec::new())
}

/// Cells whose keys have the first root of the tree (crates/stored_nodes/specs/Tree)
/// and as many equal low digits as so many keys can have: each node stands deep.
fn one_root(nets: u32) -> Draft {
    const STEP: [(u32, usize); 4] = [(1_000, 12), (4_000, 8), (16_000, 4), (60_000, 0)];
    let (_, equal) = STEP.into_iter().find(|(most, _)| nets <= *most).expect("at most 60,000 nets");
    let mix = |hash: u32, word: u32| hash.wrapping_mul(2_654_435_761).wrapping_add(word);
    let root = |cell: &u32| {
        let key = ((10 << 32) + u64::from(*cell)) << 11;
        let hash = mix(mix(mix(0, (key >> 32) as u32), key as u32), 0);
        (u64::from(hash) * u64::from(nets)) >> 32
    };
    let cells: Vec<u32> = (0..=u32::MAX).step_by(1 << equal).filter(|cell| root(cell) == 0).take(nets as usize).collect();
    numbered(nets, &|number| cells[number as usize])
}

// ---- worst cases ----

type Worst = (&'static str, fn() -> Draft);

const WORST: [Worst; 12] = [
    ("constants alone", || laid_out(vec![constant(1); 65_535], Vec::new())),
    ("muxes", || muxes()),
    ("inputs, 63 signals of 1,024 bits", || ports(63, 1_024, false)),
    ("inputs, 512 signals of 120 bits", || ports(512, 120, false)),
    ("outputs, 511 signals of 120 bits", || ports(511, 120, true)),
    ("inputs, listed from the last net to the first", || turned()),
    ("register bits", || registers()),
    ("memories: 15 of two ports, 1,024 bits", || memories()),
    ("sums of 1 bit", || cells(9_361, 1, true)),
    ("sums of 1,024 bits", || cells(21, 1_024, true)),
    ("comparisons of 1 bit", || cells(10_922, 1, false)),
    ("comparisons of 1,024 bits", || cells(31, 1_024, false)),
];

#[derive(Default)]
struct Parts {
    nodes: Vec<NodeWords>,
    records: Vec<Vec<u32>>,
}

impl Parts {
    fn push(&mut self, node: NodeWords) -> u32 {
        self.nodes.push(node);
        self.nodes.len() as u32 - 1
    }

    fn record(&mut self, words: Vec<u32>) {
        self.records.push(words);
    }

    /// A port of new nodes, and the first of them.
    fn port(&mut self, signal: u32, width: u32, node: &dyn Fn(u32) -> NodeWords) -> u32 {
        let nets: Vec<u32> = (0..width).map(|bit| self.push(node(bit))).collect();
        let first = nets[0];
        self.record([vec![0, signal, width], nets].concat());
        first
    }

    /// A sum of one net with itself.
    fn sum(&mut self, cell: u32, width: u32, operand: u32) {
        let outputs: Vec<u32> = (0..width).map(|bit| self.push(arithmetic_output(cell, bit))).collect();
        let operands = vec![operand; 2 * width as usize];
        self.record([vec![3, 0, width, ABSENT], operands, outputs].concat());
    }

    fn comparison(&mut self, cell: u32, width: u32, operand: u32) {
        let output = self.push(comparison_output(cell));
        let operands = vec![operand; 2 * width as usize];
        self.record([vec![4, 0, width], operands, vec![output]].concat());
    }

    fn finish(self) -> Draft {
        laid_out(self.nodes, self.records)
    }
}

fn laid_out(nodes: Vec<NodeWords>, records: Vec<Vec<u32>>) -> Draft {
    Draft { n: nodes.len().max(1), nodes, records }
}

fn muxes() -> Draft {
    let mux = |net: u32| [6, ABSENT, ABSENT, net - 1, net / 2, 0];
    laid_out(std::iter::once(constant(0)).chain((1..65_535).map(mux)).collect(), Vec::new())
}

/// Ports of one width; outputs all read net 0.
fn ports(signals: u32, width: u32, are_outputs: bool) -> Draft {
    let mut draft = Parts::default();
    if are_outputs {
        draft.push(constant(0));
    }
    for signal in 0..signals {
        draft.port(signal, width, &|bit| if are_outputs { output(signal, bit, 0) } else { input(signal, bit) });
    }
    draft.finish()
}

/// The nodes in the opposite order of their records.
fn turned() -> Draft {
    let Draft { n, mut nodes, mut records } = ports(512, 120, false);
    nodes.reverse();
    let last = nodes.len() as u32 - 1;
    records.iter_mut().for_each(|record| record[3..].iter_mut().for_each(|net| *net = last - *net));
    Draft { n, nodes, records }
}

fn registers() -> Draft {
    let mut draft = Parts::default();
    for number in 0..5_041 {
        let (index, bit) = (number % 256, number / 256);
        let stored = draft.push(register_output(index, bit));
        draft.record(register(index, bit, stored).to_vec());
    }
    draft.finish()
}

fn memories() -> Draft {
    let mut draft = Parts::default();
    for memory in 0..15 {
        let mut record = vec![2, memory, 65_536, 0, 1, 2];
        for port in 0..2 {
            let nets: Vec<u32> = (0..1_024).map(|bit| draft.push(memory_output(memory, 1_024 * port + bit))).collect();
            record.extend([16, 1_024, 16, 1_024]);
            record.extend([0; 16]);
            record.extend(nets);
            record.extend([0; 16 + 1_024]);
            record.extend([ABSENT, 0, 0, 0, 0, 0]);
        }
        draft.record(record);
    }
    draft.finish()
}

fn cells(count: u32, width: u32, are_sums: bool) -> Draft {
    let mut draft = Parts::default();
    draft.push(constant(0));
    for cell in 0..count {
        let before = draft.nodes.len() as u32 - 1;
        if are_sums {
            draft.sum(cell, width, before);
        } else {
            draft.comparison(cell, width, before);
        }
    }
    draft.finish()
}
