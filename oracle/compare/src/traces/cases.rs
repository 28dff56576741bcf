//! The inputs that are compared: at the limits, lowered netlists and netlists made by
//! hand with traces, both with a damaged netlist or a damaged trace, netlists that 12
//! refuses or just lets pass, write clashes, keeps and backs that 15 refuses or just
//! lets pass. Half of the other traces have keeps and backs too.

use super::clashes::near_clash;
use super::heavy::HEAVY;
use super::limits::{at_the_limits, bytes};
use super::lines::Inputs;
use super::machine::{machine, Size, N, P};
use super::names::{badly_formed, half_with_names, near_15, right_store};
use crate::netlists::cases::draft_of;
use crate::netlists::damage::damaged;
use crate::netlists::draft::Draft;
use crate::netlists::free::{free, Size as FreeSize};
use image::netlist::Netlist;
use image::netlist_parts::{input, output};
use image::{bring_near_clash, generate, lower_depths, Random, Size as ImageSize, ABSENT};
use std::fmt;
use std::sync::OnceLock;

/// Where an input comes from.
#[derive(Clone, Copy, Debug, PartialEq, Eq, PartialOrd, Ord)]
pub enum Origin {
    Limit(&'static str),
    Lowered,
    ByHand,
    DamagedNetlist,
    DamagedTrace,
    /// Near what 12 refuses.
    Taken,
    /// Near what 14 refuses.
    Clash,
    /// Near what 15 refuses.
    Names,
    /// As free as refusal 11 is.
    Free,
}

impl fmt::Display for Origin {
    fn fmt(&self, f: &mut fmt::Formatter) -> fmt::Result {
        f.write_str(match self {
            Origin::Limit(_) => "at a limit",
            Origin::Lowered => "lowered",
            Origin::ByHand => "by hand",
            Origin::DamagedNetlist => "netlist damaged",
            Origin::DamagedTrace => "trace damaged",
            Origin::Taken => "near refusal 12",
            Origin::Clash => "near refusal 14",
            Origin::Names => "near refusal 15",
            Origin::Free => "any netlist",
        })
    }
}

/// An input of the trace program.
pub struct Case {
    pub origin: Origin,
    pub input: Vec<u8>,
}

/// Case `number` of a run: those at the limits, then a mixture.
pub fn case(random: &mut Random, number: u64) -> Case {
    static LIMITS: OnceLock<Vec<(&str, Vec<u8>)>> = OnceLock::new();
    match LIMITS.get_or_init(at_the_limits).get(number as usize) {
        Some((name, input)) => Case { origin: Origin::Limit(name), input: input.clone() },
        None => mixed_case(random),
    }
}

fn mixed_case(random: &mut Random) -> Case {
    let made = |origin: Origin, input: Vec<u8>| Case { origin, input };
    match random.below(100) {
        0..24 => {
            let (words, lines) = right_or_named(random, true);
            made(Origin::Lowered, bytes(&words, &lines.concat()))
        }
        24..50 => {
            let (words, lines) = right_or_named(random, false);
            made(Origin::ByHand, bytes(&words, &lines.concat()))
        }
        50..60 => {
            let is_lowered = random.flag();
            let (words, lines) = right_or_named(random, is_lowered);
            made(Origin::DamagedTrace, damaged_trace(random, &words, lines))
        }
        60..69 => {
            let draft = if random.flag() { lowered(random) } else { by_hand(random) };
            let trace = named_trace(random, &draft.words());
            made(Origin::DamagedNetlist, bytes(&damaged(random, &draft), &trace))
        }
        69..76 => made(Origin::Taken, near_12(random)),
        76..86 => made(Origin::Clash, near_clash(random)),
        86..97 => made(Origin::Names, near_refused_names(random)),
        _ => {
            let size = random.pick(&[FreeSize::Small, FreeSize::Middle]);
            let words = Draft { n: N, ..free(random, size) }.words();
            let trace = named_trace(random, &words);
            made(Origin::Free, bytes(&words, &trace))
        }
    }
}

/// The lines of a trace for a right netlist, half of them with keeps and backs.
fn named_trace(random: &mut Random, words: &[u32]) -> Vec<u8> {
    let lines = trace(random, words);
    half_with_names(random, lines).concat()
}

fn near_refused_names(random: &mut Random) -> Vec<u8> {
    let (words, lines) = match random.below(4) {
        0 => right_store(random),
        number => right(random, number == 1),
    };
    let lines = near_15(random, lines);
    bytes(&words, &lines.concat())
}

// ---- right inputs ----

/// A netlist that 11 lets pass, and a right trace. In many of them contents show.
pub fn right(random: &mut Random, is_lowered: bool) -> (Vec<u32>, Vec<Vec<u8>>) {
    let mut draft = if is_lowered { lowered(random) } else { by_hand(random) };
    if random.chance(60) {
        show_contents(random, &mut draft);
    }
    let words = draft.words();
    let lines = trace(random, &words);
    (words, lines)
}

/// The same, half of the traces with keeps and backs.
fn right_or_named(random: &mut Random, is_lowered: bool) -> (Vec<u32>, Vec<Vec<u8>>) {
    let (words, lines) = right(random, is_lowered);
    let lines = half_with_names(random, lines);
    (words, lines)
}

pub fn by_hand(random: &mut Random) -> Draft {
    match random.below(200) {
        0 => HEAVY[random.below(HEAVY.len())].1(),
        1..120 => machine(random, Size::Small),
        120..180 => machine(random, Size::Middle),
        _ => machine(random, Size::Large),
    }
}

/// The netlist of a random image, its memories small, as it fits the program.
pub fn lowered(random: &mut Random) -> Draft {
    loop {
        let size = match random.below(10) {
            0..4 => ImageSize::Tiny,
            4..9 => ImageSize::Small,
            _ => ImageSize::Medium,
        };
        let mut image = generate(random.next(), size);
        if random.chance(80) {
            lower_depths(&mut image);
        }
        if random.chance(60) {
            bring_near_clash(&mut image, random);
        }
        let draft = draft_of(&image.encode(), 0, random.flag());
        let fits = |draft: &Draft| draft.nodes.len() <= N && draft.records.iter().map(Vec::len).sum::<usize>() <= P;
        if let Some(draft) = draft.filter(fits) {
            return Draft { n: N, ..draft };
        }
    }
}

/// An output port more, of some register bits and read data, as far as there is room.
fn show_contents(random: &mut Random, draft: &mut Draft) {
    let mut contents: Vec<u32> = (0..).zip(&draft.nodes).filter(|(_, node)| matches!(node[0], 7 | 9)).map(|(net, _)| net).collect();
    random.shuffle(&mut contents);
    let used: usize = draft.records.iter().map(Vec::len).sum();
    contents.truncate(random.pick(&[3, 20]).min(N - draft.nodes.len()).min(P.saturating_sub(used + 3)));
    if !contents.is_empty() {
        let (signal, first, width) = (free_signal(draft, 8), draft.nodes.len() as u32, contents.len() as u32);
        draft.nodes.extend((0..).zip(contents).map(|(bit, net)| output(signal, bit, net)));
        draft.records.push([0, signal, width].into_iter().chain(first..first + width).collect());
    }
}

/// A signal that no input (kind 0) or no output (kind 8) has.
fn free_signal(draft: &Draft, kind: u32) -> u32 {
    let signals: Vec<u32> = draft.nodes.iter().filter(|node| node[0] == kind).map(|node| node[1]).collect();
    (0..512).find(|signal| !signals.contains(signal)).expect("a signal that is free")
}

/// Lines for a right netlist.
pub fn trace(random: &mut Random, words: &[u32]) -> Vec<Vec<u8>> {
    let netlist = Netlist::decode(words).unwrap_or_else(|problem| panic!("a right netlist: {problem}"));
    let count = match random.below(40) {
        0 => 0,
        1 => 1,
        39 => 400,
        _ => random.range(2, 40) as usize,
    };
    Inputs::of(&netlist).lines(random, count)
}

// ---- damaged traces ----

fn damaged_trace(random: &mut Random, words: &[u32], mut lines: Vec<Vec<u8>>) -> Vec<u8> {
    let at = random.below(lines.len() + 1);
    let mut words = words.to_vec();
    let mut missing = 0;
    match random.below(13) {
        0 => lines.insert(at, b"\n".to_vec()),
        1 => lines.insert(at, random.pick(&[&b"keep a\n"[..], b"back a\n", b"\r\n", b"0", b" ", b"\0\0\0\0", b"\xef\xbb\xbf"]).to_vec()),
        2 => words.resize(16 + 6 * N + P, 0),
        3 => words.extend((0..random.range(1, 9)).map(|_| 0)),
        4 => missing = 1,
        5 => lines.iter_mut().for_each(|line| line.insert(line.len() - 1, b'\r')),
        6 => missing = random.range(1, 40) as usize,
        7 => words.truncate(words.len() - random.range(1, 6).min(words.len() as u32) as usize),
        12 => lines.insert(at, badly_formed(random)),
        _ if at == lines.len() => lines.push(vec![b'0'; random.below(6)]),
        8 => drop(lines[at].remove(0)),
        9 => lines[at].insert(0, random.pick(b"01")),
        10 => drop(lines[at].pop()),
        _ => {
            let letter = random.below(lines[at].len());
            lines[at][letter] = if random.flag() { random.pick(b"\0 /2:\r\xff\n\x0b\xb0\xb1") } else { random.next() as u8 };
        }
    }
    let mut input = bytes(&words, &lines.concat());
    input.truncate(input.len().saturating_sub(missing));
    input
}

// ---- near 12 ----

/// A netlist by hand with one thing changed that 12 judges, or two.
fn near_12(random: &mut Random) -> Vec<u8> {
    let mut draft = by_hand(random);
    let lines = named_trace(random, &draft.words());
    for _ in 0..random.range(1, 2) {
        match random.below(6) {
            0 => draft.n = random.pick(&[N - 1, N + 1, N + 1, 65_535]).max(draft.nodes.len()),
            1 | 2 => other_control(random, &mut draft),
            3 | 4 => other_depth(random, &mut draft),
            _ => add_port(random, &mut draft),
        }
    }
    let mut words = draft.words();
    match random.below(12) {
        0 => words[5 + random.below(5)] ^= 1,
        1 => words[10 + random.below(6)] ^= 1,
        2 => words.truncate(random.below(17)),
        3 => words.truncate(words.len() - 1),
        _ => {}
    }
    bytes(&words, &lines)
}

/// A clock, a reset's net or its mode changed.
fn other_control(random: &mut Random, draft: &mut Draft) {
    let nets = draft.nodes.len();
    let near = |draft: &Draft| draft.records.iter().position(|record| record[0] == 2);
    let registers: Vec<usize> = (0..draft.records.len()).filter(|&at| draft.records[at][0] == 1).collect();
    let memory = near(draft).filter(|_| registers.is_empty() || random.flag());
    if let Some(at) = memory {
        let place = draft.records[at].len() - 2;
        draft.records[at][place] = random.below(nets) as u32;
    } else if !registers.is_empty() {
        let record = &mut draft.records[random.pick(&registers)];
        match random.below(3) {
            0 => record[5] = random.below(nets) as u32,
            1 if record[9] != ABSENT => record[9] = random.below(nets) as u32,
            _ if record[9] != ABSENT => record[11] = 1,
            _ => record[9..].copy_from_slice(&[random.below(nets) as u32, 0, random.range(0, 1), 1]),
        }
    }
}

/// A memory as deep as the limit lets it be, or a word deeper.
fn other_depth(random: &mut Random, draft: &mut Draft) {
    let bits = |record: &[u32]| record[2] * record[7];
    let memories: Vec<usize> = (0..draft.records.len()).filter(|&at| draft.records[at][0] == 2).collect();
    if memories.is_empty() {
        return;
    }
    let at = random.pick(&memories);
    let others: u32 = memories.iter().filter(|&&other| other != at).map(|&other| bits(&draft.records[other])).sum();
    let width = draft.records[at][7];
    let most = (65_536u32.saturating_sub(others) / width).max(1);
    draft.records[at][2] = random.pick(&[most, (most + 1).min(65_536), 65_536]);
}

/// A port of a new input that makes up the list words to about 2,048.
fn add_port(random: &mut Random, draft: &mut Draft) {
    let used: usize = draft.records.iter().map(Vec::len).sum();
    let width = (P + random.below(3)).saturating_sub(used + 4);
    let signal = free_signal(draft, 0);
    if (1..=N - draft.nodes.len()).contains(&width) {
        let first = draft.nodes.len() as u32;
        draft.nodes.extend((0..width as u32).map(|bit| input(signal, bit)));
        draft.records.push([0, signal, width as u32].into_iter().chain(first..first + width as u32).collect());
    }
}
