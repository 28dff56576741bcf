//! Keeps and backs (request Q-8) in traces: put between the lines of a right trace,
//! right ones or ones just wrong; and what a right trace with them stands for, plain
//! traces one after the other.

use super::lines::Inputs;
use super::machine::N;
use crate::netlists::draft::Draft;
use image::netlist::Netlist;
use image::netlist_parts::{constant, input, memory_output, output, register, register_output, NodeWords};
use image::{Random, ABSENT};
use std::collections::BTreeMap;

/// Names that are much alike, and the longest there may be.
const NAMES: [&str; 13] =
    ["a", "b", "z", "aa", "ab", "ba", "keep", "back", "abcdefg", "abcdefgh", "abcdefgi", "bbcdefgh", "zzzzzzzz"];

/// Names that a right trace holds at most.
const MOST_NAMES: usize = 4;

fn names(random: &mut Random, count: usize) -> Vec<&'static str> {
    let mut names = NAMES.to_vec();
    random.shuffle(&mut names);
    names.truncate(count);
    names
}

fn name_line(word: &str, name: &str) -> Vec<u8> {
    format!("{word} {name}\n").into_bytes()
}

// ---- a netlist ----

/// Inputs clk, d, we, and idle ones up to so many. At a rising clock a register takes
/// d, read data take word 0 of a memory, and where we is 1 that word becomes d.
/// Outputs register, read data and the last input.
pub fn store(inputs: u32) -> Draft {
    let mut nodes: Vec<NodeWords> = (0..inputs).map(|bit| input(0, bit)).collect();
    let [zero, stored, read, first] = [0, 1, 2, 3].map(|place| inputs + place);
    nodes.extend([constant(0), register_output(0, 0), memory_output(7, 0)]);
    nodes.extend([output(1, 0, stored), output(1, 1, read), output(1, 2, inputs - 1)]);
    let mut register = register(0, 0, stored).to_vec();
    register[4] = 1;
    let memory = vec![2, 7, 2, 0, 1, 1, 1, 1, 1, 1, zero, read, zero, 1, ABSENT, 0, 2, 0, 0, 0];
    let port = [0, 0, inputs].into_iter().chain(0..inputs).collect();
    Draft { n: N, nodes, records: vec![port, register, memory, [0, 1, 3].into_iter().chain(first..first + 3).collect()] }
}

/// Such a netlist, with about as many inputs as the longest keep has letters, and a
/// right trace.
pub fn right_store(random: &mut Random) -> (Vec<u32>, Vec<Vec<u8>>) {
    let words = store(random.pick(&[3, 11, 12, 13, 13, 14, 15])).words();
    let netlist = Netlist::decode(&words).expect("a right netlist");
    let count = random.range(2, 30) as usize;
    let lines = Inputs::of(&netlist).lines(random, count);
    (words, lines)
}

// ---- right ones ----

/// Keeps and backs between the lines, up to four names and each back to one that is
/// held. In a long trace they are no more than in a short one.
pub fn with_names(random: &mut Random, lines: Vec<Vec<u8>>) -> Vec<Vec<u8>> {
    let most = random.pick(&[1, 2, 3, MOST_NAMES, MOST_NAMES]);
    let names = names(random, most);
    let often = random.pick(&[15, 30, 55]).min(2_000 / (lines.len() as u32 + 1));
    let mut held = Vec::new();
    let mut with = Vec::new();
    for line in lines {
        with.push(line);
        while random.chance(often) {
            if held.is_empty() || random.chance(35) {
                held.push(random.pick(&names));
                with.push(name_line("keep", held[held.len() - 1]));
            } else {
                with.push(name_line("back", random.pick(&held)));
            }
        }
    }
    with
}

/// Half of the traces with keeps and backs.
pub fn half_with_names(random: &mut Random, lines: Vec<Vec<u8>>) -> Vec<Vec<u8>> {
    if random.flag() { with_names(random, lines) } else { lines }
}

// ---- just wrong ----

/// Lines that are almost a keep, or a back: all are judged by 13.
macro_rules! badly_formed {
    ($word:literal) => {
        [
            $word,
            concat!($word, " "),
            concat!($word, "  a"),
            concat!($word, " a "),
            concat!(" ", $word, " a"),
            concat!($word, " A"),
            concat!($word, " a1"),
            concat!($word, " a_"),
            concat!($word, " a b"),
            concat!($word, " a\r"),
            concat!($word, " a\0"),
            concat!($word, "\ta"),
            concat!($word, "a"),
            concat!($word, "x a"),
            concat!($word, " `"),
            concat!($word, " {"),
            concat!($word, " abcdefghi"),
            concat!($word, " abcdefgh "),
        ]
    };
}

pub const BADLY_FORMED: [[&str; 18]; 2] = [badly_formed!("keep"), badly_formed!("back")];

/// A right trace with one thing put in that 15 refuses, or that is almost a keep or a
/// back, or that is just right.
pub fn near_15(random: &mut Random, lines: Vec<Vec<u8>>) -> Vec<Vec<u8>> {
    let mut lines = with_names(random, lines);
    let at = random.below(lines.len() + 1);
    let word = random.pick(&["keep", "back"]);
    let put: Vec<Vec<u8>> = match random.below(10) {
        0..3 => vec![name_line("back", random.pick(&NAMES))],
        3 => names(random, MOST_NAMES + 1).iter().map(|name| name_line("keep", name)).collect(),
        4 => full_then(random, word),
        5 => vec![badly_formed(random)],
        6 => {
            let line = name_line(word, random.pick(&NAMES));
            vec![changed(random, line)]
        }
        7 => {
            lines.insert(0, name_line(word, "a"));
            vec![]
        }
        8 => {
            lines.push(open_line(random));
            vec![]
        }
        _ => vec![name_line("keep", "b"), name_line("back", random.pick(&["b", "b", "bb", "c"]))],
    };
    lines.splice(at..at, put);
    lines
}

/// As many names as are held at most, then a keep or a back of one of them or of another.
fn full_then(random: &mut Random, word: &str) -> Vec<Vec<u8>> {
    let names = names(random, MOST_NAMES + 1);
    let kept = names[..MOST_NAMES].iter().map(|name| name_line("keep", name));
    let back = name_line("back", names[random.below(MOST_NAMES)]);
    kept.chain([back, name_line(word, random.pick(&names))]).collect()
}

/// With a byte 10.
pub fn badly_formed(random: &mut Random) -> Vec<u8> {
    let word = random.below(BADLY_FORMED.len());
    format!("{}\n", random.pick(&BADLY_FORMED[word])).into_bytes()
}

/// A byte changed, put in or left out.
fn changed(random: &mut Random, mut line: Vec<u8>) -> Vec<u8> {
    let at = random.below(line.len());
    match random.below(3) {
        0 => line[at] = random.next() as u8,
        1 => line.insert(at, random.next() as u8),
        _ => drop(line.remove(at)),
    }
    line
}

/// A last line without byte 10, about as long as the longest keep.
fn open_line(random: &mut Random) -> Vec<u8> {
    let line = random.pick(&["keep a", "back a", "keep abcdefgh", "back abcdefgh", "keep abcdefghi", "keep ", "back", "k"]);
    match random.flag() {
        true => line.into(),
        false => vec![b'0'; random.pick(&[12, 13, 14, 15])],
    }
}

// ---- what they stand for ----

/// A plain trace: the history at a keep, then the settings lines behind a back to it.
#[derive(Clone, Debug, Default, PartialEq, Eq)]
pub struct Ending {
    /// Without their ends.
    pub lines: Vec<String>,
    /// Of those behind the back the numbers in the whole trace.
    numbers: Vec<u32>,
}

/// The plain traces that a right trace stands for, in its order: the first, and one for
/// each back.
pub fn endings(lines: &[Vec<u8>]) -> Vec<Ending> {
    let mut endings = vec![Ending::default()];
    let mut kept: BTreeMap<String, Vec<String>> = BTreeMap::new();
    for (number, line) in (0..).zip(lines) {
        let line = String::from_utf8_lossy(line).trim_end().to_string();
        let ending = endings.last_mut().expect("the plain trace that stands");
        match line.split_once(' ') {
            Some(("keep", name)) => drop(kept.insert(name.to_string(), ending.lines.clone())),
            Some((_, name)) => endings.push(Ending { lines: kept[name].clone(), numbers: vec![] }),
            None => {
                ending.lines.push(line);
                ending.numbers.push(number);
            }
        }
    }
    endings
}

/// What the whole trace prints, if the plain ones print these texts: of each the lines
/// behind the back, up to a write clash, which is told at its line of the whole trace.
pub fn joined(endings: &[Ending], texts: &[String]) -> String {
    let mut whole = String::new();
    for (ending, text) in endings.iter().zip(texts) {
        let before = ending.lines.len() - ending.numbers.len();
        for (line, number) in text.lines().skip(before).zip(&ending.numbers) {
            let clash = line.strip_prefix("refused 14 ").and_then(|place| place.split_once(' '));
            if let Some((_, memory)) = clash {
                return whole + &format!("refused 14 {number} {memory}\n");
            }
            whole += &format!("{line}\n");
        }
    }
    whole
}

#[cfg(test)]
mod tests {
    use super::{endings, joined, Ending};

    #[test]
    fn endings_are_histories() {
        let trace = ["00\n", "keep a\n", "01\n", "keep b\n", "back a\n", "10\n", "back b\n", "back a\n", "11\n"];
        let lines: Vec<Vec<u8>> = trace.iter().map(|line| line.as_bytes().to_vec()).collect();
        let ending = |lines: &[&str], numbers: &[u32]| Ending { lines: lines.iter().map(ToString::to_string).collect(), numbers: numbers.to_vec() };
        let expected = [ending(&["00", "01"], &[0, 2]), ending(&["00", "10"], &[5]), ending(&["00", "01"], &[]), ending(&["00", "11"], &[8])];
        assert_eq!(endings(&lines), expected);
        let texts = ["1\n2\n", "1\n3\n", "1\n2\n", "1\nrefused 14 1 9\n"].map(ToString::to_string);
        assert_eq!(joined(&expected, &texts), "1\n2\n3\nrefused 14 8 9\n");
    }
}
