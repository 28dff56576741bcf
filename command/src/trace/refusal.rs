//! The program's refusals in words: which word of the netlist, which clock,
//! reset or memory, which character of which line, which memory's ports, which
//! name.

use super::given::Given;
use super::history::MOST_NAMES;
use super::lines::Stopped;
use super::named::{Named, Verb};
use super::ports::{Port, bits, kind_of, records, words_of};
use super::{LIST_WORDS, MEMORY_BITS, NETS};
use crate::refusal::{line, unknown};
use crate::{Answer, stored};
use image::ABSENT;

const REGISTER: u32 = 1;
const MEMORY: u32 = 2;
const INPUT_NODE: u32 = 0;

/// Ports that are named where a line is of another length.
const NAMED: usize = 16;
/// Characters that are shown of a line that is no `keep` and no `back`.
const SHOWN: usize = 40;

/// `refused`, the three numbers, and what they mean.
pub fn in_words(answer: Answer, given: &Given, stopped: &Stopped) -> String {
    let [number, place, memory] = answer;
    let words = match number {
        11 => stored::why(&given.words, place),
        12 => not_taken(given),
        13 => wrong_line(place, given.ports.as_ref().map_or(&[], |ports| &ports.inputs), stopped),
        14 => write_clash(place, memory, given),
        15 => wrong_name(place, stopped),
        _ => unknown(),
    };
    line(answer, &words)
}

// The netlist.

fn not_taken(given: &Given) -> String {
    let words = &given.words;
    let word = |at: usize| words.get(at).copied().unwrap_or(0);
    let (limit, used) = (word(4).saturating_sub(16) / 6, word(3));
    if limit != NETS {
        let right = format!("./lower FILE --nets {NETS} --words {LIST_WORDS} --words-out F writes such a netlist");
        return format!("the netlist was made with N = {limit}, and a trace needs N = {NETS}: {right}");
    }
    if used > LIST_WORDS {
        return format!("the netlist has {used} list words, at most {LIST_WORDS}");
    }
    let no_input = records(words).flat_map(|record| controls(given, record)).find(|(_, net)| kind_of(words, *net) != INPUT_NODE);
    match no_input {
        Some((name, net)) => format!("{name} is net {net}, {}: it must be an input", stored::kind_in_words(kind_of(words, net))),
        None => memory_bits(given),
    }
}

/// The clocks and asynchronous resets of a record, by name, and their nets.
fn controls(given: &Given, record: &[u32]) -> Vec<(String, u32)> {
    match record[0] {
        REGISTER => {
            let name = given.name_of("register", 4, record[1]);
            let clock = Some((format!("the clock of {name}"), record[5]));
            let is_asynchronous = record[9] != ABSENT && record[11] == 1;
            let reset = is_asynchronous.then(|| (format!("the asynchronous reset of {name}"), record[9]));
            [clock, reset].into_iter().flatten().collect()
        }
        MEMORY => {
            let name = given.name_of("memory", 5, record[1]);
            let of_port = |(number, clock)| (format!("the clock of port {number} of {name}"), clock);
            (0..).zip(port_clocks(record)).map(of_port).collect::<Vec<(String, u32)>>()
        }
        _ => Vec::new(),
    }
}

/// The clock nets of a memory's ports.
fn port_clocks(record: &[u32]) -> Vec<u32> {
    let mut from = 6;
    let clock = |_| {
        let lists: u32 = record[from..from + 4].iter().sum();
        from += 10 + lists as usize;
        record[from - 2]
    };
    (0..record[5]).map(clock).collect()
}

fn memory_bits(given: &Given) -> String {
    let memories = records(&given.words).filter(|record| record[0] == MEMORY);
    let sizes: Vec<(String, u64)> =
        memories.map(|record| (given.name_of("memory", 5, record[1]), u64::from(record[2]) * u64::from(record[7]))).collect();
    let sum: u64 = sizes.iter().map(|(_, size)| size).sum();
    if sum <= MEMORY_BITS {
        return unknown();
    }
    let each: Vec<String> = sizes.into_iter().map(|(name, size)| format!("{name} has {size}")).collect();
    format!("the memories have {sum} bits, at most {MEMORY_BITS}: {}", each.join(", "))
}

// The trace.

fn wrong_line(number: u32, inputs: &[Port], stopped: &Stopped) -> String {
    let Stopped { line, is_ended, .. } = stopped;
    let (asked, at) = (bits(inputs), numbered(number));
    if number == u32::MAX {
        return format!("a trace has at most {number} lines");
    }
    if !is_ended && (line.len() <= asked || Named::read(line).is_some()) {
        return format!("{at} is the last one and does not end with byte 10");
    }
    let before_13 = line.strip_suffix(b"\r");
    if before_13.is_some_and(|line| line.len() == asked || Named::read(line).is_some()) {
        return format!("{at} ends with bytes 13 and 10, and lines end with byte 10 alone");
    }
    if let Some(verb) = Verb::meant(line) {
        return format!("{at} is {}: {}", shown(line), verb.form());
    }
    if line.len() != asked {
        let more = if *is_ended { "" } else { "more than " };
        let length = if *is_ended { line.len() } else { asked };
        return format!("{at} has {more}{length} characters, and there are {asked} input bits{}", named(inputs));
    }
    wrong_letter(inputs, line).map_or(unknown(), |wrong| format!("{at} has {wrong}"))
}

fn numbered(line: u32) -> String {
    format!("line {line}, counted from 0,")
}

/// A line in quotes, or its beginning.
fn shown(line: &[u8]) -> String {
    format!("{:?}", String::from_utf8_lossy(&line[..line.len().min(SHOWN)]))
}

fn write_clash(number: u32, memory: u32, given: &Given) -> String {
    let (name, at) = (given.name_of("memory", 5, memory), numbered(number));
    format!("both ports of {name} write to one word in the step to {at} so this step has no defined end")
}

fn wrong_name(number: u32, stopped: &Stopped) -> String {
    let (at, held) = (numbered(number), stopped.held.join(", "));
    let Some(Named { verb, name }) = Named::read(&stopped.line) else {
        return unknown();
    };
    match (verb, stopped.held.len()) {
        (Verb::Back, 0) => format!("{at} goes back to {name}, and no name is kept before it"),
        (Verb::Back, _) => format!("{at} goes back to {name}, which is not kept: the names held are {held}"),
        (Verb::Keep, MOST_NAMES) => format!("{at} keeps {name}, and at most {MOST_NAMES} names are held: {held}"),
        (Verb::Keep, _) if number == 0 => format!("{at} keeps {name} before the first settings line: there is nothing to keep yet"),
        (Verb::Keep, _) => unknown(),
    }
}

/// The ports in the order of a line, where they are not too many.
fn named(inputs: &[Port]) -> String {
    let name = |port: &Port| if port.width == 1 { port.name.clone() } else { format!("{}[0..{}]", port.name, port.width - 1) };
    match inputs.len() {
        1..=NAMED => format!(": {}", inputs.iter().map(name).collect::<Vec<_>>().join(", ")),
        _ => String::new(),
    }
}

fn wrong_letter(inputs: &[Port], line: &[u8]) -> Option<String> {
    let letters = words_of(inputs, line).flat_map(|(port, word)| (0..).zip(word).map(move |(bit, &letter)| (port, bit, letter)));
    let (port, bit, letter) = letters.into_iter().find(|(_, _, letter)| !b"01".contains(letter))?;
    let letter = if letter.is_ascii_graphic() { format!("'{}'", char::from(letter)) } else { format!("byte {letter}") };
    Some(format!("{letter} for bit {bit} of {}, which is neither 0 nor 1", port.name))
}
