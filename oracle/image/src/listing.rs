//! The listing of a netlist image (docs/RULES.md, listing): its nets, then the records
//! of its list, with the names that the module image has.

use crate::format::{Image, ABSENT};
use crate::netlist::{Netlist, HEADER_WORDS, NODE_WORDS};
use std::fmt::Write;

/// Kinds of nets, in number order.
pub const KINDS: [&str; 12] = [
    "input",
    "constant",
    "and",
    "or",
    "xor",
    "not",
    "mux",
    "registeroutput",
    "output",
    "memoryoutput",
    "arithmeticoutput",
    "comparisonoutput",
];

/// Sorts of list records, in number order.
pub const SORTS: [&str; 5] = ["port", "register", "memory", "arithmetic", "comparison"];

/// The listing of the netlist that an accepted image's buffer holds. `None`
/// where the words are no netlist image of it.
pub fn listing(image: &[u8], words: &[u32]) -> Option<String> {
    let image = Image::decode(image)?;
    let netlist = Netlist::decode(words).ok()?;
    let mut text = format!("nets {} list {}\n", netlist.nodes.len(), netlist.records.iter().map(Vec::len).sum::<usize>());
    let nodes = words[HEADER_WORDS..].chunks(NODE_WORDS).take(netlist.nodes.len());
    for (net, node) in nodes.enumerate() {
        let kind = KINDS.get(node[0] as usize)?;
        let _ = write!(text, "{net} {kind}{}", label(&image, node)?);
        numbers(&mut text, node[3..].iter().filter(|&&input| input != ABSENT));
    }
    for record in &netlist.records {
        text.push_str(SORTS[record[0] as usize]);
        if record[0] == 0 {
            let _ = write!(text, " {}", image.name_of(image.signals.get(record[1] as usize)?)?);
            numbers(&mut text, &record[3..]);
        } else {
            numbers(&mut text, &record[1..]);
        }
    }
    Some(text)
}

/// What stands between a node's kind and its inputs, with a space before each
/// word: the name of a source or an output, the value of a constant, the cell
/// and bit of a cell's output. `None` where there is no such name.
fn label(image: &Image, node: &[u32]) -> Option<String> {
    let (kind, owner, bit) = (node[0], node[1], node[2]);
    let record = owner as usize;
    Some(match kind {
        0 | 8 => {
            let signal = image.signals.get(record)?;
            format!(" {}", bit_name(image.name_of(signal)?, signal[2], bit))
        }
        7 => {
            let register = image.registers.get(record)?;
            let width = image.signals.get(register[2] as usize)?[2];
            format!(" {}", bit_name(image.name_of(register)?, width, bit))
        }
        9 => {
            let memory = image.memories.get(record)?;
            let width = memory[crate::memory_field::WORD_WIDTH];
            format!(" {}", read_data_bit_name(image.name_of(memory)?, width, bit))
        }
        1 => format!(" {owner}"),
        10 | 11 => format!(" {owner} {bit}"),
        _ => String::new(),
    })
}

/// The name of a read data bit of a memory of this name and word width. The second
/// port's bits number on; their names end in `_b` and count from 0.
pub fn read_data_bit_name(name: &str, width: u32, bit: u32) -> String {
    match bit.checked_sub(width) {
        None => bit_name(name, width, bit),
        Some(bit) => bit_name(&format!("{name}_b"), width, bit),
    }
}

/// A bit's name: the plain name of a one-bit word, else with its number.
pub fn bit_name(name: &str, width: u32, bit: u32) -> String {
    match width {
        1 => name.to_string(),
        _ => format!("{name}[{bit}]"),
    }
}

/// Ends a line with these numbers.
fn numbers<'a>(text: &mut String, numbers: impl IntoIterator<Item = &'a u32>) {
    for number in numbers {
        let _ = write!(text, " {number}");
    }
    text.push('\n');
}
