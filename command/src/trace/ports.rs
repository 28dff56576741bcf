//! The ports of a netlist by name, and their bits in a line.

const PORT: u32 = 0;
const INPUT_NODE: u32 = 0;

/// A port. Its bits stand side by side in a line, bit 0 first.
#[derive(Clone, Debug, PartialEq, Eq)]
pub struct Port {
    pub signal: u32,
    pub name: String,
    pub width: usize,
}

/// All ports, each sort in the order of the list records.
#[derive(Clone, Debug, Default, PartialEq, Eq)]
pub struct Ports {
    pub inputs: Vec<Port>,
    pub outputs: Vec<Port>,
}

impl Ports {
    /// The ports of a netlist that was accepted, named by their signals' numbers.
    pub fn of(netlist: &[u32], name: impl Fn(u32) -> String) -> Ports {
        let mut ports = Ports::default();
        for record in records(netlist).filter(|record| record[0] == PORT) {
            let (signal, nets) = (record[1], &record[3..]);
            let is_input = kind_of(netlist, nets[0]) == INPUT_NODE;
            let port = Port { signal, name: name(signal), width: nets.len() };
            if is_input { &mut ports.inputs } else { &mut ports.outputs }.push(port);
        }
        ports
    }
}

/// The list records of a netlist that was accepted.
pub fn records(netlist: &[u32]) -> impl Iterator<Item = &[u32]> {
    let mut at = 0;
    std::iter::from_fn(move || {
        let [_, length, next] = port::netlist_record(netlist, at)?;
        let from = (netlist[4] + at) as usize;
        at = next;
        netlist.get(from..from + length as usize)
    })
}

/// The kind of a net's node.
pub fn kind_of(netlist: &[u32], net: u32) -> u32 {
    port::netlist_node(netlist, net).map_or(u32::MAX, |node| node[0])
}

/// The bits that a line of these ports has.
pub fn bits(ports: &[Port]) -> usize {
    ports.iter().map(|port| port.width).sum()
}

/// Each port with its bits in a line.
pub fn words_of<'a>(ports: &'a [Port], line: &'a [u8]) -> impl Iterator<Item = (&'a Port, &'a [u8])> {
    let mut left = line;
    ports.iter().map(move |port| {
        let (word, behind) = left.split_at(port.width);
        left = behind;
        (port, word)
    })
}

/// A word's bits, the highest first.
pub fn binary(word: &[u8]) -> String {
    word.iter().rev().map(|&bit| char::from(bit)).collect()
}

/// A word in hexadecimal digits, as many as its width has.
pub fn hexadecimal(word: &[u8]) -> String {
    let digit = |bits: &[u8]| bits.iter().rev().fold(0, |sum, bit| 2 * sum + u32::from(bit - b'0'));
    let digits = word.chunks(4).rev().map(digit);
    digits.map(|digit| char::from_digit(digit, 16).unwrap_or('?')).collect()
}
