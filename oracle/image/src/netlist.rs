//! The netlist image (docs/FORMATS.md), read from its words alone into nodes and
//! records. Whatever would make a wrong value, listing, drawing or Verilog is
//! refused with one line of text; what refusal 11 lets pass is read.

use crate::format::ABSENT;
use std::collections::BTreeSet;

/// The edition of a netlist image, header word 0.
pub const EDITION: u32 = 1;
pub const HEADER_WORDS: usize = 16;
pub const NODE_WORDS: usize = 6;

/// A net's number.
pub type Net = u32;

/// A netlist.
#[derive(Default)]
pub struct Netlist {
    pub nodes: Vec<Node>,
    pub ports: Vec<Port>,
    pub registers: Vec<RegisterBit>,
    pub memories: Vec<Memory>,
    pub arithmetic: Vec<Arithmetic>,
    pub comparisons: Vec<Comparison>,
    /// The words of each record, in the order of the list.
    pub records: Vec<Vec<u32>>,
}

/// What makes a net.
#[derive(Clone, Copy, PartialEq, Eq, Debug)]
pub enum Node {
    Input {
        signal: u32,
        bit: u32,
    },
    Constant(bool),
    And(Net, Net),
    Or(Net, Net),
    Xor(Net, Net),
    Not(Net),
    Mux {
        condition: Net,
        then: Net,
        otherwise: Net,
    },
    RegisterOutput {
        register: u32,
        bit: u32,
    },
    Output {
        signal: u32,
        bit: u32,
        input: Net,
    },
    MemoryOutput {
        memory: u32,
        bit: u32,
    },
    ArithmeticOutput {
        cell: u32,
        bit: u32,
    },
    ComparisonOutput {
        cell: u32,
    },
}

/// All bits of an input or output.
pub struct Port {
    pub signal: u32,
    pub input: bool,
    pub nets: Vec<Net>,
}

/// A one-bit control and whether it acts when low.
#[derive(Clone, Copy)]
pub struct Control {
    pub net: Net,
    pub low: bool,
}

/// One bit of a register.
pub struct RegisterBit {
    pub register: u32,
    pub bit: u32,
    pub output: Net,
    pub data: Net,
    pub clock: Net,
    pub falling: bool,
    pub enable: Option<Control>,
    pub reset: Option<Control>,
    pub asynchronous: bool,
    pub value: bool,
}

/// A memory.
pub struct Memory {
    pub number: u32,
    pub depth: u32,
    pub ports: Vec<MemoryPort>,
}

/// A port of a memory.
pub struct MemoryPort {
    pub read_address: Vec<Net>,
    pub read_data: Vec<Net>,
    pub write_address: Vec<Net>,
    pub write_data: Vec<Net>,
    pub read_enable: Option<Control>,
    pub write_enable: Control,
    pub clock: Net,
    pub falling: bool,
}

/// An adder (0), subtracter (1) or multiplier (2).
pub struct Arithmetic {
    pub operation: u32,
    pub carry: Option<Net>,
    pub lhs: Vec<Net>,
    pub rhs: Vec<Net>,
    pub outputs: Vec<Net>,
}

/// Below (0), at most (1), and both signed (2, 3).
pub struct Comparison {
    pub operation: u32,
    pub lhs: Vec<Net>,
    pub rhs: Vec<Net>,
    pub output: Net,
}

impl Netlist {
    /// Reads the words of an accepted netlist buffer.
    ///
    /// # Errors
    ///
    /// Says what is no netlist image.
    pub fn decode(words: &[u32]) -> Result<Self, String> {
        let (nodes, list) = sections(words)?;
        let mut netlist = Netlist::default();
        for (number, node) in nodes.chunks(NODE_WORDS).enumerate() {
            let node = read_node(number as u32, node);
            netlist
                .nodes
                .push(node.map_err(|error| format!("net {number}: {error}"))?);
        }
        let mut list = List {
            words: list,
            nets: netlist.nodes.len(),
        };
        while !list.words.is_empty() {
            let (from, place) = (list.words, words[3] as usize - list.words.len());
            let record = netlist.read_record(&mut list);
            record.map_err(|error| format!("record at list word {place}: {error}"))?;
            let taken = from.len() - list.words.len();
            netlist.records.push(from[..taken].to_vec());
        }
        netlist.check_counts(&words[5..10])?;
        netlist.check_owners()?;
        Ok(netlist)
    }

    /// Reads words that stand in a file, four bytes each, low first.
    ///
    /// # Errors
    ///
    /// Says what is no netlist image.
    pub fn from_bytes(bytes: &[u8]) -> Result<Self, String> {
        if !bytes.len().is_multiple_of(4) {
            return Err(format!("{} bytes are no whole words", bytes.len()));
        }
        let words = bytes
            .chunks(4)
            .map(|b| u32::from_le_bytes([b[0], b[1], b[2], b[3]]));
        Netlist::decode(&words.collect::<Vec<_>>())
    }

    fn read_record(&mut self, list: &mut List) -> Result<(), String> {
        match list.word()? {
            0 => self.ports.push(list.port(&self.nodes)?),
            1 => self.registers.push(list.register()?),
            2 => self.memories.push(list.memory()?),
            3 => self.arithmetic.push(list.arithmetic()?),
            4 => self.comparisons.push(list.comparison()?),
            sort => return Err(format!("no record of sort {sort}")),
        }
        Ok(())
    }

    fn check_counts(&self, counts: &[u32]) -> Result<(), String> {
        let found = [
            self.ports.len(),
            self.registers.len(),
            self.memories.len(),
            self.arithmetic.len(),
            self.comparisons.len(),
        ];
        if found.map(|count| count as u32) == counts {
            Ok(())
        } else {
            Err(format!(
                "the header counts records {counts:?}, the list has {found:?}"
            ))
        }
    }

    /// Every node with an owner is where the owner's record says, and cells
    /// take only nets below their outputs.
    fn check_owners(&self) -> Result<(), String> {
        let mut expected: Vec<Option<Node>> = vec![None; self.nodes.len()];
        for (net, node) in self.owned_nodes() {
            if expected[net as usize].replace(node).is_some() {
                return Err(format!("net {net} has two records"));
            }
        }
        for (net, (node, expected)) in self.nodes.iter().zip(expected).enumerate() {
            if is_owned(node) != expected.is_some()
                || expected.is_some_and(|expected| expected != *node)
            {
                return Err(format!("net {net} is not what its record says"));
            }
            if self
                .cell_operands(node)
                .any(|operand| operand as usize >= net)
            {
                return Err(format!("net {net} is below an operand of its cell"));
            }
        }
        self.check_numbers()
    }

    /// The nodes that the records ask for.
    fn owned_nodes(&self) -> Vec<(Net, Node)> {
        let mut nodes = Vec::new();
        for port in &self.ports {
            nodes.extend(zipped(&port.nets, |bit, net| {
                self.port_node(port, bit, net)
            }));
        }
        for &RegisterBit { register, bit, output, .. } in &self.registers {
            nodes.push((output, Node::RegisterOutput { register, bit }));
        }
        for record in &self.memories {
            let memory = record.number;
            let nets: Vec<Net> = record
                .ports
                .iter()
                .flat_map(|port| port.read_data.clone())
                .collect();
            nodes.extend(zipped(&nets, |bit, _| Node::MemoryOutput { memory, bit }));
        }
        for (cell, record) in (0..).zip(&self.arithmetic) {
            nodes.extend(zipped(&record.outputs, |bit, _| Node::ArithmeticOutput {
                cell,
                bit,
            }));
        }
        for (cell, record) in (0..).zip(&self.comparisons) {
            nodes.push((record.output, Node::ComparisonOutput { cell }));
        }
        nodes
    }

    fn port_node(&self, port: &Port, bit: u32, net: Net) -> Node {
        let signal = port.signal;
        match self.nodes[net as usize] {
            Node::Output { input, .. } if !port.input => Node::Output { signal, bit, input },
            _ => Node::Input { signal, bit },
        }
    }

    fn cell_operands(&self, node: &Node) -> Box<dyn Iterator<Item = Net> + '_> {
        match *node {
            Node::ArithmeticOutput { cell, .. } => {
                let cell = &self.arithmetic[cell as usize];
                Box::new(cell.lhs.iter().chain(&cell.rhs).copied().chain(cell.carry))
            }
            Node::ComparisonOutput { cell } => {
                let cell = &self.comparisons[cell as usize];
                Box::new(cell.lhs.iter().chain(&cell.rhs).copied())
            }
            _ => Box::new(std::iter::empty()),
        }
    }

    /// No register bit and no memory has two records.
    fn check_numbers(&self) -> Result<(), String> {
        let bits: BTreeSet<(u32, u32)> =
            self.registers.iter().map(|r| (r.register, r.bit)).collect();
        let memories: BTreeSet<u32> = self.memories.iter().map(|m| m.number).collect();
        if bits.len() != self.registers.len() {
            return Err("a register bit has two records".to_string());
        }
        if memories.len() != self.memories.len() {
            return Err("a memory has two records".to_string());
        }
        Ok(())
    }

    /// The width of each register up to the highest that is there: 0 where it has no
    /// bit, else one more than its highest bit.
    pub fn register_widths(&self) -> Vec<u32> {
        let count = self
            .registers
            .iter()
            .map(|record| record.register + 1)
            .max()
            .unwrap_or(0);
        let mut widths = vec![0; count as usize];
        for record in &self.registers {
            let width = &mut widths[record.register as usize];
            *width = (*width).max(record.bit + 1);
        }
        widths
    }
}

/// Nets and the nodes they should be, bit by bit.
fn zipped(nets: &[Net], node: impl Fn(u32, Net) -> Node) -> Vec<(Net, Node)> {
    (0..)
        .zip(nets)
        .map(|(bit, &net)| (net, node(bit, net)))
        .collect()
}

fn is_owned(node: &Node) -> bool {
    !matches!(
        node,
        Node::Constant(_)
            | Node::And(..)
            | Node::Or(..)
            | Node::Xor(..)
            | Node::Not(_)
            | Node::Mux { .. }
    )
}

/// The words of the nodes and of the list.
fn sections(words: &[u32]) -> Result<(&[u32], &[u32]), String> {
    if words.len() < HEADER_WORDS {
        return Err(format!("{} words are no netlist image", words.len()));
    }
    let [edition, nets, node_offset, list_words, list_offset] =
        [0, 1, 2, 3, 4].map(|at| words[at] as usize);
    if words[0] != EDITION {
        return Err(format!("edition {edition} is not {EDITION}"));
    }
    if node_offset != HEADER_WORDS {
        return Err(format!("node offset {node_offset} is not {HEADER_WORDS}"));
    }
    let node_end = HEADER_WORDS + NODE_WORDS * nets;
    if list_offset < node_end || !(list_offset - HEADER_WORDS).is_multiple_of(NODE_WORDS) {
        return Err(format!(
            "list offset {list_offset} does not fit {nets} nets"
        ));
    }
    let list = words.get(list_offset..list_offset + list_words);
    let list = list.ok_or_else(|| format!("{list_words} list words are not there"))?;
    Ok((&words[HEADER_WORDS..node_end], list))
}

/// A node; the nets it takes are below its own.
fn read_node(number: u32, words: &[u32]) -> Result<Node, String> {
    let &[kind, owner, bit, first, second, third] = words else {
        return Err("a node is cut short".to_string());
    };
    let count = match kind {
        2..=4 => 2,
        5 | 8 => 1,
        6 => 3,
        _ => 0,
    };
    let inputs = [first, second, third];
    if let Some(input) = inputs[..count].iter().find(|input| **input >= number) {
        return Err(format!("takes net {input}"));
    }
    if inputs[count..].iter().any(|input| *input != ABSENT) {
        return Err("has an unused input that is not absent".to_string());
    }
    Ok(match kind {
        0 => Node::Input { signal: owner, bit },
        1 if owner < 2 => Node::Constant(owner == 1),
        2 => Node::And(first, second),
        3 => Node::Or(first, second),
        4 => Node::Xor(first, second),
        5 => Node::Not(first),
        6 => Node::Mux { condition: first, then: second, otherwise: third },
        7 => Node::RegisterOutput { register: owner, bit },
        8 => Node::Output { signal: owner, bit, input: first },
        9 => Node::MemoryOutput { memory: owner, bit },
        10 => Node::ArithmeticOutput { cell: owner, bit },
        11 if bit == 0 => Node::ComparisonOutput { cell: owner },
        _ => return Err(format!("kind {kind} with {owner} and {bit} is none")),
    })
}

/// The rest of the list, read from its front.
struct List<'a> {
    words: &'a [u32],
    nets: usize,
}

impl List<'_> {
    fn word(&mut self) -> Result<u32, String> {
        let (word, rest) = self.words.split_first().ok_or("it is cut short")?;
        self.words = rest;
        Ok(*word)
    }

    fn net(&mut self) -> Result<Net, String> {
        match self.word()? {
            net if (net as usize) < self.nets => Ok(net),
            net => Err(format!("net {net} is not there")),
        }
    }

    fn nets(&mut self, count: u32) -> Result<Vec<Net>, String> {
        if count == 0 || count as usize > self.words.len() {
            return Err(format!("a list of {count} nets"));
        }
        (0..count).map(|_| self.net()).collect()
    }

    /// A word of two values.
    fn flag(&mut self) -> Result<bool, String> {
        match self.word()? {
            0 => Ok(false),
            1 => Ok(true),
            word => Err(format!("{word} where 0 or 1 is due")),
        }
    }

    fn control(&mut self) -> Result<Option<Control>, String> {
        if self.words.first() == Some(&ABSENT) {
            self.word()?;
            self.flag()?;
            return Ok(None);
        }
        Ok(Some(Control {
            net: self.net()?,
            low: self.flag()?,
        }))
    }

    fn port(&mut self, nodes: &[Node]) -> Result<Port, String> {
        let (signal, width) = (self.word()?, self.word()?);
        let nets = self.nets(width)?;
        let input = matches!(nodes[nets[0] as usize], Node::Input { .. });
        Ok(Port {
            signal,
            input,
            nets,
        })
    }

    fn register(&mut self) -> Result<RegisterBit, String> {
        Ok(RegisterBit {
            register: self.word()?,
            bit: self.word()?,
            output: self.net()?,
            data: self.net()?,
            clock: self.net()?,
            falling: self.flag()?,
            enable: self.control()?,
            reset: self.control()?,
            asynchronous: self.flag()?,
            value: self.flag()?,
        })
    }

    fn memory(&mut self) -> Result<Memory, String> {
        let [number, depth, _style, _latency, ports] = [
            self.word()?,
            self.word()?,
            self.word()?,
            self.word()?,
            self.word()?,
        ];
        if depth == 0 || !(1..=2).contains(&ports) {
            return Err(format!(
                "memory {number} of depth {depth} with {ports} ports"
            ));
        }
        let ports: Vec<MemoryPort> = (0..ports)
            .map(|_| self.memory_port())
            .collect::<Result<_, _>>()?;
        let width = ports[0].read_data.len();
        if ports
            .iter()
            .any(|port| port.read_data.len() != width || port.write_data.len() != width)
        {
            return Err("its words have different widths".to_string());
        }
        Ok(Memory { number, depth, ports })
    }

    fn memory_port(&mut self) -> Result<MemoryPort, String> {
        let widths = [self.word()?, self.word()?, self.word()?, self.word()?];
        Ok(MemoryPort {
            read_address: self.nets(widths[0])?,
            read_data: self.nets(widths[1])?,
            write_address: self.nets(widths[2])?,
            write_data: self.nets(widths[3])?,
            read_enable: self.control()?,
            write_enable: self.control()?.ok_or("the write enable is absent")?,
            clock: self.net()?,
            falling: self.flag()?,
        })
    }

    fn arithmetic(&mut self) -> Result<Arithmetic, String> {
        let (operation, width, carry) = (self.word()?, self.word()?, self.word()?);
        if operation > 2 || carry != ABSENT && carry as usize >= self.nets {
            return Err(format!("operation {operation} with carry {carry}"));
        }
        Ok(Arithmetic {
            operation,
            carry: (carry != ABSENT).then_some(carry),
            lhs: self.nets(width)?,
            rhs: self.nets(width)?,
            outputs: self.nets(width)?,
        })
    }

    fn comparison(&mut self) -> Result<Comparison, String> {
        let (operation, width) = (self.word()?, self.word()?);
        if operation > 3 {
            return Err(format!("operation {operation}"));
        }
        Ok(Comparison {
            operation,
            lhs: self.nets(width)?,
            rhs: self.nets(width)?,
            output: self.net()?,
        })
    }
}
