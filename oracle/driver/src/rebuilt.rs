//! Child module of a copy of struo's netlist (crate struo-ir, unchanged), so that it
//! may fill the private fields: builds a `Netlist` from a netlist image's words,
//! without judging them, as far as its types can hold them.
//!
//! Names are made of the image's numbers: port `signal7`, its bit `signal7[0]`,
//! register bit `register3[1]`, memory `memory2`, cells by their place among the
//! records of their sort, as struo names them. A node is named by its own owner and
//! bit, whatever record lists it. Net k is the output of node k. A node's inputs are
//! its input words that are not absent. A port has the direction of its first net.

use super::{
    ActiveLevel, ArithmeticCell, ArithmeticOp, ClockEdge, ComparisonCell, ComparisonOp,
    EnableControl, MemoryCell, MemoryPort, MemoryStyle, NetId, Netlist, Node, NodeKind, Port,
    PortDirection, RegisterCell, ResetControl,
};
use crate::ABSENT;
use image::netlist::{HEADER_WORDS, NODE_WORDS};

/// The netlist of these words.
///
/// # Errors
///
/// Says what struo's types have no place for.
pub(crate) fn netlist(words: &[u32]) -> Result<Netlist, String> {
    let &[_, nets, _, used, list_offset, ..] = words else {
        return Err("no header".to_string());
    };
    let end = HEADER_WORDS + NODE_WORDS * nets as usize;
    let nodes = words.get(HEADER_WORDS..end).ok_or("no room for the nodes")?;
    let mut netlist = Netlist::new("netlist");
    for (net, node) in (0..).zip(nodes.chunks(NODE_WORDS)) {
        netlist.nodes.push(Node {
            kind: kind(node)?,
            inputs: nets_of(node[3..].iter().filter(|&&input| input != ABSENT)),
            output: NetId(net),
        });
    }
    netlist.next_net = nets;
    let mut at = 0;
    while at < used {
        let [_, length, next] = reference::netlist_record(words, at)
            .ok_or_else(|| format!("no record at list word {at}"))?;
        let start = (list_offset + at) as usize;
        netlist.push_record(&words[start..start + length as usize])?;
        at = next;
    }
    Ok(netlist)
}

fn kind(node: &[u32]) -> Result<NodeKind, String> {
    let (owner, bit) = (node[1], node[2]);
    Ok(match node[0] {
        0 => NodeKind::Input(format!("signal{owner}[{bit}]")),
        1 => NodeKind::Constant(flag(owner)?),
        2 => NodeKind::And,
        3 => NodeKind::Or,
        4 => NodeKind::Xor,
        5 => NodeKind::Not,
        6 => NodeKind::Mux,
        7 => NodeKind::RegisterOutput(format!("register{owner}[{bit}]")),
        8 => NodeKind::Output(format!("signal{owner}[{bit}]")),
        9 => NodeKind::MemoryOutput(format!("memory{owner}[{bit}]")),
        10 => NodeKind::ArithmeticOutput(format!("arith{owner}[{bit}]")),
        11 => NodeKind::ComparisonOutput(format!("compare{owner}")),
        other => return Err(format!("no kind {other}")),
    })
}

fn nets_of<'a>(words: impl IntoIterator<Item = &'a u32>) -> Vec<NetId> {
    words.into_iter().map(|&net| NetId(net)).collect()
}

fn flag(word: u32) -> Result<bool, String> {
    match word {
        0 => Ok(false),
        1 => Ok(true),
        other => Err(format!("{other} where there are two values")),
    }
}

fn edge(word: u32) -> Result<ClockEdge, String> {
    Ok(if flag(word)? { ClockEdge::Falling } else { ClockEdge::Rising })
}

fn level(word: u32) -> Result<ActiveLevel, String> {
    Ok(if flag(word)? { ActiveLevel::Low } else { ActiveLevel::High })
}

/// A control's net and level; what goes with an absent one is not looked at.
fn control(net: u32, active: u32) -> Result<Option<EnableControl>, String> {
    let present = |active| EnableControl { signal: NetId(net), active };
    (net != ABSENT).then(|| level(active).map(present)).transpose()
}

impl Netlist {
    fn push_record(&mut self, record: &[u32]) -> Result<(), String> {
        match record[0] {
            0 => self.push_port(record),
            1 => self.registers.push(register(record)?),
            2 => self.memories.push(memory(record)?),
            3 => self.push_arithmetic(record)?,
            _ => self.push_comparison(record)?,
        }
        Ok(())
    }

    fn push_port(&mut self, record: &[u32]) {
        let bits = nets_of(&record[3..]);
        let first = bits.first().and_then(|&net| self.node_for_net(net));
        let direction = match first.map(Node::kind) {
            Some(NodeKind::Output(_)) => PortDirection::Output,
            _ => PortDirection::Input,
        };
        self.ports.push(Port { name: format!("signal{}", record[1]), direction, bits });
    }

    fn push_arithmetic(&mut self, record: &[u32]) -> Result<(), String> {
        let operation = [ArithmeticOp::Add, ArithmeticOp::Subtract, ArithmeticOp::Multiply]
            .get(record[1] as usize)
            .copied()
            .ok_or("no such operation")?;
        let [lhs, rhs, outputs] = lists(&record[4..], [record[2] as usize; 3]);
        self.arithmetic.push(ArithmeticCell {
            name: format!("arith{}", self.arithmetic.len()),
            operation,
            lhs,
            rhs,
            carry_in: (record[3] != ABSENT).then_some(NetId(record[3])),
            outputs,
        });
        Ok(())
    }

    fn push_comparison(&mut self, record: &[u32]) -> Result<(), String> {
        let operations = [
            ComparisonOp::LessThanUnsigned,
            ComparisonOp::LessOrEqualUnsigned,
            ComparisonOp::LessThanSigned,
            ComparisonOp::LessOrEqualSigned,
        ];
        let operation = operations.get(record[1] as usize).copied().ok_or("no such operation")?;
        let [lhs, rhs] = lists(&record[3..], [record[2] as usize; 2]);
        self.comparisons.push(ComparisonCell {
            name: format!("compare{}", self.comparisons.len()),
            operation,
            lhs,
            rhs,
            output: NetId(record[record.len() - 1]),
        });
        Ok(())
    }
}

/// Lists of these widths, one after another.
fn lists<const COUNT: usize>(mut words: &[u32], widths: [usize; COUNT]) -> [Vec<NetId>; COUNT] {
    widths.map(|width| {
        let (list, rest) = words.split_at(width);
        words = rest;
        nets_of(list)
    })
}

fn register(record: &[u32]) -> Result<RegisterCell, String> {
    let reset = |enable: EnableControl| -> Result<ResetControl, String> {
        let (asynchronous, value) = (flag(record[11])?, flag(record[12])?);
        Ok(ResetControl { signal: enable.signal, active: enable.active, asynchronous, value })
    };
    Ok(RegisterCell {
        name: format!("register{}[{}]", record[1], record[2]),
        output: NetId(record[3]),
        data: NetId(record[4]),
        clock: NetId(record[5]),
        edge: edge(record[6])?,
        enable: control(record[7], record[8])?,
        reset: control(record[9], record[10])?.map(reset).transpose()?,
    })
}

fn memory(record: &[u32]) -> Result<MemoryCell, String> {
    let styles = [MemoryStyle::Auto, MemoryStyle::Block, MemoryStyle::Distributed];
    let style = styles.get(record[3] as usize).copied().ok_or("no such style")?;
    let latency = u8::try_from(record[4]).map_err(|_| "no such latency")?;
    let ports = record[5];
    if !(1..=2).contains(&ports) {
        return Err(format!("{ports} ports"));
    }
    let (first, rest) = memory_port(&record[6..])?;
    let cell = MemoryCell::new(
        format!("memory{}", record[1]),
        record[2],
        first.read_address,
        first.read_data,
        first.read_enable,
        first.write_address,
        first.write_data,
        first.write_enable,
        first.clock,
        first.edge,
    );
    let cell = cell.with_style(style).with_read_latency(latency);
    Ok(match ports {
        1 => cell,
        _ => cell.with_second_port(memory_port(rest)?.0),
    })
}

/// The port that these words begin with, and the words behind it. An absent write
/// enable is a net like any other here.
fn memory_port(words: &[u32]) -> Result<(MemoryPort, &[u32]), String> {
    let widths = [0, 1, 2, 3].map(|list| words[list] as usize);
    let [read_address, read_data, write_address, write_data] = lists(&words[4..], widths);
    let rest = &words[4 + widths.iter().sum::<usize>()..];
    let write_enable = EnableControl { signal: NetId(rest[2]), active: level(rest[3])? };
    let port = MemoryPort::new(
        read_address,
        read_data,
        control(rest[0], rest[1])?,
        write_address,
        write_data,
        write_enable,
        NetId(rest[4]),
        edge(rest[5])?,
    );
    Ok((port, &rest[6..]))
}
