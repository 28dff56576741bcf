//! Structural Verilog of a netlist: a wire for each net, gates as assigns,
//! cells as operators on concatenations, always blocks for the records.

use std::collections::{BTreeMap, BTreeSet};

use image::netlist::{
    Arithmetic, Comparison, Control, Memory, MemoryPort, Net, Netlist, Node, RegisterBit,
};
use image::Image;

use crate::clocked::{self, Watch};
use crate::fit::check_fit;
use crate::module_verilog::{name, signal_names};
use crate::names::Names;
use crate::verilog::{Event, EventPort, Style, Verilog, module_head, range, select};

/// The Verilog of a netlist; names come from the module image if it is given.
///
/// # Errors
///
/// Says where image and netlist do not fit, or, with [`Style::Step`], which
/// clock or reset is no input.
pub fn netlist_verilog(
    netlist: &Netlist,
    image: Option<&Image>,
    module: &str,
    style: Style,
) -> Result<Verilog, String> {
    if let Some(image) = image {
        check_fit(netlist, image)?;
    }
    Writer::new(netlist, image, style)?.write(module)
}

struct Writer<'a> {
    netlist: &'a Netlist,
    names: Names,
    /// By signal and whether it is an input.
    ports: BTreeMap<(u32, bool), String>,
    nets: Vec<String>,
    registers: Vec<String>,
    memories: Vec<String>,
    read_data: Vec<Vec<String>>,
    arithmetic: Vec<String>,
    event_port: EventPort,
}

impl<'a> Writer<'a> {
    fn new(netlist: &'a Netlist, image: Option<&Image>, style: Style) -> Result<Self, String> {
        let mut names = Names::default();
        let signals = image.map(signal_names).unwrap_or_default();
        let named = |names: &mut Names, signal: u32| match signals.get(&signal) {
            Some(name) => names.escaped(name),
            None => names.plain(&format!("s{signal}")),
        };
        let ports = netlist
            .ports
            .iter()
            .map(|port| ((port.signal, port.input), named(&mut names, port.signal)));
        let ports = ports.collect();
        Ok(Writer {
            netlist,
            nets: numbered(&mut names, "n", netlist.nodes.len()),
            registers: register_names(&mut names, netlist, image),
            memories: memory_names(&mut names, netlist, image),
            read_data: read_data_names(&mut names, netlist),
            arithmetic: numbered(&mut names, "cell", netlist.arithmetic.len()),
            event_port: EventPort::new(style, &mut names, || events(netlist))?,
            names,
            ports,
        })
    }

    fn write(mut self, module: &str) -> Result<Verilog, String> {
        let mut text = module_head(module, &self.port_declarations());
        text += &self.declarations();
        for (node, net) in self.netlist.nodes.iter().zip(&self.nets) {
            text += &format!("  assign {net} = {};\n", self.value(node));
        }
        text += &self.output_lines();
        for (cell, name) in self.netlist.arithmetic.iter().zip(&self.arithmetic) {
            text += &format!("  assign {name} = {};\n", self.arithmetic_value(cell));
        }
        for record in &self.netlist.registers {
            text += &self.register(record);
        }
        let mut watches = Vec::new();
        for number in 0..self.netlist.memories.len() {
            let memory = self.memory(number, &mut text);
            text += &clocked::memory(&memory);
            watches.push(memory.watch);
        }
        text += "endmodule\n";
        Ok(Verilog {
            text,
            ports: self.netlist.ports.iter().map(|port| port.signal).collect(),
            event_port: self.event_port,
            registers: self.registers,
            read_data: self.read_data,
            memories: self.memories,
            watches,
        })
    }

    fn port_declarations(&self) -> Vec<String> {
        let ports = self.netlist.ports.iter().map(|port| {
            let direction = if port.input { "input" } else { "output" };
            let width = range(port.nets.len() as u32);
            format!("{direction} wire {width}{}", self.ports[&(port.signal, port.input)])
        });
        ports.chain(self.event_port.declaration()).collect()
    }

    fn declarations(&self) -> String {
        let mut text: String = self
            .nets
            .chunks(16)
            .map(|nets| format!("  wire {};\n", nets.join(", ")))
            .collect();
        for (name, cell) in self.arithmetic.iter().zip(&self.netlist.arithmetic) {
            text += &format!("  wire {}{name};\n", range(cell.lhs.len() as u32));
        }
        let registers = self.registers.iter().zip(self.netlist.register_widths());
        for (name, width) in registers.filter(|(_, width)| *width > 0) {
            text += &format!("  reg {}{name};\n", range(width));
        }
        for (names, memory) in self.read_data.iter().zip(&self.netlist.memories) {
            for name in names {
                text += &format!(
                    "  reg {}{name};\n",
                    range(memory.ports[0].read_data.len() as u32)
                );
            }
        }
        text
    }

    fn net(&self, net: Net) -> &str {
        &self.nets[net as usize]
    }

    fn value(&self, node: &Node) -> String {
        match *node {
            Node::Input { signal, bit } => {
                select(&self.ports[&(signal, true)], self.input_width(signal), bit, 1)
            }
            Node::Constant(value) => format!("1'b{}", u32::from(value)),
            Node::And(a, b) => format!("{} & {}", self.net(a), self.net(b)),
            Node::Or(a, b) => format!("{} | {}", self.net(a), self.net(b)),
            Node::Xor(a, b) => format!("{} ^ {}", self.net(a), self.net(b)),
            Node::Not(a) => format!("~{}", self.net(a)),
            Node::Mux {
                condition,
                then,
                otherwise,
            } => {
                format!(
                    "{} ? {} : {}",
                    self.net(condition),
                    self.net(then),
                    self.net(otherwise)
                )
            }
            Node::Output { input, .. } => self.net(input).to_string(),
            Node::RegisterOutput { register, bit } => {
                let register = register as usize;
                select(
                    &self.registers[register],
                    self.netlist.register_widths()[register],
                    bit,
                    1,
                )
            }
            Node::MemoryOutput { memory, bit } => self.memory_output(memory, bit),
            Node::ArithmeticOutput { cell, bit } => {
                let width = self.netlist.arithmetic[cell as usize].lhs.len() as u32;
                select(&self.arithmetic[cell as usize], width, bit, 1)
            }
            Node::ComparisonOutput { cell } => {
                self.comparison_value(&self.netlist.comparisons[cell as usize])
            }
        }
    }

    fn input_width(&self, signal: u32) -> u32 {
        let mut inputs = self.netlist.ports.iter().filter(|port| port.input);
        let port = inputs.find(|port| port.signal == signal);
        port.map_or(1, |port| port.nets.len() as u32)
    }

    /// A second port's bits number on.
    fn memory_output(&self, number: u32, bit: u32) -> String {
        let mut memories = self.netlist.memories.iter();
        let memory = memories.position(|memory| memory.number == number).expect("a memory of the list");
        let width = self.netlist.memories[memory].ports[0].read_data.len() as u32;
        select(
            &self.read_data[memory][(bit / width) as usize],
            width,
            bit % width,
            1,
        )
    }

    fn output_lines(&self) -> String {
        let outputs = self.netlist.ports.iter().filter(|port| !port.input);
        let line = |port: &image::netlist::Port| {
            format!(
                "  assign {} = {};\n",
                self.ports[&(port.signal, false)],
                self.joined(&port.nets)
            )
        };
        outputs.map(line).collect()
    }

    /// A list of nets as one word; the list has bit 0 first.
    fn joined(&self, nets: &[Net]) -> String {
        let parts: Vec<&str> = nets.iter().rev().map(|&net| self.net(net)).collect();
        format!("{{{}}}", parts.join(", "))
    }

    fn arithmetic_value(&self, cell: &Arithmetic) -> String {
        let symbol = ["+", "-", "*"][cell.operation as usize];
        let carry = cell
            .carry
            .map(|net| format!(" + {}", self.net(net)))
            .unwrap_or_default();
        format!(
            "{} {symbol} {}{carry}",
            self.joined(&cell.lhs),
            self.joined(&cell.rhs)
        )
    }

    fn comparison_value(&self, cell: &Comparison) -> String {
        let (lhs, rhs) = (self.joined(&cell.lhs), self.joined(&cell.rhs));
        match cell.operation {
            0 => format!("{lhs} < {rhs}"),
            1 => format!("{lhs} <= {rhs}"),
            2 => format!("$signed({lhs}) < $signed({rhs})"),
            _ => format!("$signed({lhs}) <= $signed({rhs})"),
        }
    }

    fn register(&self, record: &RegisterBit) -> String {
        let width = self.netlist.register_widths()[record.register as usize];
        let reset = record.reset.map(|control| clocked::Reset {
            level: self.reset_level(control, record.asynchronous),
            asynchronous: record.asynchronous,
            value: format!("1'b{}", u32::from(record.value)),
        });
        clocked::register(&clocked::Register {
            target: select(
                &self.registers[record.register as usize],
                width,
                record.bit,
                1,
            ),
            next: self.net(record.data).to_string(),
            clock: self.clock(record.clock, record.falling),
            enable: record.enable.map(|control| self.level(control)),
            reset,
        })
    }

    fn level(&self, control: Control) -> clocked::Level {
        clocked::Level {
            wire: self.net(control.net).to_string(),
            low: control.low,
        }
    }

    fn reset_level(&self, control: Control, asynchronous: bool) -> clocked::Level {
        let low = control.low;
        match self.netlist.nodes[control.net as usize] {
            Node::Input { signal, bit } if asynchronous => {
                let wire = self.event(Event::Reset { signal, bit, low }, control.net);
                clocked::Level { wire, low }
            }
            _ => self.level(control),
        }
    }

    fn clock(&self, net: Net, falling: bool) -> clocked::Clock {
        let wire = match self.netlist.nodes[net as usize] {
            Node::Input { signal, bit } => self.event(Event::Clock { signal, bit }, net),
            _ => self.net(net).to_string(),
        };
        clocked::Clock { wire, falling }
    }

    /// The event's bit of the event port, or the net where there is none.
    fn event(&self, event: Event, net: Net) -> String {
        self.event_port.bit(event, self.net(net))
    }

    /// A memory; the wires of its addresses are declared.
    fn memory(&mut self, number: usize, text: &mut String) -> clocked::Memory {
        let record: &Memory = &self.netlist.memories[number];
        let mut ports = Vec::new();
        for (place, port) in record.ports.iter().enumerate() {
            let [read, write] = ["read", "write"].map(|sort| {
                let letter = ["a", "b"][place];
                self.names
                    .plain(&format!("m{number}_{sort}_address_{letter}"))
            });
            for (name, nets) in [(&read, &port.read_address), (&write, &port.write_address)] {
                *text += &format!(
                    "  wire {}{name} = {};\n",
                    range(nets.len() as u32),
                    self.joined(nets)
                );
            }
            ports.push(self.memory_port(port, read, write, self.read_data[number][place].clone()));
        }
        clocked::Memory {
            name: self.memories[number].clone(),
            width: record.ports[0].read_data.len() as u32,
            depth: record.depth,
            watch: Watch::new(&self.event_port, ports.len(), &mut self.names),
            ports,
        }
    }

    fn memory_port(
        &self,
        port: &MemoryPort,
        read: String,
        write: String,
        data: String,
    ) -> clocked::Port {
        clocked::Port {
            read_address: read,
            read_data: data,
            read_enable: port.read_enable.map(|control| self.level(control)),
            write_address: write,
            write_data: self.joined(&port.write_data),
            write_enable: self.level(port.write_enable),
            clock: self.clock(port.clock, port.falling),
        }
    }
}

fn numbered(names: &mut Names, prefix: &str, count: usize) -> Vec<String> {
    (0..count)
        .map(|number| names.plain(&format!("{prefix}{number}")))
        .collect()
}

fn register_names(names: &mut Names, netlist: &Netlist, image: Option<&Image>) -> Vec<String> {
    match image {
        Some(image) => image
            .registers
            .iter()
            .map(|r| names.escaped(&name(image, r)))
            .collect(),
        None => numbered(names, "r", netlist.register_widths().len()),
    }
}

fn memory_names(names: &mut Names, netlist: &Netlist, image: Option<&Image>) -> Vec<String> {
    match image {
        Some(image) => image
            .memories
            .iter()
            .map(|m| names.escaped(&name(image, m)))
            .collect(),
        None => numbered(names, "m", netlist.memories.len()),
    }
}

fn read_data_names(names: &mut Names, netlist: &Netlist) -> Vec<Vec<String>> {
    let of_memory = |(number, memory): (usize, &Memory)| {
        let letters = ["a", "b"].into_iter().take(memory.ports.len());
        letters
            .map(|letter| names.plain(&format!("m{number}_read_{letter}")))
            .collect()
    };
    netlist.memories.iter().enumerate().map(of_memory).collect()
}

/// Clocks and asynchronous resets, each once; all must be inputs.
fn events(netlist: &Netlist) -> Result<Vec<Event>, String> {
    let input = |net: Net| match netlist.nodes[net as usize] {
        Node::Input { signal, bit } => Ok((signal, bit)),
        _ => Err(format!(
            "net {net} is a clock or asynchronous reset and no input"
        )),
    };
    let clocks = netlist.registers.iter().map(|record| record.clock);
    let ports = netlist.memories.iter().flat_map(|memory| &memory.ports);
    let mut events = BTreeSet::new();
    for clock in clocks.chain(ports.map(|port| port.clock)) {
        let (signal, bit) = input(clock)?;
        events.insert(Event::Clock { signal, bit });
    }
    for record in netlist.registers.iter().filter(|record| record.asynchronous) {
        if let Some(reset) = record.reset {
            let (signal, bit) = input(reset.net)?;
            events.insert(Event::Reset { signal, bit, low: reset.low });
        }
    }
    Ok(events.into_iter().collect())
}
