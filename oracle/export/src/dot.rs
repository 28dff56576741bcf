//! A picture of a netlist as graphviz text: inputs left, outputs right, boxes
//! with a field for each bit for ports, registers, memories and cells.

use std::collections::BTreeSet;
use std::fmt::Write;

use image::netlist::{Control, Memory, MemoryPort, Net, Netlist, Node, Port};
use image::Image;

use crate::fit::check_fit;
use crate::module_verilog::name;
use crate::verilog::digits;

const HEAD: &str = "digraph netlist {\n  rankdir=LR;\n  node [shape=record, fontsize=10, height=0.2];\n  \
                    edge [arrowsize=0.5];\n";

/// The graph; names come from the module image if it is given.
///
/// # Errors
///
/// Says where image and netlist do not fit.
pub fn dot(netlist: &Netlist, image: Option<&Image>) -> Result<String, String> {
    if let Some(image) = image {
        check_fit(netlist, image)?;
    }
    let mut picture = Picture {
        netlist,
        image,
        text: HEAD.to_string(),
    };
    picture.ports("source", true);
    picture.gates();
    picture.registers();
    picture.memories();
    picture.cells();
    picture.ports("sink", false);
    picture.constants();
    Ok(picture.text + "}\n")
}

/// A box: fields on its left with the nets that enter, a label, fields right.
struct Box<'a> {
    node: String,
    label: String,
    left: Vec<(String, Net)>,
    right: &'a [String],
    /// Clocks and asynchronous resets, drawn with broken lines.
    events: Vec<(String, Net)>,
}

struct Picture<'a> {
    netlist: &'a Netlist,
    image: Option<&'a Image>,
    text: String,
}

impl Picture<'_> {
    fn ports(&mut self, rank: &str, input: bool) {
        let _ = writeln!(self.text, "  subgraph {{ rank={rank};");
        let netlist = self.netlist;
        for port in netlist.ports.iter().filter(|port| port.input == input) {
            let label = self.named(|image| &image.signals[port.signal as usize]);
            let label = label.unwrap_or_else(|| format!("s{}", port.signal));
            self.port(port, &label);
        }
        self.text += "  }\n";
        for port in netlist.ports.iter().filter(|port| !port.input && !input) {
            self.output_edges(port);
        }
    }

    fn port(&mut self, port: &Port, label: &str) {
        let bits: Vec<String> = (0..port.nets.len())
            .map(|bit| format!("<b{bit}> {bit}"))
            .collect();
        let fields = format!("{{{}}}", bits.join("|"));
        let (label, signal) = (escape(label), port.signal);
        let parts = if port.input {
            format!("{label}|{fields}")
        } else {
            format!("{fields}|{label}")
        };
        let _ = writeln!(
            self.text,
            "    s{signal} [label=\"{{{parts}}}\", style=rounded];"
        );
    }

    fn output_edges(&mut self, port: &Port) {
        for (bit, &net) in port.nets.iter().enumerate() {
            if let Node::Output { input, .. } = self.netlist.nodes[net as usize] {
                let _ = writeln!(
                    self.text,
                    "  {} -> s{}:b{bit}:w;",
                    self.tail(input),
                    port.signal
                );
            }
        }
    }

    /// The name of the image's record that `pick` picks.
    fn named(&self, pick: impl Fn(&Image) -> &[u32]) -> Option<String> {
        self.image.map(|image| name(image, pick(image)))
    }

    /// Where edges from a net begin.
    fn tail(&self, net: Net) -> String {
        match self.netlist.nodes[net as usize] {
            Node::Input { signal, bit } => format!("s{signal}:b{bit}:e"),
            Node::RegisterOutput { register, bit } => format!("r{register}:o{bit}:e"),
            Node::MemoryOutput { memory, bit } => format!("m{memory}:o{bit}:e"),
            Node::ArithmeticOutput { cell, bit } => format!("a{cell}:o{bit}:e"),
            Node::ComparisonOutput { cell } => format!("c{cell}:o0:e"),
            Node::Mux { .. } => format!("n{net}:o:e"),
            Node::Output { input, .. } => self.tail(input),
            _ => format!("n{net}"),
        }
    }

    fn gates(&mut self) {
        let netlist = self.netlist;
        for (net, node) in (0..).zip(&netlist.nodes) {
            match *node {
                Node::And(a, b) => self.gate(net, "and", &[a, b]),
                Node::Or(a, b) => self.gate(net, "or", &[a, b]),
                Node::Xor(a, b) => self.gate(net, "xor", &[a, b]),
                Node::Not(a) => self.gate(net, "not", &[a]),
                Node::Mux {
                    condition,
                    then,
                    otherwise,
                } => self.mux(net, condition, then, otherwise),
                _ => {}
            }
        }
    }

    /// Constants that an edge begins at.
    fn constants(&mut self) {
        let netlist = self.netlist;
        for (net, node) in netlist.nodes.iter().enumerate() {
            if let Node::Constant(value) = node
                && self.text.contains(&format!("  n{net} -> "))
            {
                let _ = writeln!(
                    self.text,
                    "  n{net} [label=\"{}\", shape=plaintext];",
                    u32::from(*value)
                );
            }
        }
    }

    fn gate(&mut self, net: Net, label: &str, inputs: &[Net]) {
        let _ = writeln!(
            self.text,
            "  n{net} [label=\"{label}\\n{net}\", shape=ellipse];"
        );
        for &input in inputs {
            let _ = writeln!(self.text, "  {} -> n{net};", self.tail(input));
        }
    }

    fn mux(&mut self, net: Net, condition: Net, then: Net, otherwise: Net) {
        let _ = writeln!(
            self.text,
            "  n{net} [label=\"{{{{<c> if|<t> then|<e> else}}|<o> mux {net}}}\"];"
        );
        for (field, input) in [("c", condition), ("t", then), ("e", otherwise)] {
            let _ = writeln!(self.text, "  {} -> n{net}:{field}:w;", self.tail(input));
        }
    }

    fn registers(&mut self) {
        let netlist = self.netlist;
        for (register, width) in (0..).zip(netlist.register_widths()).filter(|(_, width)| *width > 0) {
            let records = || {
                netlist
                    .registers
                    .iter()
                    .filter(|record| record.register == register)
            };
            let value = digits(&records().map(|record| record.value).collect::<Vec<_>>());
            let (mut left, mut controls, mut events) =
                (Vec::new(), BTreeSet::new(), BTreeSet::new());
            for record in records() {
                left.push((format!("d{}", record.bit), record.data));
                events.insert((clock_label("clock", record.falling), record.clock));
                controls.extend(record.enable.map(|control| level("enable", control)));
                let resets = if record.asynchronous {
                    &mut events
                } else {
                    &mut controls
                };
                resets.extend(
                    record
                        .reset
                        .map(|control| level(&format!("reset to {value}"), control)),
                );
            }
            left.extend(controls);
            let label = self.named(|image| &image.registers[register as usize]);
            self.draw(Box {
                node: format!("r{register}"),
                label: label.unwrap_or_else(|| format!("r{register}")),
                left,
                right: &numbers(width),
                events: events.into_iter().collect(),
            });
        }
    }

    fn memories(&mut self) {
        let netlist = self.netlist;
        for memory in &netlist.memories {
            let number = memory.number;
            let label = self.named(|image| &image.memories[number as usize]);
            let label = label.unwrap_or_else(|| format!("m{number}"));
            let (mut left, mut events) = (Vec::new(), Vec::new());
            for (port, letter) in memory.ports.iter().zip(["a", "b"]) {
                left.extend(port_fields(port, letter));
                events.push((
                    clock_label(&format!("{letter} clock"), port.falling),
                    port.clock,
                ));
            }
            self.draw(Box {
                node: format!("m{number}"),
                label: format!("{label} x {}", memory.depth),
                left,
                right: &read_fields(memory),
                events,
            });
        }
    }

    fn cells(&mut self) {
        let netlist = self.netlist;
        for (number, cell) in netlist.arithmetic.iter().enumerate() {
            let mut left = operand_fields(&cell.lhs, &cell.rhs);
            left.extend(cell.carry.map(|net| ("carry".to_string(), net)));
            self.draw(Box {
                node: format!("a{number}"),
                label: ["add", "sub", "mul"][cell.operation as usize].to_string(),
                left,
                right: &numbers(cell.outputs.len() as u32),
                events: Vec::new(),
            });
        }
        for (number, cell) in netlist.comparisons.iter().enumerate() {
            self.draw(Box {
                node: format!("c{number}"),
                label: ["<", "<=", "signed <", "signed <="][cell.operation as usize].to_string(),
                left: operand_fields(&cell.lhs, &cell.rhs),
                right: &numbers(1),
                events: Vec::new(),
            });
        }
    }

    fn draw(&mut self, drawn: Box) {
        let Box {
            node,
            label,
            left,
            right,
            events,
        } = drawn;
        let entering: Vec<&(String, Net)> = left.iter().chain(&events).collect();
        let fields = entering
            .iter()
            .enumerate()
            .map(|(place, (label, _))| format!("<i{place}> {label}"));
        let fields = fields.collect::<Vec<_>>().join("|");
        let right = right
            .iter()
            .enumerate()
            .map(|(place, label)| format!("<o{place}> {label}"));
        let right = right.collect::<Vec<_>>().join("|");
        let _ = writeln!(
            self.text,
            "  {node} [label=\"{{{{{fields}}}|{}|{{{right}}}}}\"];",
            escape(&label)
        );
        for (place, (_, net)) in entering.into_iter().enumerate() {
            let style = if place < left.len() {
                ""
            } else {
                " [style=dashed]"
            };
            let _ = writeln!(
                self.text,
                "  {} -> {node}:i{place}:w{style};",
                self.tail(*net)
            );
        }
    }
}

fn clock_label(label: &str, falling: bool) -> String {
    format!("{label} {}", if falling { "falling" } else { "rising" })
}

fn level(label: &str, control: Control) -> (String, Net) {
    let low = if control.low { " low" } else { "" };
    (format!("{label}{low}"), control.net)
}

fn numbers(count: u32) -> Vec<String> {
    (0..count).map(|bit| bit.to_string()).collect()
}

/// A field for each bit of a list.
fn bit_fields(label: &str, nets: &[Net]) -> Vec<(String, Net)> {
    nets.iter()
        .enumerate()
        .map(|(bit, &net)| (format!("{label}{bit}"), net))
        .collect()
}

fn operand_fields(lhs: &[Net], rhs: &[Net]) -> Vec<(String, Net)> {
    [bit_fields("a", lhs), bit_fields("b", rhs)].concat()
}

fn port_fields(port: &MemoryPort, letter: &str) -> Vec<(String, Net)> {
    let lists = [
        ("read ", &port.read_address),
        ("write ", &port.write_address),
        ("data ", &port.write_data),
    ];
    let mut fields: Vec<(String, Net)> = lists
        .into_iter()
        .flat_map(|(label, nets)| bit_fields(&format!("{letter} {label}"), nets))
        .collect();
    fields.extend(
        port.read_enable
            .map(|control| level(&format!("{letter} read enable"), control)),
    );
    fields.push(level(&format!("{letter} write enable"), port.write_enable));
    fields
}

fn read_fields(memory: &Memory) -> Vec<String> {
    let letters = memory.ports.iter().zip(["a", "b"]);
    letters
        .flat_map(|(port, letter)| {
            (0..port.read_data.len()).map(move |bit| format!("{letter}{bit}"))
        })
        .collect()
}

/// Text in a box's label: signs with a meaning there get a backslash.
fn escape(text: &str) -> String {
    let mut escaped = String::new();
    for letter in text.chars() {
        if "\\\"{}|<> ".contains(letter) {
            escaped.push('\\');
        }
        escaped.push(letter);
    }
    escaped
}
