//! Behavioural Verilog of a module image. Every expression is a wire of its own
//! width, so each operator stands alone and IEEE 1800 says what it gives:
//! operand and result widths are the declared ones, nothing is widened.

use std::collections::{BTreeMap, BTreeSet};

use image::{ABSENT, Image, MEMORY_FIELDS, constant_words, kind, memory_field};

use crate::clocked::{self, Watch};
use crate::names::Names;
use crate::needed::{needed_assignments, ports};
use crate::verilog::{Event, EventPort, Style, Verilog, literal, module_head, range, select};

const INPUT: u32 = 1;
const OUTPUT: u32 = 2;

/// The Verilog of an image that passes checks 3 and 4.
///
/// # Errors
///
/// With [`Style::Step`], says which clock or reset is no input.
pub fn module_verilog(image: &Image, module: &str, style: Style) -> Result<Verilog, String> {
    Writer::new(image, style)?.write(module)
}

struct Writer<'a> {
    image: &'a Image,
    names: Names,
    signals: Vec<String>,
    expressions: Vec<String>,
    /// Whether a signal holds contents: a register target or read data.
    variables: Vec<bool>,
    event_port: EventPort,
}

impl<'a> Writer<'a> {
    fn new(image: &'a Image, style: Style) -> Result<Self, String> {
        let mut names = Names::default();
        let signals = image.signals.iter();
        let signals = signals.map(|signal| names.escaped(&name(image, signal)));
        let signals: Vec<String> = signals.collect();
        let numbers = 0..image.expressions.len();
        let expressions = numbers
            .map(|number| names.plain(&format!("e{number}")))
            .collect();
        let event_port = EventPort::new(style, &mut names, || events(image))?;
        Ok(Writer {
            image,
            names,
            signals,
            expressions,
            variables: variables(image),
            event_port,
        })
    }

    fn write(mut self, module: &str) -> Result<Verilog, String> {
        let mut text = module_head(module, &self.port_declarations());
        text += &self.inner_declarations();
        for number in 0..self.image.expressions.len() {
            text += &self.expression_line(number);
        }
        text += &self.assignments();
        for register in &self.image.registers {
            text += &self.register(register);
        }
        let mut memories = Vec::new();
        for record in &self.image.memories {
            let memory = self.memory(record);
            text += &clocked::memory(&memory);
            memories.push(memory);
        }
        text += "endmodule\n";
        Ok(self.finished(text, memories))
    }

    fn finished(self, text: String, memories: Vec<clocked::Memory>) -> Verilog {
        let signal = |number: u32| self.signals[number as usize].clone();
        let read_data = |memory| ports(memory).map(|port| signal(port[1])).collect();
        let numbers = (0..).zip(&self.image.signals);
        let ports_of = numbers.filter(|(_, record)| record[3] != 0);
        Verilog {
            text,
            ports: ports_of.map(|(number, _)| number).collect(),
            registers: self.image.registers.iter().map(|r| signal(r[2])).collect(),
            read_data: self.image.memories.iter().map(read_data).collect(),
            watches: memories.iter().map(|memory| memory.watch.clone()).collect(),
            memories: memories.into_iter().map(|memory| memory.name).collect(),
            event_port: self.event_port,
        }
    }

    /// Each signal's record, its name, and whether it holds contents.
    fn declared(&self) -> impl Iterator<Item = (&[u32; 4], &String, bool)> {
        let named = self.image.signals.iter().zip(&self.signals);
        let declared = named.zip(&self.variables);
        declared.map(|((signal, name), &variable)| (signal, name, variable))
    }

    fn port_declarations(&self) -> Vec<String> {
        let ports = self.declared().filter_map(|(signal, name, variable)| {
            let sort = match (signal[3], variable) {
                (INPUT, _) => "input wire",
                (OUTPUT, false) => "output wire",
                (OUTPUT, true) => "output reg",
                _ => return None,
            };
            Some(format!("{sort} {}{name}", range(signal[2])))
        });
        ports.chain(self.event_port.declaration()).collect()
    }

    fn inner_declarations(&self) -> String {
        let inner = self.declared().filter(|(signal, ..)| signal[3] == 0);
        inner
            .map(|(signal, name, variable)| {
                let sort = if variable { "reg" } else { "wire" };
                format!("  {sort} {}{name};\n", range(signal[2]))
            })
            .collect()
    }

    fn expression_line(&self, number: usize) -> String {
        let record = &self.image.expressions[number];
        let (width, name) = (range(record[1]), &self.expressions[number]);
        format!("  wire {width}{name} = {};\n", self.expression(record))
    }

    fn expression(&self, record: &[u32; 5]) -> String {
        let &[kind, width, first, second, third] = record;
        let name = |number: u32| &self.expressions[number as usize];
        match kind {
            kind::SIGNAL => self.signal_range(first, second, width),
            kind::CONSTANT => literal(&self.constant_bits(width, first)),
            kind::UNARY => unary(first, name(second)),
            kind::BINARY => binary(first, name(second), name(third)),
            kind::MUX => format!("{} ? {} : {}", name(first), name(second), name(third)),
            kind::CONCAT => self.concat(first, second),
            _ => select(
                name(first),
                self.image.expressions[first as usize][1],
                second,
                width,
            ),
        }
    }

    fn signal_range(&self, signal: u32, lsb: u32, width: u32) -> String {
        let (name, record) = (
            &self.signals[signal as usize],
            &self.image.signals[signal as usize],
        );
        select(name, record[2], lsb, width)
    }

    fn constant_bits(&self, width: u32, start: u32) -> Vec<bool> {
        let start = start as usize;
        let words = &self.image.list[start..start + constant_words(width)];
        let bits = 0..width as usize;
        bits.map(|bit| words[bit / 32] >> (bit % 32) & 1 == 1)
            .collect()
    }

    fn concat(&self, start: u32, count: u32) -> String {
        let parts = &self.image.list[start as usize..(start + count) as usize];
        let parts = parts
            .iter()
            .map(|part| self.expressions[*part as usize].as_str());
        format!("{{{}}}", parts.collect::<Vec<_>>().join(", "))
    }

    fn assignments(&self) -> String {
        let needed = needed_assignments(self.image);
        let lines = self
            .image
            .assignments
            .iter()
            .zip(needed)
            .map(|(record, needed)| {
                let &[signal, lsb, width, value] = record;
                let (target, value) = (
                    self.signal_range(signal, lsb, width),
                    &self.expressions[value as usize],
                );
                let mark = if needed { "" } else { "// not needed: " };
                format!("  {mark}assign {target} = {value};\n")
            });
        lines.collect()
    }

    fn register(&self, record: &[u32; 12]) -> String {
        let reset = (record[8] != ABSENT).then(|| clocked::Reset {
            level: self.reset_level(record),
            asynchronous: record[10] == 1,
            value: self.expressions[record[11] as usize].clone(),
        });
        let name = name(self.image, record);
        let block = clocked::register(&clocked::Register {
            target: self.signals[record[2] as usize].clone(),
            next: self.expressions[record[3] as usize].clone(),
            clock: self.clock(record[4], record[5]),
            enable: self.level(record[6], record[7]),
            reset,
        });
        format!("  // register {name}\n{block}")
    }

    fn reset_level(&self, record: &[u32; 12]) -> clocked::Level {
        let (signal, low) = (record[8], record[9] == 1);
        let wire = if record[10] == 1 {
            self.event(Event::Reset { signal, bit: 0, low }, signal)
        } else {
            self.signals[signal as usize].clone()
        };
        clocked::Level { wire, low }
    }

    fn level(&self, signal: u32, polarity: u32) -> Option<clocked::Level> {
        (signal != ABSENT).then(|| clocked::Level {
            wire: self.signals[signal as usize].clone(),
            low: polarity == 1,
        })
    }

    fn clock(&self, signal: u32, edge: u32) -> clocked::Clock {
        let wire = self.event(Event::Clock { signal, bit: 0 }, signal);
        clocked::Clock {
            wire,
            falling: edge == 1,
        }
    }

    /// The event's bit of the event port, or the signal where there is none.
    fn event(&self, event: Event, signal: u32) -> String {
        self.event_port.bit(event, &self.signals[signal as usize])
    }

    fn memory(&mut self, record: &[u32; MEMORY_FIELDS]) -> clocked::Memory {
        clocked::Memory {
            name: self.names.escaped(&name(self.image, record)),
            width: record[memory_field::WORD_WIDTH],
            depth: record[memory_field::DEPTH],
            ports: ports(record).map(|port| self.memory_port(port)).collect(),
            watch: Watch::new(&self.event_port, ports(record).count(), &mut self.names),
        }
    }

    fn memory_port(&self, port: &[u32]) -> clocked::Port {
        let expression = |number: u32| self.expressions[number as usize].clone();
        clocked::Port {
            read_address: expression(port[0]),
            read_data: self.signals[port[1] as usize].clone(),
            read_enable: self.level(port[2], port[3]),
            write_address: expression(port[4]),
            write_data: expression(port[5]),
            write_enable: self
                .level(port[6], port[7])
                .expect("check 4 asks for a write enable"),
            clock: self.clock(port[8], port[9]),
        }
    }
}

fn unary(operator: u32, input: &str) -> String {
    let operator = ["~", "!", "|", "&", "^"][operator as usize];
    format!("{operator}{input}")
}

fn binary(operator: u32, lhs: &str, rhs: &str) -> String {
    let symbols = [
        "&", "|", "^", "+", "-", "*", "==", "!=", "<", "<", "<=", "<=", ">", ">", ">=", ">=", "<<",
        ">>", ">>>",
    ];
    let symbol = symbols[operator as usize];
    match operator {
        9 | 11 | 13 | 15 => format!("$signed({lhs}) {symbol} $signed({rhs})"),
        18 => format!("$signed({lhs}) {symbol} {rhs}"),
        _ => format!("{lhs} {symbol} {rhs}"),
    }
}

fn variables(image: &Image) -> Vec<bool> {
    let mut variables = vec![false; image.signals.len()];
    for register in &image.registers {
        variables[register[2] as usize] = true;
    }
    for port in image.memories.iter().flat_map(ports) {
        variables[port[1] as usize] = true;
    }
    variables
}

/// Clocks and asynchronous resets, each once; all must be inputs.
fn events(image: &Image) -> Result<Vec<Event>, String> {
    let mut events = BTreeSet::new();
    for register in &image.registers {
        events.insert(Event::Clock {
            signal: register[4],
            bit: 0,
        });
        if register[8] != ABSENT && register[10] == 1 {
            events.insert(Event::Reset {
                signal: register[8],
                bit: 0,
                low: register[9] == 1,
            });
        }
    }
    for port in image.memories.iter().flat_map(ports) {
        events.insert(Event::Clock { signal: port[8], bit: 0 });
    }
    let signal = |event: &Event| match *event {
        Event::Clock { signal, .. } | Event::Reset { signal, .. } => signal,
    };
    match events
        .iter()
        .map(signal)
        .find(|&s| image.signals[s as usize][3] != INPUT)
    {
        Some(signal) => Err(format!(
            "signal {signal} is a clock or asynchronous reset and no input"
        )),
        None => Ok(events.into_iter().collect()),
    }
}

/// A name of the image.
pub fn name(image: &Image, record: &[u32]) -> String {
    image.name_of(record).expect("a name of a checked image").to_string()
}

/// Names of all signals, by number.
pub fn signal_names(image: &Image) -> BTreeMap<u32, String> {
    let signals = (0..).zip(&image.signals);
    signals
        .map(|(number, signal)| (number, name(image, signal)))
        .collect()
}
