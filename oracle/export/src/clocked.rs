//! The always blocks of registers and memories. Every assignment to contents is
//! nonblocking, so all of them read the contents before the edge.

use crate::names::Names;
use crate::verilog::{EventPort, range};

/// A clock and its edge.
pub struct Clock {
    pub wire: String,
    pub falling: bool,
}

impl Clock {
    fn edge(&self) -> String {
        edge(&self.wire, self.falling)
    }
}

/// A one-bit control and whether it acts when low.
pub struct Level {
    pub wire: String,
    pub low: bool,
}

impl Level {
    /// The condition under which the control acts.
    fn active(&self) -> String {
        let not = if self.low { "!" } else { "" };
        format!("{not}{}", self.wire)
    }
}

/// A reset and the value it gives.
pub struct Reset {
    pub level: Level,
    pub asynchronous: bool,
    pub value: String,
}

/// A register, or one bit of one.
pub struct Register {
    pub target: String,
    pub next: String,
    pub clock: Clock,
    pub enable: Option<Level>,
    pub reset: Option<Reset>,
}

/// A memory. All read data and write data have one width.
pub struct Memory {
    pub name: String,
    pub width: u32,
    pub depth: u32,
    pub ports: Vec<Port>,
    pub watch: Option<Watch>,
}

/// Names of what tells a write clash.
#[derive(Clone)]
pub struct Watch {
    /// A variable with a bit for each port that has stored a word since it was 0.
    pub stored: String,
    /// Variables with the addresses of these words.
    places: [String; 2],
    /// A wire: both ports have, and to one address.
    pub clash: String,
}

impl Watch {
    /// Where a bench sets the variable to 0 before each step, and there are two ports.
    pub fn new(event_port: &EventPort, ports: usize, names: &mut Names) -> Option<Watch> {
        (event_port.name.is_some() && ports == 2).then(|| Watch {
            stored: names.plain("stored"),
            places: ["stored_at_a", "stored_at_b"].map(|name| names.plain(name)),
            clash: names.plain("clash"),
        })
    }

    fn declarations(&self) -> String {
        let Watch { stored, places: [a, b], clash } = self;
        format!("  reg [1:0] {stored};\n  reg [31:0] {a}, {b};\n  wire {clash} = {stored} == 2'b11 && {a} == {b};\n")
    }

    /// Notes that a port stores a word.
    fn note(&self, port: usize, address: &str) -> String {
        format!(" {}[{port}] = 1; {} = {address};", self.stored, self.places[port])
    }
}

/// A port of a memory; addresses are identifiers of vectors.
pub struct Port {
    pub read_address: String,
    pub read_data: String,
    pub read_enable: Option<Level>,
    pub write_address: String,
    pub write_data: String,
    pub write_enable: Level,
    pub clock: Clock,
}

fn edge(wire: &str, falling: bool) -> String {
    let edge = if falling { "negedge" } else { "posedge" };
    format!("{edge} {wire}")
}

pub fn register(register: &Register) -> String {
    let mut edges = register.clock.edge();
    let mut body = String::new();
    if let Some(reset) = &register.reset {
        if reset.asynchronous {
            edges += &format!(" or {}", edge(&reset.level.wire, reset.level.low));
        }
        let (active, target) = (reset.level.active(), &register.target);
        body = format!("if ({active}) {target} <= {};\n    else ", reset.value);
    }
    let load = format!("{} <= {};", register.target, register.next);
    body += &guarded(register.enable.as_ref(), &load);
    format!("  always @({edges})\n    {body}\n")
}

fn guarded(enable: Option<&Level>, statement: &str) -> String {
    match enable {
        None => statement.to_string(),
        Some(level) => format!("if ({}) {statement}", level.active()),
    }
}

/// Where both ports store to one word at once, Verilog does not say which of them stays.
pub fn memory(memory: &Memory) -> String {
    let Memory {
        name, width, depth, ..
    } = memory;
    let mut text = format!("  reg {}{name} [0:{}];\n", range(*width), depth - 1);
    text += &memory.watch.as_ref().map(Watch::declarations).unwrap_or_default();
    for (number, port) in memory.ports.iter().enumerate() {
        let actions = read_action(memory, port) + &write_action(memory, number, port);
        text += &format!("  always @({}) begin\n{actions}  end\n", port.clock.edge());
    }
    text
}

fn read_action(memory: &Memory, port: &Port) -> String {
    let Memory {
        name, width, depth, ..
    } = memory;
    let Port {
        read_address,
        read_data,
        ..
    } = port;
    let word = format!("{read_address} < 32'd{depth} ? {name}[{read_address}] : {width}'d0");
    let read = format!("{read_data} <= {word};");
    format!("    {}\n", guarded(port.read_enable.as_ref(), &read))
}

fn write_action(memory: &Memory, number: usize, port: &Port) -> String {
    let (enable, address) = (port.write_enable.active(), &port.write_address);
    let note = memory.watch.as_ref().map(|watch| watch.note(number, address));
    format!(
        "    if ({enable} && {address} < 32'd{}) begin {}[{address}] <= {};{} end\n",
        memory.depth,
        memory.name,
        port.write_data,
        note.unwrap_or_default()
    )
}
