//! A Verilog bench that runs netlists over traces by the step rule, all of them in
//! one simulation, and prints the output bits after each line. A run ends where its
//! netlist tells a write clash. The netlists are written with [`Style::Step`]; how a
//! step is made stands in [`crate::bench`].

use std::fmt::Write;

use image::netlist::{Netlist, Port};

use crate::netlist_verilog;
use crate::verilog::{Event, Style, Verilog};

/// A netlist and the lines of a trace, without their ends.
pub struct Run<'a> {
    pub netlist: &'a Netlist,
    pub lines: &'a [String],
}

/// Files of a simulation, and the modules that it begins with.
pub struct Files {
    pub files: Vec<(String, String)>,
    pub tops: Vec<String>,
}

/// The files that run all these. Each printed line begins with the run's number.
///
/// # Errors
///
/// Says which clock or reset is no input.
pub fn trace_bench(runs: &[Run]) -> Result<Files, String> {
    let mut files = Vec::new();
    for (number, run) in runs.iter().enumerate() {
        let verilog = netlist_verilog(run.netlist, None, &format!("netlist{number}"), Style::Step)?;
        let bench = Bench { number, run, verilog: &verilog };
        files.push((format!("bench{number}.v"), verilog.text.clone() + &bench.text()));
        files.push((format!("trace{number}.txt"), bench.trace()));
    }
    let tops = (0..runs.len()).map(|number| format!("bench{number}")).collect();
    Ok(Files { files, tops })
}

struct Bench<'a> {
    number: usize,
    run: &'a Run<'a>,
    verilog: &'a Verilog,
}

impl Bench<'_> {
    /// The bits of ports of one direction; a vector has one at least.
    fn bits(&self, input: bool) -> usize {
        let ports = self.run.netlist.ports.iter().filter(|port| port.input == input);
        ports.map(|port| port.nets.len()).sum()
    }

    /// A line a setting; where there are no inputs, a 0.
    fn trace(&self) -> String {
        let line = |line: &String| if line.is_empty() { "0\n".to_string() } else { format!("{line}\n") };
        self.run.lines.iter().map(line).collect()
    }

    fn text(&self) -> String {
        let (number, last_line) = (self.number, self.run.lines.len().max(1) - 1);
        let [last_input, last_output] = [true, false].map(|input| self.bits(input).max(1) - 1);
        let mut text = format!(
            "module bench{number};\n  integer line, place;\n  reg [0:{last_input}] in, next;\n  \
             reg [0:{last_input}] trace [0:{last_line}];\n  wire [0:{last_output}] out;\n"
        );
        let events = &self.verilog.event_port.events;
        if !events.is_empty() {
            let _ = writeln!(text, "  reg [{}:0] events;", events.len() - 1);
        }
        text += &self.instance();
        if !self.run.lines.is_empty() {
            let _ = writeln!(text, "  initial begin : run\n    $readmemb(\"trace{number}.txt\", trace);\n{}  end", self.settings());
        }
        text + "endmodule\n"
    }

    /// The start, then a step for each further line.
    fn settings(&self) -> String {
        let (number, lines) = (self.number, self.run.lines.len());
        let show = match self.bits(false) {
            0 => format!("$display(\"{number} \");"),
            _ => format!("$display(\"{number} %b\", out);"),
        };
        format!(
            "    next = trace[0];\n{}    in = next;\n    #1;\n{}    #1 {show}\n    \
             for (line = 1; line < {lines}; line = line + 1) begin\n      next = trace[line];\n{}{}      #1;\n{}      #1;\n{}      \
             in = next;\n      #1 {show}\n    end\n",
            self.set_events("next", false),
            self.clear_contents(),
            self.set_events("in", false),
            self.verilog.clear_watches("dut"),
            self.set_events("next", true),
            self.refuse_clashes(),
        )
    }

    /// The lowest memory with a clash ends the run.
    fn refuse_clashes(&self) -> String {
        let memories = self.run.netlist.memories.iter().map(|memory| memory.number);
        let mut clashes: Vec<(u32, &str)> =
            memories.zip(&self.verilog.watches).filter_map(|(number, watch)| Some((number, watch.as_ref()?.clash.as_str()))).collect();
        clashes.sort_unstable();
        let refuse = |(number, clash): (u32, &str)| {
            format!("    if (dut.{clash}) begin $display(\"{} refused 14 %0d {number}\", line); disable run; end\n", self.number)
        };
        clashes.into_iter().map(refuse).collect()
    }

    /// Ports by place, with bit 0 as the first of the trace's characters.
    fn instance(&self) -> String {
        let mut ends = [0, 0];
        let connection = |port: &Port| {
            let (vector, end) = if port.input { ("in", &mut ends[0]) } else { ("out", &mut ends[1]) };
            let first = *end;
            *end += port.nets.len();
            let bits: Vec<String> = (first..*end).rev().map(|place| format!("{vector}[{place}]")).collect();
            format!("{{{}}}", bits.join(", "))
        };
        let mut connections: Vec<String> = self.run.netlist.ports.iter().map(connection).collect();
        connections.extend(self.verilog.event_port.name.iter().map(|_| "events".to_string()));
        format!("  netlist{} dut ({});\n", self.number, connections.join(", "))
    }

    fn clear_contents(&self) -> String {
        let netlist = self.run.netlist;
        let registers = self.verilog.registers.iter().zip(netlist.register_widths()).filter(|(_, width)| *width > 0);
        let read_data = self.verilog.read_data.iter().flatten();
        let mut text: String = registers.map(|(name, _)| name).chain(read_data).map(|name| format!("    dut.{name} = 0;\n")).collect();
        for (name, memory) in self.verilog.memories.iter().zip(&netlist.memories) {
            let _ = writeln!(text, "    for (place = 0; place < {}; place = place + 1) dut.{name}[place] = 0;", memory.depth);
        }
        text
    }

    /// Clocks as in this setting; resets too, or all of them let go.
    fn set_events(&self, setting: &str, resets: bool) -> String {
        let bit = |event: &Event| match *event {
            Event::Reset { low, .. } if !resets => format!("1'b{}", u32::from(low)),
            Event::Clock { signal, bit } | Event::Reset { signal, bit, .. } => format!("{setting}[{}]", self.place(signal, bit)),
        };
        let bits: Vec<String> = self.verilog.event_port.events.iter().rev().map(bit).collect();
        if bits.is_empty() {
            return String::new();
        }
        format!("    events = {{{}}};\n", bits.join(", "))
    }

    /// Which character of a line an input bit is.
    fn place(&self, signal: u32, bit: u32) -> usize {
        let inputs = self.run.netlist.ports.iter().filter(|port| port.input);
        let before = inputs.take_while(|port| port.signal != signal).map(|port| port.nets.len());
        before.sum::<usize>() + bit as usize
    }
}
