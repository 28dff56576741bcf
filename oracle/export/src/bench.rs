//! A Verilog bench that runs module and netlist side by side by the step rule,
//! and the lines it must print. Both are written with [`Style::Step`].
//!
//! One step: the asynchronous resets let go (no block acts on that), then all
//! clocks and resets take their new values at once while inputs and contents
//! are those before the step, then all inputs change. The start sets inputs and
//! contents and makes no step. After the second move each side tells a write clash; a
//! run that ends with one ends there.
//!
//! [`Style::Step`]: crate::Style::Step

use std::fmt::Write;

use driver::{Contents, Observation, Run};
use image::Image;

use crate::verilog::{Event, EventPort, Verilog, digits, literal, range};

/// The bench, the files it reads, and the lines it must print.
pub struct Bench {
    pub text: String,
    pub files: Vec<(String, String)>,
    pub expected: String,
}

/// The two sides, as they are called in the printed lines.
const SIDES: [&str; 2] = ["module", "netlist"];
/// Their instances.
const INSTANCES: [&str; 2] = ["a", "b"];

/// The bench of one run. `sides` are module `rtl` and module `netlist`.
pub fn bench(image: &Image, sides: [&Verilog; 2], run: &Run) -> Bench {
    let writer = Writer { image, sides, run };
    let files = run.first.memories.iter().enumerate();
    Bench {
        text: writer.text(),
        files: files
            .map(|(number, words)| (memory_file(number), memory_text(words)))
            .collect(),
        expected: expected(run),
    }
}

fn memory_file(number: usize) -> String {
    format!("memory{number}.txt")
}

fn memory_text(words: &[Vec<bool>]) -> String {
    words.iter().map(|word| digits(word) + "\n").collect()
}

struct Writer<'a> {
    image: &'a Image,
    sides: [&'a Verilog; 2],
    run: &'a Run,
}

impl Writer<'_> {
    fn text(&self) -> String {
        let body = [
            self.declarations(),
            self.instance("rtl", 0),
            self.instance("netlist", 1),
            self.show_task(),
            self.start(),
            self.steps(),
        ];
        format!("module bench;\n{}  end\nendmodule\n", body.concat())
    }

    /// Signals of this direction, with their widths.
    fn signals(&self, direction: u32) -> impl Iterator<Item = (u32, u32)> {
        let signals = (0..).zip(&self.image.signals);
        signals.filter_map(move |(number, s)| (s[3] == direction).then_some((number, s[2])))
    }

    fn declarations(&self) -> String {
        let mut text = String::from("  integer place;\n");
        for (signal, width) in self.signals(1) {
            let _ = writeln!(text, "  reg {}i{signal};", range(width));
        }
        for (signal, width) in self.signals(2) {
            let _ = writeln!(text, "  wire {}a{signal}, b{signal};", range(width));
        }
        let EventPort { name, events } = &self.sides[0].event_port;
        if name.is_some() {
            let _ = writeln!(text, "  reg [{}:0] events;", events.len() - 1);
        }
        for (number, words) in self.run.first.memories.iter().enumerate() {
            let (width, last) = (range(words[0].len() as u32), words.len() - 1);
            for instance in INSTANCES {
                let _ = writeln!(text, "  reg {width}{instance}_shown{number} [0:{last}];");
            }
        }
        text
    }

    /// Ports are connected by place: Icarus takes a name that begins with `*`
    /// for a wildcard.
    fn instance(&self, module: &str, side: usize) -> String {
        let (verilog, instance) = (self.sides[side], INSTANCES[side]);
        let connection = |signal: &u32| {
            let letter = if self.image.signals[*signal as usize][3] == 1 {
                "i"
            } else {
                instance
            };
            format!("{letter}{signal}")
        };
        let mut connections: Vec<String> = verilog.ports.iter().map(connection).collect();
        connections.extend(verilog.event_port.name.iter().map(|_| "events".to_string()));
        format!("  {module} {instance} ({});\n", connections.join(", "))
    }

    /// Prints all that can be seen; of the memories the words that changed.
    fn show_task(&self) -> String {
        let mut text = String::from("  task show; begin\n");
        for (side, name) in SIDES.into_iter().enumerate() {
            let (verilog, instance) = (self.sides[side], INSTANCES[side]);
            for (signal, _) in self.signals(2) {
                let _ = writeln!(
                    text,
                    "    $display(\"{name} output {signal} %b\", {instance}{signal});"
                );
            }
            for (number, variable) in verilog.registers.iter().enumerate() {
                let _ = writeln!(
                    text,
                    "    $display(\"{name} register {number} %b\", {instance}.{variable});"
                );
            }
            for (number, ports) in verilog.read_data.iter().enumerate() {
                for (port, variable) in ports.iter().enumerate() {
                    let _ = writeln!(
                        text,
                        "    $display(\"{name} read {number} {port} %b\", {instance}.{variable});"
                    );
                }
            }
            for (number, memory) in verilog.memories.iter().enumerate() {
                text += &self.show_words(name, instance, number, memory);
            }
        }
        text + "  end endtask\n"
    }

    fn show_words(&self, name: &str, instance: &str, number: usize, memory: &str) -> String {
        let depth = self.run.first.memories[number].len();
        let (word, shown) = (
            format!("{instance}.{memory}[place]"),
            format!("{instance}_shown{number}[place]"),
        );
        format!(
            "    for (place = 0; place < {depth}; place = place + 1) if ({word} !== {shown}) begin\n      \
             $display(\"{name} word {number} %0d %b\", place, {word}); {shown} = {word};\n    end\n"
        )
    }

    fn start(&self) -> String {
        let mut text = String::from("  initial begin\n");
        text += &self.set_events(0, false);
        text += &self.set_inputs(0);
        text += "    #1;\n";
        for (verilog, instance) in self.sides.iter().zip(INSTANCES) {
            text += &self.set_contents(verilog, instance);
        }
        text + "    #1 show;\n"
    }

    fn set_contents(&self, verilog: &Verilog, instance: &str) -> String {
        let first = &self.run.first;
        let registers = verilog.registers.iter().zip(&first.registers);
        let read_data = verilog
            .read_data
            .iter()
            .flatten()
            .zip(first.read_data.iter().flatten());
        let set = |(variable, bits): (&String, &Vec<bool>)| {
            format!("    {instance}.{variable}= {};\n", literal(bits))
        };
        let mut text: String = registers.chain(read_data).map(set).collect();
        for (number, memory) in verilog.memories.iter().enumerate() {
            let _ = writeln!(
                text,
                "    $readmemb(\"{}\", {instance}.{memory});",
                memory_file(number)
            );
        }
        text
    }

    /// All steps that are seen, and the edges of the one that ends the run.
    fn steps(&self) -> String {
        let seen = &self.run.seen;
        let steps = 1..seen.observations.len();
        let step = |number: usize| format!("{}{}    #1 show;\n", self.edges(number), self.set_inputs(number));
        let end = seen.clash.map(|_| self.edges(seen.observations.len()));
        steps.map(step).chain(end).collect()
    }

    fn edges(&self, number: usize) -> String {
        let released = self.set_events(number - 1, false);
        let acting = self.set_events(number, true);
        let sides = || self.sides.iter().zip(INSTANCES);
        let cleared: String = sides().map(|(verilog, instance)| verilog.clear_watches(instance)).collect();
        let told: String = sides().zip(SIDES).map(|((verilog, instance), name)| tell_clash(verilog, instance, name)).collect();
        format!("{released}{cleared}    #1;\n{acting}    #1;\n{told}")
    }

    fn set_inputs(&self, number: usize) -> String {
        let inputs = self.run.settings[number].iter();
        inputs
            .map(|(signal, bits)| format!("    i{signal} = {};\n", literal(bits)))
            .collect()
    }

    /// Clocks as in this setting; resets too, or all of them let go.
    fn set_events(&self, number: usize, resets: bool) -> String {
        let setting = &self.run.settings[number];
        let bit = |event: &Event| match *event {
            Event::Reset { low, .. } if !resets => low,
            Event::Clock { signal, bit } | Event::Reset { signal, bit, .. } => setting[&signal][bit as usize],
        };
        let bits: Vec<bool> = self.sides[0].event_port.events.iter().map(bit).collect();
        if bits.is_empty() {
            return String::new();
        }
        format!("    events = {};\n", literal(&bits))
    }
}

/// Prints the lowest memory with a clash.
fn tell_clash(verilog: &Verilog, instance: &str, name: &str) -> String {
    let watches = verilog.watches.iter().enumerate();
    let told = watches.filter_map(|(number, watch)| {
        let clash = &watch.as_ref()?.clash;
        Some(format!("    if ({instance}.{clash}) $display(\"{name} clash {number}\");\n"))
    });
    told.collect::<Vec<String>>().join("    else\n")
}

/// The lines that the bench must print.
fn expected(run: &Run) -> String {
    let mut text = String::new();
    let observations = &run.seen.observations;
    for (number, seen) in observations.iter().enumerate() {
        let before = number
            .checked_sub(1)
            .map(|before| &observations[before].contents);
        for side in SIDES {
            text += &expected_values(side, seen);
            text += &expected_words(side, &seen.contents, before);
        }
    }
    let clash = run.seen.clash.iter();
    text + &clash.flat_map(|memory| SIDES.map(|side| format!("{side} clash {memory}\n"))).collect::<String>()
}

fn expected_values(side: &str, seen: &Observation) -> String {
    let mut text = String::new();
    for (signal, bits) in &seen.outputs {
        let _ = writeln!(text, "{side} output {signal} {}", digits(bits));
    }
    for (number, bits) in seen.contents.registers.iter().enumerate() {
        let _ = writeln!(text, "{side} register {number} {}", digits(bits));
    }
    for (number, ports) in seen.contents.read_data.iter().enumerate() {
        for (port, bits) in ports.iter().enumerate() {
            let _ = writeln!(text, "{side} read {number} {port} {}", digits(bits));
        }
    }
    text
}

fn expected_words(side: &str, after: &Contents, before: Option<&Contents>) -> String {
    let mut text = String::new();
    for (number, words) in after.memories.iter().enumerate() {
        for (place, word) in words.iter().enumerate() {
            if before.is_none_or(|before| before.memories[number][place] != *word) {
                let _ = writeln!(text, "{side} word {number} {place} {}", digits(word));
            }
        }
    }
    text
}
