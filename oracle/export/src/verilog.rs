//! What both Verilog writers share: how clocks reach a module, the identifiers
//! a bench needs, and small pieces of text.

use crate::clocked::Watch;
use crate::names::Names;

/// How clocks and asynchronous resets reach the always blocks.
#[derive(Clone, Copy, PartialEq, Eq, Debug)]
pub enum Style {
    /// By the signals themselves, as usual.
    Plain,
    /// By one more port with a bit for each [`Event`], so that all of them
    /// change at once while every input still has its value before the step.
    Step,
}

/// A bit of the event port.
#[derive(Clone, Copy, PartialEq, Eq, PartialOrd, Ord, Debug)]
pub enum Event {
    /// A bit of an input that is a clock.
    Clock { signal: u32, bit: u32 },
    /// A bit of an input that is an asynchronous reset, as registers of this
    /// polarity see it.
    Reset { signal: u32, bit: u32, low: bool },
}

/// The event port, if there is one, declared last; and its bits, bit 0 first.
#[derive(Default)]
pub struct EventPort {
    pub name: Option<String>,
    pub events: Vec<Event>,
}

impl EventPort {
    /// The port for these events, where the style has one and there are any.
    pub(crate) fn new(
        style: Style,
        names: &mut Names,
        events: impl FnOnce() -> Result<Vec<Event>, String>,
    ) -> Result<Self, String> {
        if style == Style::Plain {
            return Ok(Self::default());
        }
        let events = events()?;
        let name = (!events.is_empty()).then(|| names.plain("events"));
        Ok(Self { name, events })
    }

    /// The port's declaration, if it is there.
    pub(crate) fn declaration(&self) -> Option<String> {
        let name = self.name.as_ref()?;
        Some(format!("input wire [{}:0] {name}", self.events.len() - 1))
    }

    /// The event's bit of the port, or the wire that makes it where there is
    /// none.
    pub(crate) fn bit(&self, event: Event, wire: &str) -> String {
        let place = self.events.iter().position(|known| *known == event);
        match (&self.name, place) {
            (Some(name), Some(place)) => format!("{name}[{place}]"),
            _ => wire.to_string(),
        }
    }
}

/// A Verilog module, and what its parts are called in it.
pub struct Verilog {
    /// The whole text.
    pub text: String,
    /// The signals that are ports, in the order declared.
    pub ports: Vec<u32>,
    /// The port that brings clocks and asynchronous resets.
    pub event_port: EventPort,
    /// Variables with the register contents, by register.
    pub registers: Vec<String>,
    /// Variables with the read data, by memory and port.
    pub read_data: Vec<Vec<String>>,
    /// The memories.
    pub memories: Vec<String>,
    /// What tells write clashes, by memory.
    pub watches: Vec<Option<Watch>>,
}

impl Verilog {
    /// Lets an instance forget which words were stored.
    pub fn clear_watches(&self, instance: &str) -> String {
        let watches = self.watches.iter().flatten();
        watches.map(|watch| format!("    {instance}.{} = 0;\n", watch.stored)).collect()
    }
}

/// The range in a declaration; nothing for one bit.
pub fn range(width: u32) -> String {
    if width == 1 {
        String::new()
    } else {
        format!("[{}:0] ", width - 1)
    }
}

/// Bits `lsb` to `lsb + width - 1` of a word of `whole` bits.
pub fn select(word: &str, whole: u32, lsb: u32, width: u32) -> String {
    if width == whole {
        word.to_string()
    } else if width == 1 {
        format!("{word}[{lsb}]")
    } else {
        format!("{word}[{}:{lsb}]", lsb + width - 1)
    }
}

/// A binary literal; bits with bit 0 first.
pub fn literal(bits: &[bool]) -> String {
    format!("{}'b{}", bits.len(), digits(bits))
}

/// The bits as digits, the most significant first.
pub fn digits(bits: &[bool]) -> String {
    let digits = bits.iter().rev();
    digits.map(|bit| if *bit { '1' } else { '0' }).collect()
}

/// The head of a module with these port declarations.
pub fn module_head(name: &str, ports: &[String]) -> String {
    if ports.is_empty() {
        return format!("module {name} ();\n");
    }
    format!("module {name} (\n  {}\n);\n", ports.join(",\n  "))
}

#[cfg(test)]
mod tests {
    use super::{literal, select};

    #[test]
    fn pieces_of_text() {
        assert_eq!(select("e1", 4, 0, 4), "e1");
        assert_eq!(select("e1", 4, 2, 1), "e1[2]");
        assert_eq!(select("e1", 4, 1, 3), "e1[3:1]");
        assert_eq!(literal(&[true, false, false]), "3'b001");
    }
}
