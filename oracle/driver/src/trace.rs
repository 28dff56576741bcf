//! The trace program (requests ): a netlist image and a trace come in
//! as bytes, the output bits after each settings line go out. The requests' sentences
//! stand in quotes; keeps and backs are taken in trace_history.rs.

use image::netlist::{HEADER_WORDS, Netlist, Node};
use reference::{FINE, netlist_answer};

use crate::trace_history::{LONGEST, NameLine, NamedRuns};
use crate::trace_sim::TraceSim;

/// "This program takes netlists made with N = 1,024 and P = 2,048, and memories of at
/// most 65,536 bits in all."
const LIST_OFFSET: u32 = 16 + 6 * 1_024;
const MOST_LIST_WORDS: u32 = 2_048;
const MOST_MEMORY_BITS: u64 = 65_536;
/// "For traces of up to 4,294,967,295 lines; one line more is refused under 13."
const MOST_LINES: u32 = u32::MAX;

const WORD_BYTES: usize = 4;

/// What the program prints for these bytes.
#[must_use]
pub fn trace(input: &[u8]) -> Vec<u8> {
    let (mut program, mut text) = (TraceProgram::default(), Vec::new());
    program.take(input, &mut text);
    program.end(&mut text);
    text
}

/// The program over bytes that come in parts.
#[derive(Default)]
pub struct TraceProgram {
    stage: Stage,
}

enum Stage {
    /// The bytes so far, which do not reach the end of the netlist.
    Netlist(Vec<u8>),
    Lines(Box<Lines>),
    Refused,
}

impl Default for Stage {
    fn default() -> Self {
        Stage::Netlist(Vec::new())
    }
}

impl TraceProgram {
    /// Takes the next bytes, and adds to the text what they make the program print.
    pub fn take(&mut self, bytes: &[u8], text: &mut Vec<u8>) {
        match &mut self.stage {
            Stage::Refused => {}
            Stage::Lines(lines) => {
                let taken = lines.take(bytes, text);
                self.refused(taken, text);
            }
            Stage::Netlist(held) => {
                held.extend(bytes);
                match opened(held) {
                    Err(refusal) => self.refused(Err(refusal), text),
                    Ok(None) => {}
                    Ok(Some((sim, end))) => {
                        let rest = held.split_off(end);
                        self.stage = Stage::Lines(Box::new(Lines::new(sim)));
                        self.take(&rest, text);
                    }
                }
            }
        }
    }

    /// The input has ended.
    pub fn end(&mut self, text: &mut Vec<u8>) {
        let ended = match &self.stage {
            Stage::Refused => Ok(()),
            Stage::Lines(lines) => lines.end(),
            // "Where the slice ends too early, its length, judged after the header
            // words that are there."
            Stage::Netlist(held) => Err(netlist_answer(&words(held))),
        };
        self.refused(ended, text);
    }

    /// Whether nothing more is printed, whatever comes.
    #[must_use]
    pub fn is_refused(&self) -> bool {
        matches!(self.stage, Stage::Refused)
    }

    fn refused(&mut self, result: Result<(), [u32; 3]>, text: &mut Vec<u8>) {
        if let Err([number, first, second]) = result {
            text.extend(format!("refused {number} {first} {second}\n").into_bytes());
            self.stage = Stage::Refused;
        }
    }
}

// ---- the netlist ----

/// "Four bytes a word, low first (a cut word counts as none)."
fn words(bytes: &[u8]) -> Vec<u32> {
    bytes.as_chunks::<WORD_BYTES>().0.iter().map(|&word| u32::from_le_bytes(word)).collect()
}

/// The netlist that the bytes begin with, and the byte where it ends; nothing if
/// they end before. "N and list words straight after 11's header words, if all
/// sixteen are there, and before its length; the others after 11."
fn opened(bytes: &[u8]) -> Result<Option<(TraceSim, usize)>, [u32; 3]> {
    let Some(header) = bytes.get(..HEADER_WORDS * WORD_BYTES).map(words) else {
        return Ok(None);
    };
    // Sixteen right header words are too short, and nothing else is wrong.
    let judged = netlist_answer(&header);
    if judged != [11, HEADER_WORDS as u32, 0] {
        return Err(judged);
    }
    let (used, list_offset) = (header[3], header[4]);
    if list_offset != LIST_OFFSET || used > MOST_LIST_WORDS {
        return Err([12, 0, 0]);
    }
    let end = (list_offset + used) as usize * WORD_BYTES;
    let Some(words) = bytes.get(..end).map(words) else {
        return Ok(None);
    };
    let judged = netlist_answer(&words);
    if judged != FINE {
        return Err(judged);
    }
    let netlist = Netlist::decode(&words).unwrap_or_else(|problem| panic!("a netlist that is accepted: {problem}"));
    match is_taken(&netlist) {
        true => Ok(Some((TraceSim::new(netlist), end))),
        false => Err([12, 0, 0]),
    }
}

/// "A clock or asynchronous reset that is no input net, or too many memory bits."
fn is_taken(netlist: &Netlist) -> bool {
    let is_input = |net: u32| matches!(netlist.nodes[net as usize], Node::Input { .. });
    let ports = || netlist.memories.iter().flat_map(|memory| &memory.ports);
    let clocks = netlist.registers.iter().map(|record| record.clock).chain(ports().map(|port| port.clock));
    let resets = netlist.registers.iter().filter(|record| record.asynchronous).filter_map(|record| record.reset);
    let bits = netlist.memories.iter().map(|memory| u64::from(memory.depth) * memory.ports[0].read_data.len() as u64);
    clocks.chain(resets.map(|reset| reset.net)).all(is_input) && bits.sum::<u64>() <= MOST_MEMORY_BITS
}

// ---- the trace ----

struct Lines {
    runs: NamedRuns,
    /// The line's number, counted from 0.
    number: u32,
    /// Its characters so far.
    line: Vec<u8>,
}

impl Lines {
    fn new(sim: TraceSim) -> Self {
        Lines { runs: NamedRuns::new(sim), number: 0, line: Vec::new() }
    }

    fn take(&mut self, bytes: &[u8], text: &mut Vec<u8>) -> Result<(), [u32; 3]> {
        for &byte in bytes {
            if self.number == MOST_LINES {
                return self.wrong();
            }
            if byte == b'\n' {
                self.take_line(text)?;
            } else {
                self.line.push(byte);
                // A longer line is wrong whatever follows.
                if self.line.len() > self.runs.sim().input_bits().max(LONGEST) {
                    return self.wrong();
                }
            }
        }
        Ok(())
    }

    /// "Refused, after 13's line end and line limit: 15, .. place the line; any other
    /// line, a badly formed name included, is judged by 13." "Neither line prints
    /// anything." (Q-8)
    fn take_line(&mut self, text: &mut Vec<u8>) -> Result<(), [u32; 3]> {
        match NameLine::read(&self.line) {
            None => self.run_line(text)?,
            Some(line) if self.runs.take(&line) => {}
            Some(_) => return Err([15, self.number, 0]),
        }
        self.line.clear();
        self.number += 1;
        Ok(())
    }

    /// "A character 0 or 1 for each input bit, ports in image order, bit 0 first."
    /// "After each line it prints the output bits in the same manner." "14, a write
    /// clash, place line and the lowest such memory, after the line's own check by 13
    /// and before its outputs are printed." (Q-6)
    fn run_line(&mut self, text: &mut Vec<u8>) -> Result<(), [u32; 3]> {
        let is_bit = |letter: &u8| matches!(letter, b'0' | b'1');
        if self.line.len() != self.runs.sim().input_bits() || !self.line.iter().all(is_bit) {
            return self.wrong();
        }
        self.runs.set(&self.line).map_err(|memory| [14, self.number, memory])?;
        text.extend(self.runs.sim().outputs().map(|bit| if bit { b'1' } else { b'0' }));
        text.push(b'\n');
        Ok(())
    }

    /// "Each line ends with byte 10; one that does not is refused under 13."
    fn end(&self) -> Result<(), [u32; 3]> {
        if self.line.is_empty() { Ok(()) } else { self.wrong() }
    }

    /// "13, a line of another length or letter, place its number, counted from 0."
    fn wrong(&self) -> Result<(), [u32; 3]> {
        Err([13, self.number, 0])
    }
}

#[cfg(test)]
mod tests {
    use super::{Lines, MOST_LINES, TraceSim};
    use image::netlist::Netlist;
    use image::netlist_parts::{exact, input, not, output};

    fn inverter(number: u32) -> Lines {
        let words = exact(&[input(0, 0), not(0), output(1, 0, 1)], &[&[0, 0, 1, 0], &[0, 1, 1, 2]]);
        Lines { number, ..Lines::new(TraceSim::new(Netlist::decode(&words).unwrap())) }
    }

    #[test]
    fn the_last_line_is_printed_and_one_more_is_refused_whatever_it_holds() {
        for more in ["0\n", "x", "\n", "00", "keep a\n", "back a\n"] {
            let (mut lines, mut text) = (inverter(MOST_LINES - 2), Vec::new());
            assert_eq!(lines.take(b"0\n1\n", &mut text), Ok(()));
            assert_eq!(lines.end(), Ok(()));
            assert_eq!(lines.take(more.as_bytes(), &mut text), Err([13, 4_294_967_295, 0]));
            assert_eq!(text, b"1\n0\n");
        }
    }

    #[test]
    fn keeps_and_backs_are_counted_up_to_the_limit() {
        let (mut lines, mut text) = (inverter(MOST_LINES - 4), Vec::new());
        assert_eq!(lines.take(b"0\nkeep a\n1\nback a\n", &mut text), Ok(()));
        assert_eq!(lines.take(b"back a\n", &mut text), Err([13, 4_294_967_295, 0]));
        assert_eq!(text, b"1\n0\n");
    }

    #[test]
    fn a_wrong_line_near_the_end_has_its_own_number() {
        let (mut lines, mut text) = (inverter(MOST_LINES - 1), Vec::new());
        assert_eq!(lines.take(b"2\n", &mut text), Err([13, 4_294_967_294, 0]));
        assert_eq!(inverter(MOST_LINES - 1).take(b"back a\n", &mut text), Err([15, 4_294_967_294, 0]));
        assert_eq!(text, b"");
    }
}
