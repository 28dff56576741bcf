//! Keeps and backs of a trace (request Q-8), by histories: a name holds the settings
//! lines that led to its keep, and a back runs these again on a fresh machine. No
//! state is copied. The request's sentences stand in quotes.

use std::collections::BTreeMap;

use crate::trace_sim::TraceSim;

/// "Up to 4 names are held."
const MOST_NAMES: usize = 4;
/// "With names of 1 to 8 lower-case letters."
const MOST_LETTERS: usize = 8;
/// The bytes of the longest keep or back, without its end.
pub const LONGEST: usize = "keep ".len() + MOST_LETTERS;

/// "The trace gains lines `keep NAME` and `back NAME`."
pub enum NameLine<'a> {
    Keep(&'a [u8]),
    Back(&'a [u8]),
}

impl NameLine<'_> {
    /// A line without its end, if it is one of these.
    pub fn read(line: &[u8]) -> Option<NameLine<'_>> {
        let is_name = |name: &&[u8]| (1..=MOST_LETTERS).contains(&name.len()) && name.iter().all(u8::is_ascii_lowercase);
        let keep = line.strip_prefix(b"keep ").filter(is_name).map(NameLine::Keep);
        keep.or_else(|| line.strip_prefix(b"back ").filter(is_name).map(NameLine::Back))
    }
}

/// The settings lines of a run from its start on, one behind the other. Their number
/// stands beside them: a line may have no letters.
#[derive(Clone, Default)]
struct History {
    lines: u64,
    letters: Vec<u8>,
}

/// The run that stands, its history, and the histories that names hold.
pub struct NamedRuns {
    sim: TraceSim,
    history: History,
    kept: BTreeMap<Vec<u8>, History>,
}

impl NamedRuns {
    pub fn new(sim: TraceSim) -> Self {
        NamedRuns { sim, history: History::default(), kept: BTreeMap::new() }
    }

    pub fn sim(&self) -> &TraceSim {
        &self.sim
    }

    /// The next settings line, of a letter 0 or 1 for each input bit; the memory of a
    /// write clash, if there is one.
    pub fn set(&mut self, letters: &[u8]) -> Result<(), u32> {
        self.history.lines += 1;
        self.history.letters.extend(letters);
        self.sim.set(bits(letters))
    }

    /// Takes a keep or a back, or says that 15 refuses it.
    pub fn take(&mut self, line: &NameLine) -> bool {
        match *line {
            NameLine::Keep(name) => self.keep(name),
            NameLine::Back(name) => self.back(name),
        }
    }

    /// "The same name again replaces it." Refused: "a keep of a fifth name, or a keep
    /// before the first settings line".
    fn keep(&mut self, name: &[u8]) -> bool {
        let is_fifth = self.kept.len() == MOST_NAMES && !self.kept.contains_key(name);
        if self.history.lines == 0 || is_fifth {
            return false;
        }
        self.kept.insert(name.to_vec(), self.history.clone());
        true
    }

    /// "A run's history is then the history at that name's last keep, joined to the
    /// settings lines after the back." Refused: "a back to a name not kept".
    fn back(&mut self, name: &[u8]) -> bool {
        let Some(history) = self.kept.get(name).cloned() else { return false };
        let mut sim = self.sim.fresh();
        let width = sim.input_bits();
        for line in 0..history.lines as usize {
            sim.set(bits(&history.letters[line * width..(line + 1) * width])).expect("lines that have run");
        }
        (self.sim, self.history) = (sim, history);
        true
    }
}

fn bits(letters: &[u8]) -> impl ExactSizeIterator<Item = bool> {
    letters.iter().map(|&letter| letter == b'1')
}
