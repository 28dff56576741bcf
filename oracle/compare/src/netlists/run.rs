//! The library's functions on many slices: every number of each answer held
//! against the reading of refusal 11, up to the first difference.

use super::cases::{case, Case, Origin};
use super::draft::Draft;
use super::places::{layout, Hits, Role};
use crate::plan::Plan;
use crate::Answer;
use image::netlist::HEADER_WORDS;
use image::{Random, ABSENT};
use std::collections::BTreeMap;
use std::fmt;
use std::ops::Range;
use std::time::{Duration, Instant};

/// The three functions over a slice; numbers as the library gives them.
pub trait Reader {
    fn check(&self, slice: &[u32]) -> Answer;
    fn node(&self, slice: &[u32], net: u32) -> (u32, [u32; 6]);
    fn record(&self, slice: &[u32], at: u32) -> (u32, [u32; 3]);
}

/// The reading of refusal 11 as a reader.
pub struct Reference;

impl Reader for Reference {
    fn check(&self, slice: &[u32]) -> Answer {
        reference::netlist_answer(slice)
    }

    fn node(&self, slice: &[u32], net: u32) -> (u32, [u32; 6]) {
        reference::netlist_node(slice, net).map_or((0, [0; 6]), |node| (1, node))
    }

    fn record(&self, slice: &[u32], at: u32) -> (u32, [u32; 3]) {
        reference::netlist_record(slice, at).map_or((0, [0; 3]), |record| (1, record))
    }
}

/// A call whose numbers differ: as expected, as given.
#[derive(Clone, Debug, PartialEq, Eq)]
pub enum Difference {
    Check(Answer, Answer),
    Node(u32, (u32, [u32; 6]), (u32, [u32; 6])),
    Record(u32, (u32, [u32; 3]), (u32, [u32; 3])),
    /// What is read is not what was lowered.
    Lowered(String),
}

impl fmt::Display for Difference {
    fn fmt(&self, f: &mut fmt::Formatter) -> fmt::Result {
        match self {
            Difference::Check(expected, got) => write!(f, "check: expected {expected:?}, got {got:?}"),
            Difference::Node(net, expected, got) => write!(f, "node {net}: expected {expected:?}, got {got:?}"),
            Difference::Record(at, expected, got) => write!(f, "record at {at}: expected {expected:?}, got {got:?}"),
            Difference::Lowered(what) => f.write_str(what),
        }
    }
}

/// What was compared.
#[derive(Clone, Debug, Default)]
pub struct Tally {
    pub slices: u64,
    pub words: u64,
    pub nodes: u64,
    pub records: u64,
    pub origins: BTreeMap<Origin, u64>,
    pub hits: Hits,
}

impl Tally {
    pub fn accepted(&self) -> u64 {
        self.hits.0.get("accepted").copied().unwrap_or(0)
    }
}

impl fmt::Display for Tally {
    fn fmt(&self, f: &mut fmt::Formatter) -> fmt::Result {
        let Tally { slices, words, nodes, records, .. } = self;
        let refused = slices - self.accepted();
        write!(f, "{slices} slices, {words} words: accepted {}, refused {refused}; {nodes} calls for nodes, {records} for records", self.accepted())?;
        self.origins.iter().try_for_each(|(origin, count)| write!(f, "; {origin}: {count}"))
    }
}

/// A difference, where it was met, and the smallest slice found that shows one.
pub struct Failure {
    pub number: u64,
    pub origin: Origin,
    pub difference: Difference,
    pub small: Vec<u32>,
    pub small_difference: Difference,
}

impl fmt::Display for Failure {
    fn fmt(&self, f: &mut fmt::Formatter) -> fmt::Result {
        writeln!(f, "DIFFERENCE at slice {} ({}): {}", self.number, self.origin, self.difference)?;
        writeln!(f, "smallest slice found, {} words: {}", self.small.len(), text(&self.small))?;
        write!(f, "{}", self.small_difference)
    }
}

/// Words with absent ones as a dash.
fn text(words: &[u32]) -> String {
    let word = |&word: &u32| if word == ABSENT { "-".to_string() } else { word.to_string() };
    words.iter().map(word).collect::<Vec<_>>().join(" ")
}

/// Compares every slice of the plan, or stops at the first difference.
pub fn run(reader: &dyn Reader, plan: &Plan) -> Result<Tally, Box<Failure>> {
    let mut tally = Tally::default();
    for number in plan.first..plan.first + plan.count {
        let mut random = Random::of_case(plan.seed, number);
        let Case { origin, draft, slice } = case(&mut random, number);
        let seed = random.next();
        let right = matches!(origin, Origin::Lowered | Origin::Heavy | Origin::ByHand).then_some(&draft);
        *tally.origins.entry(origin).or_default() += 1;
        let difference = compare(reader, &slice, seed, &mut tally).or_else(|| right.and_then(|draft| read_back(reader, &slice, draft)));
        if let Some(difference) = difference {
            let again = |slice: &[u32]| compare(reader, slice, seed, &mut Tally::default());
            let small = shrink(slice, &|slice| again(slice).is_some());
            let small_difference = again(&small).unwrap_or_else(|| difference.clone());
            return Err(Box::new(Failure { number, origin, difference, small, small_difference }));
        }
    }
    Ok(tally)
}

/// One slice: the check, nodes and records one by one, and wrong numbers of both.
fn compare(reader: &dyn Reader, slice: &[u32], seed: u64, tally: &mut Tally) -> Option<Difference> {
    let expected = Reference.check(slice);
    tally.slices += 1;
    tally.words += slice.len() as u64;
    tally.hits.count(slice, expected);
    let got = reader.check(slice);
    if got != expected {
        return Some(Difference::Check(expected, got));
    }
    let mut random = Random::new(seed);
    for net in nets(slice, &mut random) {
        tally.nodes += 1;
        let (expected, got) = (Reference.node(slice, net), reader.node(slice, net));
        if expected != got {
            return Some(Difference::Node(net, expected, got));
        }
    }
    for at in list_words(slice, &mut random) {
        tally.records += 1;
        let (expected, got) = (Reference.record(slice, at), reader.record(slice, at));
        if expected != got {
            return Some(Difference::Record(at, expected, got));
        }
    }
    None
}

/// The first nets, some others, and numbers that are no nets.
fn nets(slice: &[u32], random: &mut Random) -> Vec<u32> {
    const FIRST: u32 = 40;
    let count = slice.get(1).copied().unwrap_or(0);
    let mut nets: Vec<u32> = (0..count.min(FIRST) + 2).collect();
    nets.extend([count.wrapping_sub(1), count, count.wrapping_add(1), ABSENT, ABSENT - 1, 0x8000_0000, 0x2aaa_aaa8]);
    nets.extend((0..4).map(|_| random.below(count as usize + 1) as u32));
    nets
}

/// Every place where a record begins, some inside records, and numbers past the
/// list words used.
fn list_words(slice: &[u32], random: &mut Random) -> Vec<u32> {
    let used = slice.get(3).copied().unwrap_or(0);
    let starts = super::draft::starts(slice);
    let mut places: Vec<u32> = starts.iter().map(|&at| at as u32).collect();
    places.extend([used.wrapping_sub(1), used, used.wrapping_add(1), ABSENT, ABSENT - 1, 0x8000_0000]);
    places.extend((0..6).map(|_| random.below(used as usize + 1) as u32));
    places
}

/// All nodes and all records of a right netlist, as they were before they were
/// laid out.
fn read_back(reader: &dyn Reader, slice: &[u32], draft: &Draft) -> Option<Difference> {
    let differs = |what: String| Some(Difference::Lowered(what));
    let answer = reader.check(slice);
    if answer != crate::ACCEPTED {
        return differs(format!("a right netlist is answered {answer:?}"));
    }
    for (net, node) in (0..).zip(&draft.nodes) {
        let got = reader.node(slice, net);
        if got != (1, *node) {
            return differs(format!("node {net} is {node:?} and read as {got:?}"));
        }
    }
    let mut at = 0;
    for record in &draft.records {
        let (is_there, [sort, length, next]) = reader.record(slice, at);
        let words = slice.get((slice[4] + at) as usize..(slice[4] + next) as usize);
        if (is_there, sort, length) != (1, record[0], record.len() as u32) || words != Some(record) {
            return differs(format!("record at {at} is {record:?} and read as {words:?}"));
        }
        at = next;
    }
    let end = reader.record(slice, at);
    (at != slice[3] || end.0 != 0).then(|| Difference::Lowered(format!("the list ends at {at} with {end:?}")))
}

// ---- shrinking ----

/// The smallest slice found for which `persists` still holds.
pub fn shrink(slice: Vec<u32>, persists: &dyn Fn(&[u32]) -> bool) -> Vec<u32> {
    let mut search = Search { best: slice, persists, attempts: 0, until: Instant::now() + MOST_TIME };
    while search.round() && search.may_go_on() {}
    search.best
}

const MOST_ATTEMPTS: usize = 20_000;
const MOST_TIME: Duration = Duration::from_secs(5);

struct Search<'a> {
    best: Vec<u32>,
    persists: &'a dyn Fn(&[u32]) -> bool,
    attempts: usize,
    until: Instant,
}

impl Search<'_> {
    fn may_go_on(&self) -> bool {
        self.attempts < MOST_ATTEMPTS && Instant::now() < self.until
    }

    /// Takes the candidate if it is smaller and the difference persists.
    fn attempt(&mut self, candidate: Vec<u32>) -> bool {
        if weight(&candidate) >= weight(&self.best) || !self.may_go_on() {
            return false;
        }
        self.attempts += 1;
        let taken = (self.persists)(&candidate);
        if taken {
            self.best = candidate;
        }
        taken
    }

    /// One round of all edits; whether it made the slice smaller.
    fn round(&mut self) -> bool {
        let before = weight(&self.best);
        for length in [self.best.len() / 2, self.best.len() - self.best.len() / 8, self.best.len().saturating_sub(1)] {
            self.attempt(self.best[..length.min(self.best.len())].to_vec());
        }
        self.edit(|draft| draft.n = draft.nodes.len().max(1));
        self.drop_stretches(|draft| draft.records.len(), |draft, stretch| drop(draft.records.drain(stretch)));
        self.drop_stretches(|draft| draft.nodes.len(), |draft, stretch| stretch.rev().for_each(|net| drop_net(draft, net)));
        for at in 0..self.best.len() {
            let mut candidate = self.best.clone();
            if at < candidate.len() && candidate[at] != 0 && self.may_go_on() {
                candidate[at] = if at >= HEADER_WORDS { 0 } else { candidate[at] - 1 };
                self.attempt(candidate);
            }
        }
        weight(&self.best) < before
    }

    /// Attempts an edit of the parts. What the header says wrongly stays wrong by
    /// as much.
    fn edit(&mut self, edit: impl Fn(&mut Draft)) -> bool {
        let Some(mut draft) = Draft::of(&self.best) else { return false };
        let right = draft.words();
        edit(&mut draft);
        let mut words = draft.words();
        for at in (0..HEADER_WORDS).filter(|at| !matches!(at, 1 | 3 | 4)) {
            words[at] = words[at].wrapping_add(self.best[at].wrapping_sub(right[at]));
        }
        self.attempt(words)
    }

    /// Drops stretches, from halves down to single ones, the last first.
    fn drop_stretches(&mut self, count: impl Fn(&Draft) -> usize, drop: impl Fn(&mut Draft, Range<usize>)) {
        let Some(mut left) = Draft::of(&self.best).map(|draft| count(&draft)) else { return };
        let mut size = left.div_ceil(2);
        while size > 0 && self.may_go_on() {
            let mut end = left;
            while end > 0 {
                let start = end.saturating_sub(size);
                if self.edit(|draft| drop(draft, start..end)) {
                    left -= end - start;
                }
                end = start;
            }
            size /= 2;
        }
    }
}

/// What falls with each step: words, then their sum; 0 and absent count least.
fn weight(words: &[u32]) -> (usize, u64) {
    (words.len(), words.iter().filter(|&&word| word != ABSENT).map(|&word| u64::from(word)).sum())
}

/// Takes a net away: higher nets fall by one.
fn drop_net(draft: &mut Draft, net: usize) {
    let fall = |word: &mut u32| {
        if *word != ABSENT && *word > net as u32 {
            *word -= 1;
        }
    };
    draft.nodes.remove(net);
    draft.n = draft.n.max(2) - 1;
    draft.nodes.iter_mut().for_each(|node| node[3..].iter_mut().for_each(fall));
    for record in &mut draft.records {
        let Some(fields) = layout(record) else { continue };
        for (word, (_, role)) in record.iter_mut().zip(fields) {
            if matches!(role, Role::Carry | Role::Control | Role::Net | Role::Operand | Role::Own(_)) {
                fall(word);
            }
        }
    }
}
