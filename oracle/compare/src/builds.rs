//! Sequences of operations on a netlist, done by the port's builder and by
//! struo's own, under several limits: every answer and every word.

use crate::call::{LentWords, WordDifference};
use crate::parts::{BuildPlan, Parts};
use crate::plan::Plan;
use driver::{build, words, Answer, Built, Operation};
use image::{Random, MOST_LIMIT};
use std::fmt;

const NAMES: [&str; 16] = [
    "constant", "not", "and", "or", "xor", "mux", "add", "sub", "mul", "add with carry", "ltu", "leu", "lts", "les", "input", "output",
];

/// What was compared: sequences, runs, operations done by their code, muxes on a
/// Not, refusals.
#[derive(Clone, Copy, Debug, Default)]
pub struct Tally {
    pub sequences: u64,
    pub runs: u64,
    pub by_code: [u64; NAMES.len()],
    pub turned: u64,
    pub refused_9: u64,
    pub refused_10: u64,
    pub most_nets: usize,
}

impl Tally {
    pub fn operations(&self) -> u64 {
        self.by_code.iter().sum()
    }
}

impl fmt::Display for Tally {
    fn fmt(&self, f: &mut fmt::Formatter) -> fmt::Result {
        write!(f, "{} sequences, {} runs, {} operations (", self.sequences, self.runs, self.operations())?;
        for (number, (name, count)) in NAMES.iter().zip(self.by_code).enumerate() {
            write!(f, "{}{name} {count}", if number == 0 { "" } else { ", " })?;
        }
        write!(f, "), muxes on a Not {}, ", self.turned)?;
        write!(f, "refused 9: {}, 10: {}, at most {} nets", self.refused_9, self.refused_10, self.most_nets)
    }
}

/// Operations and the pool that their words are taken from.
#[derive(Clone, Debug)]
pub struct Sequence {
    pub operations: Vec<[u32; 5]>,
    pub pool: Vec<u32>,
}

impl Sequence {
    fn built(&self, n: u32, p: u32) -> Built {
        built(&self.operations, &self.pool, n, p)
    }
}

/// What struo's builder makes of operations.
pub fn built(operations: &[[u32; 5]], pool: &[u32], n: u32, p: u32) -> Built {
    let operation = |&[code, a, b, c, d]: &[u32; 5]| Operation { code, words: [a, b, c, d] };
    let operations: Vec<Operation> = operations.iter().map(operation).collect();
    build(&operations, pool, n, p)
}

impl fmt::Display for Sequence {
    fn fmt(&self, f: &mut fmt::Formatter) -> fmt::Result {
        for (number, [code, a, b, c, d]) in self.operations.iter().enumerate() {
            let name = NAMES.get(*code as usize).unwrap_or(&"output");
            writeln!(f, "{number}: {code} ({name}) {a} {b} {c} {d}")?;
        }
        write!(f, "pool {:?}", self.pool)
    }
}

/// How limits follow from what a sequence takes.
#[derive(Clone, Copy, Debug)]
pub enum Recipe {
    Exact,
    Ample(u32),
    NetsShort(u32),
    ListShort(u32),
    /// Parts in 256.
    Part(u32, u32),
}

impl Recipe {
    fn all(random: &mut Random) -> [Recipe; 6] {
        let far = random.range(1, 20);
        [
            Recipe::Exact,
            Recipe::Ample(random.range(1, 400)),
            Recipe::NetsShort(1),
            Recipe::ListShort(1),
            if random.flag() { Recipe::NetsShort(far) } else { Recipe::ListShort(far) },
            Recipe::Part(random.range(1, 255), random.range(1, 255)),
        ]
    }

    fn limits(self, nets: u32, list: u32) -> (u32, u32) {
        let (n, p) = match self {
            Recipe::Exact => (nets, list),
            Recipe::Ample(more) => (nets + more, list + more),
            Recipe::NetsShort(less) => (nets.saturating_sub(less), list + 3),
            Recipe::ListShort(less) => (nets + 3, list.saturating_sub(less)),
            Recipe::Part(some, other) => (nets * some / 256, list * other / 256),
        };
        (n.clamp(1, MOST_LIMIT), p.min(MOST_LIMIT))
    }
}

/// How an outcome differs.
#[derive(Clone, Debug)]
pub enum Difference {
    End { expected: [u64; 2], got: [u64; 2] },
    Word(WordDifference),
}

impl fmt::Display for Difference {
    fn fmt(&self, f: &mut fmt::Formatter) -> fmt::Result {
        match self {
            Difference::End { expected, got } => write!(f, "expected end {expected:?}, got {got:?}"),
            Difference::Word(word) => write!(f, "{word}"),
        }
    }
}

/// A difference, with the smallest sequence found that shows it.
pub struct Failure {
    pub number: u64,
    pub recipe: Recipe,
    pub operations: usize,
    pub difference: Difference,
    pub small: Sequence,
    pub limits: (u32, u32),
    pub small_difference: Difference,
}

impl fmt::Display for Failure {
    fn fmt(&self, f: &mut fmt::Formatter) -> fmt::Result {
        writeln!(f, "DIFFERENCE at sequence {}, {:?}, {} operations", self.number, self.recipe, self.operations)?;
        writeln!(f, "{}", self.difference)?;
        writeln!(f, "smallest sequence found, {} operations:", self.small.operations.len())?;
        writeln!(f, "{}", self.small)?;
        writeln!(f, "N {}, P {}", self.limits.0, self.limits.1)?;
        write!(f, "{}", self.small_difference)
    }
}

/// Compares sequences until enough operations were done, or stops at the first
/// difference.
pub fn run(parts: &dyn Parts, plan: &Plan) -> Result<Tally, Box<Failure>> {
    let mut tally = Tally::default();
    let mut number = plan.first;
    while tally.operations() < plan.count {
        let mut random = Random::of_case(plan.seed, number);
        let sequence = sequence(&mut random);
        tally.sequences += 1;
        for recipe in Recipe::all(&mut random) {
            let trial = Trial { parts, recipe, junk: random.next() };
            if let (_, Some(difference)) = trial.compare(&sequence, &mut tally) {
                return Err(Box::new(trial.failure(number, sequence, difference)));
            }
        }
        number += 1;
    }
    Ok(tally)
}

/// One way to run the builders, for the sequence found and those shrunk from it.
struct Trial<'a> {
    parts: &'a dyn Parts,
    recipe: Recipe,
    junk: u64,
}

impl Trial<'_> {
    /// The limits taken, and the difference if there is one.
    fn compare(&self, sequence: &Sequence, tally: &mut Tally) -> ((u32, u32), Option<Difference>) {
        let (nets, list) = taken(&sequence.built(MOST_LIMIT, MOST_LIMIT).netlist);
        let (n, p) = self.recipe.limits(nets, list);
        let expected = sequence.built(n, p);
        count(tally, sequence, &expected);
        ((n, p), self.difference(sequence, n, p, &expected))
    }

    fn difference(&self, sequence: &Sequence, n: u32, p: u32, expected: &Built) -> Option<Difference> {
        let done = expected.answers.len();
        let end = match expected.refused {
            None => [0, 0],
            Some(number) => [u64::from(number), done as u64],
        };
        let all = sequence.operations.len();
        let netlist = words(&expected.netlist, n, p);
        if expected.refused.is_none() {
            return self.call(sequence, n, p, all, end, &expected.answers, Some(&netlist));
        }
        // The refusal; then what stands before it.
        self.call(sequence, n, p, all, end, &expected.answers, None)
            .or_else(|| self.call(sequence, n, p, done, [0, 0], &expected.answers, Some(&netlist)))
    }

    #[allow(clippy::too_many_arguments)]
    fn call(
        &self,
        sequence: &Sequence,
        n: u32,
        p: u32,
        turns: usize,
        end: [u64; 2],
        answers: &[u32],
        words: Option<&[u32]>,
    ) -> Option<Difference> {
        let all = sequence.operations.len();
        let mut netlist = LentWords::new("netlist", 16 + 6 * n as usize + p as usize, self.junk);
        let mut index = LentWords::new("index", 4 * n as usize, !self.junk);
        let mut results = LentWords::new("answers", all, self.junk.rotate_left(7));
        let plan = BuildPlan { n, operations: &sequence.operations, turns, pool: &sequence.pool };
        let got = self.parts.build(&plan, netlist.words(), index.words(), results.words());
        if got != end {
            return Some(Difference::End { expected: end, got });
        }
        // Of the index, and of a netlist that was refused, the guards alone.
        let index_words = index.words().to_vec();
        let netlist_words = netlist.words().to_vec();
        let word = results
            .first_difference(answers)
            .or_else(|| netlist.first_difference(words.unwrap_or(&netlist_words)))
            .or_else(|| index.first_difference(&index_words));
        word.map(Difference::Word)
    }

    fn failure(&self, number: u64, sequence: Sequence, difference: Difference) -> Failure {
        let operations = sequence.operations.len();
        let mut small = shrink(sequence, &mut |candidate| self.differs(candidate));
        if let Some(shorter) = self.shorter(number, small.operations.len()) {
            small = shrink(shorter, &mut |candidate| self.differs(candidate));
        }
        let (limits, small_difference) = self.compare(&small, &mut Tally::default());
        let small_difference = small_difference.expect("the difference persists");
        Failure { number, recipe: self.recipe, operations, difference, small, limits, small_difference }
    }

    fn differs(&self, sequence: &Sequence) -> bool {
        self.compare(sequence, &mut Tally::default()).1.is_some()
    }

    /// A difference in one of many short sequences: leaving out operations
    /// changes what later ones name, so that shrinking may end early.
    fn shorter(&self, number: u64, length: usize) -> Option<Sequence> {
        const SHORT: usize = 10;
        const ATTEMPTS: usize = 200_000;
        if length <= SHORT {
            return None;
        }
        let mut random = Random::new(!number);
        let sequences = std::iter::repeat_with(|| {
            let length = random.range(2, SHORT as u32);
            sequence_of(&mut random, length)
        });
        sequences.take(ATTEMPTS).find(|sequence| self.differs(sequence))
    }
}

/// Nets and list words that a netlist takes.
fn taken(netlist: &Answer) -> (u32, u32) {
    match netlist {
        Answer::Netlist { nodes, records } => (nodes.len() as u32, records.iter().map(|record| record.len() as u32).sum()),
        other => panic!("a built netlist is no {other:?}"),
    }
}

fn count(tally: &mut Tally, sequence: &Sequence, built: &Built) {
    tally.runs += 1;
    for [code, ..] in &sequence.operations[..built.answers.len()] {
        tally.by_code[(*code as usize).min(NAMES.len() - 1)] += 1;
    }
    tally.turned += built.turned;
    tally.refused_9 += u64::from(built.refused == Some(9));
    tally.refused_10 += u64::from(built.refused == Some(10));
    tally.most_nets = tally.most_nets.max(taken(&built.netlist).0 as usize);
}

// ---- sequences ----

/// A random sequence. Many operations repeat an earlier one, with or without
/// its operands exchanged, and many take one of the first nets.
fn sequence(random: &mut Random) -> Sequence {
    let length = match random.below(40) {
        0 => random.range(400, 3_000),
        1..=9 => random.range(60, 400),
        _ => random.range(1, 60),
    };
    sequence_of(random, length)
}

fn sequence_of(random: &mut Random, length: u32) -> Sequence {
    let words = random.range(1, 8) * random.range(1, 16);
    let pool = (0..words).map(|_| operand(random, length)).collect();
    let weights = weights(random);
    let mut operations: Vec<[u32; 5]> = Vec::new();
    for done in 0..length {
        let next = match operations.len() {
            before if before > 0 && random.chance(20) => repeated(random, operations[random.clone().below(before)]),
            _ => operation(random, &weights, done, words),
        };
        operations.push(next);
    }
    Sequence { operations, pool }
}

/// How often each code occurs: each sequence has its own mixture.
fn weights(random: &mut Random) -> [u32; NAMES.len()] {
    let usual = [3, 8, 12, 12, 12, 14, 4, 3, 3, 4, 2, 2, 2, 2, 3, 2];
    match random.below(4) {
        0 => usual.map(|weight| if random.flag() { weight } else { 0 }),
        1 => usual.map(|weight| weight * random.range(0, 3)),
        _ => usual,
    }
}

fn operation(random: &mut Random, weights: &[u32; NAMES.len()], done: u32, pool: u32) -> [u32; 5] {
    let code = pick(random, weights);
    match code {
        0 => [0, random.range(0, 1), 0, 0, 0],
        1..=5 => {
            let [a, b, c] = [0; 3].map(|_| operand(random, done));
            let b = if random.chance(5) { a } else { b };
            [code, a, b, c, 0]
        }
        _ => [code, width(random) - 1, random.range(0, pool), random.range(0, pool), operand(random, done)],
    }
}

fn pick(random: &mut Random, weights: &[u32; NAMES.len()]) -> u32 {
    let total: u32 = weights.iter().sum();
    if total == 0 {
        return random.range(0, 15);
    }
    let mut left = random.range(0, total - 1);
    for (code, weight) in weights.iter().enumerate() {
        if left < *weight {
            return code as u32;
        }
        left -= weight;
    }
    unreachable!("the weights sum to the total")
}

/// A word that names a net: one of the first, one that is likely there, any.
fn operand(random: &mut Random, done: u32) -> u32 {
    match random.below(4) {
        0 => random.range(0, 3),
        1 | 2 => random.range(0, done / 2 + 2),
        _ => random.next() as u32,
    }
}

fn width(random: &mut Random) -> u32 {
    match random.below(60) {
        0 => random.pick(&[63, 64, 65]),
        1 if random.chance(15) => random.pick(&[255, 1_023, 1_024]),
        2..=9 => random.range(5, 33),
        _ => random.range(1, 4),
    }
}

/// The operation again, perhaps with something exchanged.
fn repeated(random: &mut Random, [code, a, b, c, d]: [u32; 5]) -> [u32; 5] {
    let is_gate = code < 6;
    match random.below(5) {
        0 if is_gate => [code, b, a, c, d],
        1 if is_gate => [code, a, c, b, d],
        2 if is_gate => [random.range(1, 5), a, b, c, d],
        0 => [code, a, c, b, d],
        1 => [random.range(6, 13), a, b, c, d],
        _ => [code, a, b, c, d],
    }
}

// ---- shrinking ----

const MOST_ATTEMPTS: usize = 20_000;

/// The smallest sequence found for which `persists` still holds.
fn shrink(mut best: Sequence, persists: &mut dyn FnMut(&Sequence) -> bool) -> Sequence {
    let mut attempts = 0;
    let mut again = true;
    while again {
        again = false;
        for candidate in Candidates::of(&best) {
            attempts += 1;
            if attempts > MOST_ATTEMPTS {
                return best;
            }
            if persists(&candidate) {
                best = candidate;
                again = true;
                break;
            }
        }
    }
    best
}

/// Smaller sequences: without a stretch of operations, then with smaller words.
struct Candidates {
    of: Sequence,
    next: usize,
}

impl Candidates {
    fn of(of: &Sequence) -> Self {
        Candidates { of: of.clone(), next: 0 }
    }

    /// The stretches that may be left out, long ones first.
    fn stretch(&self, number: usize) -> Result<(usize, usize), usize> {
        let length = self.of.operations.len();
        let mut rest = number;
        let mut run = length / 2;
        while run > 0 {
            let count = length.div_ceil(run);
            if rest < count {
                return Ok((rest * run, ((rest + 1) * run).min(length)));
            }
            rest -= count;
            run /= 2;
        }
        Err(rest)
    }

    /// Operation word or pool word, halved or 0.
    fn lowered(&self, number: usize) -> Option<Sequence> {
        let mut copy = self.of.clone();
        let places = 5 * copy.operations.len() + copy.pool.len();
        let place = number / 3;
        if place >= places {
            return None;
        }
        let word = match copy.operations.as_flattened_mut().get_mut(place) {
            Some(word) => word,
            None => &mut copy.pool[place - 5 * self.of.operations.len()],
        };
        *word = match number % 3 {
            0 => 0,
            1 => *word / 2,
            _ => word.saturating_sub(1),
        };
        Some(copy)
    }
}

impl Iterator for Candidates {
    type Item = Sequence;

    fn next(&mut self) -> Option<Sequence> {
        loop {
            let number = self.next;
            self.next += 1;
            match self.stretch(number) {
                Ok((from, to)) if to - from < self.of.operations.len() => {
                    let mut copy = self.of.clone();
                    copy.operations.drain(from..to);
                    return Some(copy);
                }
                Ok(_) => {}
                Err(0) if self.of.pool.len() > 1 => {
                    let mut copy = self.of.clone();
                    copy.pool.truncate(copy.pool.len() / 2);
                    return Some(copy);
                }
                Err(0) => {}
                Err(rest) => {
                    let copy = self.lowered(rest - 1)?;
                    if copy.operations != self.of.operations || copy.pool != self.of.pool {
                        return Some(copy);
                    }
                }
            }
        }
    }
}
