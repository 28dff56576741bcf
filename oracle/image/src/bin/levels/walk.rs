//! The walk over a module image with its live calls kept in a list: how deep
//! it goes, and whether the path is what docs/BENCH.md (Stack) says of it. Needs,
//! fusion and carries are stated here apart from the driver and the port.

use image::{kind, memory_field, port_field, Image, ABSENT};
use std::collections::{BTreeMap, BTreeSet};

/// Something to lower: a signal's bit, an expression, a range of one (lsb,
/// width).
#[derive(Clone, Copy, PartialEq, Eq, PartialOrd, Ord, Debug)]
pub enum Need {
    Bit(u32, u32),
    Whole(u32),
    Range(u32, u32, u32),
}

/// A live call, and its steps taken so far.
#[derive(Clone, Copy, Debug)]
struct Live {
    need: Need,
    taken: u32,
}

/// A step of a need, the number of the next one, and where an expression that
/// is taken stands in the one that takes it.
struct Step {
    need: Need,
    next: u32,
    at: Option<i64>,
}

/// Live calls of each sort: bits, whole expressions that are drivers, other
/// whole expressions, ranges.
#[derive(Clone, Copy, Default, PartialEq, Eq, Debug)]
pub struct Levels {
    pub bits: usize,
    pub drivers: usize,
    pub wholes: usize,
    pub ranges: usize,
}

impl Levels {
    pub fn all(self) -> usize {
        self.bits + self.drivers + self.wholes + self.ranges
    }
}

/// The most levels that an image of these records can come to.
pub fn most_levels(image: &Image) -> usize {
    image.expression_bits() + 2 * image.expressions.len() + 3
}

/// 6 or 7, a signal, a bit.
pub type Refusal = [u32; 3];

pub struct Walk<'a> {
    image: &'a Image,
    /// First bit of each signal, of each expression.
    signal_at: Vec<usize>,
    expr_at: Vec<usize>,
    driver: Vec<Option<u32>>,
    known: Vec<bool>,
    marked: Vec<bool>,
    whole: Vec<bool>,
    lowered: Vec<bool>,
    path: Vec<Live>,
    now: Levels,
    deepest: Levels,
    /// Whether the path is looked at each time that a bit is marked.
    strict: bool,
}

impl<'a> Walk<'a> {
    /// `image` passes the checks.
    pub fn new(image: &'a Image, strict: bool) -> Self {
        let signal_at = starts(image.signals.iter().map(|signal| signal[2]));
        let expr_at = starts(image.expressions.iter().map(|expression| expression[1]));
        let bits = image.signal_bits();
        let mut walk = Walk {
            image,
            driver: vec![None; bits],
            known: vec![false; bits],
            marked: vec![false; bits],
            whole: vec![false; image.expressions.len()],
            lowered: vec![false; image.expression_bits()],
            signal_at,
            expr_at,
            path: Vec::new(),
            now: Levels::default(),
            deepest: Levels::default(),
            strict,
        };
        for &[signal, lsb, width, value] in &image.assignments {
            let first = walk.signal_at[signal as usize] + lsb as usize;
            walk.driver[first..first + width as usize].fill(Some(value));
        }
        walk.know_sources();
        walk
    }

    fn know_sources(&mut self) {
        let image = self.image;
        let inputs = (0..image.signals.len()).filter(|&signal| image.signals[signal][3] == 1);
        let mut sources: Vec<usize> = inputs.collect();
        sources.extend(image.registers.iter().map(|register| register[2] as usize));
        for memory in &image.memories {
            sources.push(memory[memory_field::FIRST_PORT + port_field::READ_DATA] as usize);
            if memory[memory_field::HAS_SECOND] == 1 {
                sources.push(memory[memory_field::SECOND_PORT + port_field::READ_DATA] as usize);
            }
        }
        for signal in sources {
            let first = self.signal_at[signal];
            self.known[first..first + image.signals[signal][2] as usize].fill(true);
        }
    }

    /// Lowers what memories, registers and outputs ask for: the levels where
    /// there were most, and a refusal if one was met.
    pub fn run(mut self) -> (Levels, Option<Refusal>) {
        let refused = self.roots().into_iter().find_map(|need| self.lower(need).err());
        (self.deepest, refused)
    }

    fn roots(&self) -> Vec<Need> {
        let mut roots = Vec::new();
        for memory in &self.image.memories {
            self.port(&mut roots, &memory[memory_field::FIRST_PORT..], false);
            if memory[memory_field::HAS_SECOND] == 1 {
                self.port(&mut roots, &memory[memory_field::SECOND_PORT..], true);
            }
        }
        for register in &self.image.registers {
            roots.push(Need::Whole(register[3]));
            roots.push(Need::Bit(register[4], 0));
            if register[6] != ABSENT {
                roots.push(Need::Bit(register[6], 0));
            }
            if register[8] != ABSENT {
                roots.push(Need::Whole(register[11]));
                roots.push(Need::Bit(register[8], 0));
            }
        }
        for (signal, record) in self.image.signals.iter().enumerate() {
            if record[3] == 2 {
                roots.extend((0..record[2]).map(|bit| Need::Bit(signal as u32, bit)));
            }
        }
        roots
    }

    fn port(&self, roots: &mut Vec<Need>, port: &[u32], second: bool) {
        roots.extend([port[0], port[4], port[5]].map(Need::Whole));
        let clock = Need::Bit(port[8], 0);
        if !second {
            roots.push(clock);
        }
        roots.push(Need::Bit(port[6], 0));
        if port[2] != ABSENT {
            roots.push(Need::Bit(port[2], 0));
        }
        if second {
            roots.push(clock);
        }
    }

    fn lower(&mut self, root: Need) -> Result<(), Refusal> {
        self.push(root);
        while let Some(&Live { need, taken }) = self.path.last() {
            if taken == 0 && self.is_known(need) {
                self.pop();
                continue;
            }
            if let (Need::Bit(signal, bit), 0) = (need, taken) {
                let at = self.bit_at(signal, bit);
                if self.driver[at].is_none() {
                    return Err([6, signal, bit]);
                }
                if self.marked[at] {
                    return Err([7, signal, bit]);
                }
                self.marked[at] = true;
                if self.strict {
                    self.look();
                }
            }
            match self.step(need, taken) {
                Some(step) => {
                    self.path.last_mut().expect("a live call").taken = step.next;
                    self.push(step.need);
                }
                None => {
                    self.keep(need);
                    self.pop();
                }
            }
        }
        Ok(())
    }

    fn push(&mut self, need: Need) {
        *self.count(need) += 1;
        self.path.push(Live { need, taken: 0 });
        if self.now.all() > self.deepest.all() {
            self.deepest = self.now;
        }
    }

    fn pop(&mut self) {
        let live = self.path.pop().expect("a live call");
        *self.count(live.need) -= 1;
    }

    /// The sort of a need that is not on the path.
    fn count(&mut self, need: Need) -> &mut usize {
        let driver = matches!(self.path.last(), Some(Live { need: Need::Bit(..), .. }));
        match need {
            Need::Bit(..) => &mut self.now.bits,
            Need::Whole(_) if driver => &mut self.now.drivers,
            Need::Whole(_) => &mut self.now.wholes,
            Need::Range(..) => &mut self.now.ranges,
        }
    }

    fn bit_at(&self, signal: u32, bit: u32) -> usize {
        self.signal_at[signal as usize] + bit as usize
    }

    fn width(&self, expression: u32) -> u32 {
        self.image.expressions[expression as usize][1]
    }

    fn is_known(&self, need: Need) -> bool {
        match need {
            Need::Bit(signal, bit) => self.known[self.bit_at(signal, bit)],
            Need::Whole(e) => self.whole[e as usize],
            Need::Range(e, lsb, width) => {
                let first = self.expr_at[e as usize] + lsb as usize;
                self.lowered[first..first + width as usize].iter().all(|&bit| bit)
            }
        }
    }

    fn keep(&mut self, need: Need) {
        match need {
            Need::Bit(signal, bit) => {
                let at = self.bit_at(signal, bit);
                self.known[at] = true;
            }
            Need::Whole(e) => {
                self.whole[e as usize] = true;
                self.keep(Need::Range(e, 0, self.width(e)));
            }
            Need::Range(e, lsb, width) => {
                let first = self.expr_at[e as usize] + lsb as usize;
                self.lowered[first..first + width as usize].fill(true);
            }
        }
    }

    /// The step after so many; none where all are taken.
    fn step(&self, need: Need, taken: u32) -> Option<Step> {
        match need {
            Need::Bit(signal, bit) => {
                let driver = self.driver[self.bit_at(signal, bit)].expect("a driven bit");
                one(taken, Need::Whole(driver), None)
            }
            Need::Whole(e) => self.whole_step(e, taken),
            Need::Range(e, lsb, width) => self.range_step(e, lsb, width, taken),
        }
    }

    fn whole_step(&self, e: u32, taken: u32) -> Option<Step> {
        let [sort, width, a, b, c] = self.image.expressions[e as usize];
        match sort {
            kind::SIGNAL => self.signal_step(a, b, width, taken),
            kind::CONSTANT => None,
            kind::UNARY => one(taken, Need::Whole(b), bitwise_unary(a).then_some(0)),
            kind::BINARY => match self.fused(a, b, c) {
                Some(operands) => several(taken, &operands.map(|operand| (Need::Whole(operand), None))),
                None => {
                    let at = (a <= 2).then_some(0);
                    several(taken, &[(Need::Whole(b), at), (Need::Whole(c), at)])
                }
            },
            kind::MUX => several(taken, &[(Need::Whole(a), None), (Need::Whole(b), Some(0)), (Need::Whole(c), Some(0))]),
            kind::CONCAT => {
                let (part, at) = self.part(a, b, taken)?;
                Some(Step { need: Need::Whole(part), next: taken + 1, at: Some(i64::from(at)) })
            }
            _ => one(taken, Need::Range(a, b, width), Some(-i64::from(b))),
        }
    }

    fn range_step(&self, e: u32, lsb: u32, width: u32, taken: u32) -> Option<Step> {
        let [sort, _, a, b, c] = self.image.expressions[e as usize];
        let range = |of: u32| (Need::Range(of, lsb, width), Some(0));
        match sort {
            kind::SIGNAL => self.signal_step(a, b + lsb, width, taken),
            kind::CONSTANT => None,
            kind::UNARY if bitwise_unary(a) => several(taken, &[range(b)]),
            kind::BINARY if a <= 2 => several(taken, &[range(b), range(c)]),
            kind::UNARY | kind::BINARY => one(taken, Need::Whole(e), None),
            kind::MUX => several(taken, &[(Need::Whole(a), None), range(b), range(c)]),
            kind::CONCAT => (taken..b).find_map(|number| {
                let (part, at) = self.part(a, b, number)?;
                let low = lsb.max(at);
                let high = (lsb + width).min(at + self.width(part));
                let need = Need::Range(part, low.wrapping_sub(at), high.wrapping_sub(low));
                (low < high).then_some(Step { need, next: number + 1, at: Some(i64::from(at)) })
            }),
            _ => one(taken, Need::Range(a, b + lsb, width), Some(-i64::from(b))),
        }
    }

    /// Of a signal's bits the first without a net.
    fn signal_step(&self, signal: u32, first: u32, width: u32, taken: u32) -> Option<Step> {
        let unknown = |&number: &u32| !self.known[self.bit_at(signal, first + number)];
        let number = (taken..width).find(unknown)?;
        Some(Step { need: Need::Bit(signal, first + number), next: number + 1, at: None })
    }

    /// A Concat's part by its number, the least significant first, and where
    /// it begins.
    fn part(&self, start: u32, count: u32, number: u32) -> Option<(u32, u32)> {
        let list = &self.image.list[start as usize..(start + count) as usize];
        let mut parts = list.iter().rev();
        let at = parts.by_ref().take(number as usize).map(|&part| self.width(part)).sum();
        parts.next().map(|&part| (part, at))
    }

    /// An Add's three operands, where an inner Add takes a carry.
    fn fused(&self, op: u32, lhs: u32, rhs: u32) -> Option<[u32; 3]> {
        let side = |inner: u32, other: u32| {
            let [sort, _, inner_op, a, b] = self.image.expressions[inner as usize];
            let carry = self.carry(other)?;
            (sort == kind::BINARY && inner_op == 3).then_some([a, b, carry])
        };
        if op != 3 {
            return None;
        }
        side(lhs, rhs).or_else(|| side(rhs, lhs))
    }

    fn carry(&self, e: u32) -> Option<u32> {
        let [sort, width, start, count, _] = self.image.expressions[e as usize];
        if width == 1 {
            return Some(e);
        }
        match sort {
            kind::CONSTANT => self.below(start, width, 2).then_some(e),
            kind::CONCAT => {
                let parts = &self.image.list[start as usize..(start + count) as usize];
                let (&last, above) = parts.split_last()?;
                let zero = above.iter().all(|&part| self.is_zero(part));
                (zero && self.width(last) == 1).then_some(last)
            }
            _ => None,
        }
    }

    fn is_zero(&self, e: u32) -> bool {
        let [sort, width, start, count, _] = self.image.expressions[e as usize];
        match sort {
            kind::CONSTANT => self.below(start, width, 1),
            kind::CONCAT => (start..start + count).all(|at| self.is_zero(self.image.list[at as usize])),
            _ => false,
        }
    }

    /// Whether a constant's bits are a number below `most`, 1 or 2.
    fn below(&self, start: u32, width: u32, most: u32) -> bool {
        (0..width).all(|bit| {
            let word = self.image.list[(start + bit / 32) as usize];
            word >> (bit % 32) & 1 == 0 || (bit == 0 && most == 2)
        })
    }

    // ---- what is said of the path ----

    /// The path ends in a bit that has just been marked: between two bits each
    /// expression stands once, or as a range and then whole; whole it stands
    /// once on the path; through a bit of it leads one stretch at most.
    fn look(&self) {
        let sections: Vec<&[Live]> = self.path.split_inclusive(|live| matches!(live.need, Need::Bit(..))).collect();
        let mut wholes = BTreeMap::new();
        let mut places = BTreeMap::new();
        let mut paired = 0;
        for (number, section) in sections.iter().enumerate() {
            let mut passed = BTreeSet::new();
            let mut place = None;
            for (index, live) in section.iter().enumerate().rev().skip(1) {
                let (e, lsb) = match live.need {
                    Need::Bit(..) => unreachable!("the last of a section"),
                    Need::Whole(e) => (e, 0),
                    Need::Range(e, lsb, _) => (e, lsb),
                };
                let below = section[index + 1].need;
                let [sort, width, a, b, _] = self.image.expressions[e as usize];
                place = match below {
                    Need::Bit(_, bit) if sort == kind::SIGNAL => Some(bit - b),
                    Need::Bit(..) => panic!("a bit below {:?}", live.need),
                    Need::Whole(_) | Need::Range(..) => match self.taking(*live).at {
                        Some(at) => place.map(|place| (i64::from(place) + at) as u32),
                        None => None,
                    },
                }
                .or(Some(lsb));
                let place = place.expect("a place");
                assert!(place < width, "{:?} at {place}", live.need);
                let pair = below == Need::Whole(e);
                assert!(pair || passed.insert(e), "twice in a section: {e}");
                if pair {
                    assert!(matches!(live.need, Need::Range(..)) && !self.is_bitwise(sort, a));
                    paired += 1;
                } else if let Some(other) = places.insert((e, place), number) {
                    panic!("bit {place} of expression {e} in sections {other} and {number}");
                }
                if let Need::Whole(e) = live.need {
                    assert_eq!(wholes.insert(e, number), None, "expression {e} is whole twice");
                }
            }
        }
        let (bits, expressions) = (sections.len(), self.image.expressions.len());
        assert!(2 * paired + bits - 1 <= expressions, "{paired} pairs and {bits} bits of {expressions} expressions");
    }

    fn is_bitwise(&self, sort: u32, op: u32) -> bool {
        !(sort == kind::UNARY && !bitwise_unary(op) || sort == kind::BINARY && op > 2)
    }

    /// The step that a live call is at.
    fn taking(&self, live: Live) -> Step {
        let step = self.step(live.need, live.taken - 1).expect("a step in progress");
        assert_eq!(step.next, live.taken);
        step
    }
}

fn bitwise_unary(op: u32) -> bool {
    op == 0
}

fn one(taken: u32, need: Need, at: Option<i64>) -> Option<Step> {
    several(taken, &[(need, at)])
}

fn several(taken: u32, needs: &[(Need, Option<i64>)]) -> Option<Step> {
    let &(need, at) = needs.get(taken as usize)?;
    Some(Step { need, next: taken + 1, at })
}

fn starts(widths: impl Iterator<Item = u32>) -> Vec<usize> {
    let mut sum = 0;
    let mut start = |width: u32| {
        sum += width as usize;
        sum - width as usize
    };
    widths.map(&mut start).collect()
}
