//! Ranges, narrowed adders and fusion answers of random expression tables, held
//! against struo's own functions, word by word.

use crate::call::{LentImage, LentWords, WordDifference};
use crate::parts::Parts;
use crate::plan::Plan;
use crate::shrunk::Shrunk;
use driver::{expressions, Fused, Ranged};
use image::{generate, kind, table, Image, Random, Size, ABSENT};
use std::fmt;

/// Words of a row, for an expression and for a pair.
pub const ROW: usize = 8;

/// What was compared.
#[derive(Clone, Copy, Debug, Default)]
pub struct Tally {
    pub tables: u64,
    pub expressions: u64,
    pub wide: u64,
    pub points: u64,
    pub narrowed: u64,
    pub by_rows: u64,
    pub pairs: u64,
    pub zeros: u64,
    pub carries: u64,
    pub fused: u64,
}

impl fmt::Display for Tally {
    fn fmt(&self, f: &mut fmt::Formatter) -> fmt::Result {
        let Tally { tables, expressions, wide, points, narrowed, by_rows, pairs, zeros, carries, fused } = self;
        write!(f, "{tables} tables, {expressions} expressions: {wide} above 64 bits, {points} of one value; ")?;
        write!(f, "{narrowed} adders narrowed, {by_rows} of them by the rows of Or and Xor; ")?;
        write!(f, "{pairs} pairs: {zeros} zeros, {carries} carries, {fused} fused")
    }
}

impl Tally {
    fn count(&mut self, ranged: &[Ranged], fused: &[Fused]) {
        let rows = |is: fn(&Ranged) -> bool| ranged.iter().filter(|row| is(row)).count() as u64;
        let pairs = |is: fn(&Fused) -> bool| fused.iter().filter(|pair| is(pair)).count() as u64;
        self.tables += 1;
        self.expressions += ranged.len() as u64;
        self.wide += rows(|row| row.range.is_none());
        self.points += rows(|row| row.range.is_some_and(|(min, max)| min == max));
        self.narrowed += rows(|row| row.adder_width.is_some());
        self.by_rows += rows(|row| row.by_rows);
        self.pairs += fused.len() as u64;
        self.zeros += pairs(|pair| pair.is_zero);
        self.carries += pairs(|pair| pair.carry.is_some());
        self.fused += pairs(|pair| pair.fusion.is_some());
    }
}

/// How an outcome differs.
#[derive(Clone, Debug)]
pub enum Difference {
    NotJudged(&'static str),
    Word(WordDifference),
}

impl fmt::Display for Difference {
    fn fmt(&self, f: &mut fmt::Formatter) -> fmt::Result {
        match self {
            Difference::NotJudged(function) => write!(f, "{function} does not judge the image"),
            Difference::Word(word) => write!(f, "{word}"),
        }
    }
}

/// A difference, and the table that it was met at.
pub struct Failure {
    pub number: u64,
    pub shrunk: Shrunk<Difference>,
}

impl fmt::Display for Failure {
    fn fmt(&self, f: &mut fmt::Formatter) -> fmt::Result {
        let Failure { number, shrunk } = self;
        writeln!(f, "DIFFERENCE at table {number}, {} bytes", shrunk.image.len())?;
        write!(f, "{shrunk}")?;
        match Image::decode(&shrunk.small) {
            Some(image) => write!(f, "\npairs {:?}", pairs(&image, *number)),
            None => Ok(()),
        }
    }
}

/// Compares every table of the plan, or stops at the first difference.
pub fn run(parts: &dyn Parts, plan: &Plan) -> Result<Tally, Box<Failure>> {
    let mut tally = Tally::default();
    for number in plan.first..plan.first + plan.count {
        let mut random = Random::of_case(plan.seed, number);
        let image = case(&mut random);
        assert!(is_fine(&image), "table {number} breaks a rule");
        if let Some(difference) = compare(parts, &image, number, &mut tally) {
            return Err(Box::new(failure(parts, number, image, difference)));
        }
    }
    Ok(tally)
}

/// Mostly tables; some whole modules, whose signals have drivers.
fn case(random: &mut Random) -> Vec<u8> {
    match random.below(100) {
        0..=5 => generate(random.next(), Size::Tiny).encode(),
        6..=7 => generate(random.next(), Size::Small).encode(),
        _ => table(random.next()).encode(),
    }
}

fn failure(parts: &dyn Parts, number: u64, image: Vec<u8>, difference: Difference) -> Failure {
    let again = |candidate: &[u8]| {
        is_fine(candidate).then(|| compare(parts, candidate, number, &mut Tally::default())).flatten()
    };
    Failure { number, shrunk: Shrunk::new(image, difference, again) }
}

fn is_fine(image: &[u8]) -> bool {
    reference::check(image, 1, 0, usize::MAX, usize::MAX) == reference::FINE
}

/// Every word of both functions; an image that passes the checks.
fn compare(parts: &dyn Parts, bytes: &[u8], number: u64, tally: &mut Tally) -> Option<Difference> {
    let image = Image::decode(bytes).expect("tables decode");
    let pairs = pairs(&image, number);
    let (ranged, fused) = expressions(bytes, &pairs).expect("struo builds the module");
    tally.count(&ranged, &fused);
    compare_ranges(parts, bytes, &image, &ranged, number).or_else(|| compare_fusion(parts, bytes, &pairs, &fused, number))
}

fn compare_ranges(parts: &dyn Parts, bytes: &[u8], image: &Image, ranged: &[Ranged], junk: u64) -> Option<Difference> {
    let lent = LentImage::new(bytes, junk);
    let mut table = LentWords::new("table", ROW * ranged.len(), junk);
    let mut expected = table.words().to_vec();
    fill_table(image, ranged, &mut expected);
    if !parts.adder_widths(lent.bytes(), table.words()) {
        return Some(Difference::NotJudged("adder_widths"));
    }
    table.first_difference(&expected).map(Difference::Word)
}

/// Writes the rows' words 2 to 6.
pub fn fill_table(image: &Image, ranged: &[Ranged], table: &mut [u32]) {
    for (row, (fields, ranged)) in table.chunks_mut(ROW).zip(image.expressions.iter().zip(ranged)) {
        let (min, max) = ranged.range.unwrap_or((0, 0));
        row[2..6].copy_from_slice(&[min as u32, (min >> 32) as u32, max as u32, (max >> 32) as u32]);
        row[6] = width_word(fields, ranged);
    }
}

/// The width that an Add is narrowed to, 0 if it is not. The port's rows have
/// this word for every kind, as if it were an Add.
fn width_word(fields: &[u32; 5], ranged: &Ranged) -> u32 {
    const ADD: u32 = 3;
    match (fields, ranged.range) {
        ([kind::BINARY, _, ADD, ..], _) => ranged.adder_width.unwrap_or(0) as u32,
        ([_, width, ..], Some((_, max))) => {
            let needed = (u64::BITS - max.leading_zeros()).max(1);
            if needed < *width { needed } else { 0 }
        }
        (_, None) => 0,
    }
}

fn compare_fusion(parts: &dyn Parts, image: &[u8], pairs: &[[u32; 2]], fused: &[Fused], junk: u64) -> Option<Difference> {
    let lent = LentImage::new(image, junk);
    let mut rows = LentWords::new("fusion", ROW * pairs.len(), junk);
    let expected: Vec<u32> = pairs.iter().zip(fused).flat_map(|(pair, fused)| fusion_row(*pair, fused)).collect();
    if !parts.fusion(lent.bytes(), pairs, rows.words()) {
        return Some(Difference::NotJudged("fusion"));
    }
    rows.first_difference(&expected).map(Difference::Word)
}

/// Zero, carry, the test's three numbers, what an Add lowers.
pub fn fusion_row([lhs, rhs]: [u32; 2], fused: &Fused) -> [u32; ROW] {
    let [a, b, c] = fused.fusion.unwrap_or([ABSENT; 3]);
    let [lhs, rhs, carry] = fused.fusion.unwrap_or([lhs, rhs, ABSENT]);
    [u32::from(fused.is_zero), fused.carry.unwrap_or(ABSENT), a, b, c, lhs, rhs, carry]
}

/// Of few expressions all pairs; of more the operands of each operator, and
/// each expression with some other.
fn pairs(image: &Image, number: u64) -> Vec<[u32; 2]> {
    const FEW: u32 = 8;
    let count = image.expressions.len() as u32;
    if count <= FEW {
        return (0..count).flat_map(|lhs| (0..count).map(move |rhs| [lhs, rhs])).collect();
    }
    let mut random = Random::new(number);
    let operands = image.expressions.iter().filter(|fields| fields[0] == kind::BINARY).map(|fields| [fields[3], fields[4]]);
    let mut pairs: Vec<[u32; 2]> = operands.collect();
    pairs.extend((0..count).map(|lhs| [lhs, random.below(count as usize) as u32]));
    pairs
}
