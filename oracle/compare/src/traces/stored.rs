//! Stored runs of the trace program: how many inputs there are, then of
//! each the number of its bytes (both 32 bits, low byte first) and the bytes; as
//! answers the oracle's text of each input, and a line `--` after it. They stand in
//! crates/trace_runs.

use super::cases::{by_hand, case, lowered, trace, Origin};
use super::limits::{at_the_limits, bytes};
use super::machine::{machine, Size};
use super::names::{with_names, BADLY_FORMED};
use super::run::{outcome, Tally};
use crate::netlists::cases::draft_of;
use image::Random;
use std::collections::BTreeMap;

/// Of other inputs so many: whole runs, those that are refused by each number, and
/// damaged header words.
const RUNS: usize = 24;
const OF_EACH_REFUSAL: usize = 5;
const HEADERS: usize = 200;
/// Inputs of as many bytes or more are not stored.
const MOST_BYTES: usize = 100_000;

/// The inputs that a seed gives.
pub fn make(seed: u64) -> Vec<Vec<u8>> {
    let random = &mut Random::new(seed);
    let limits = at_the_limits().into_iter().filter(|(name, input)| is_stored(name) && input.len() < MOST_BYTES);
    let mut inputs: Vec<Vec<u8>> = limits.map(|(_, input)| input).collect();
    inputs.extend((0..RUNS).map(|number| whole_run(random, number)));
    inputs.extend(refused(seed));
    inputs.extend((0..HEADERS).map(|_| damaged_header(random)));
    inputs
}

/// Of the many kinds of clocks and resets some are enough, and of the badly formed keeps
/// and backs a third.
fn is_stored(name: &str) -> bool {
    let badly_formed = BADLY_FORMED.map(|lines| lines.iter().position(|&line| line == name));
    if let [Some(place), _] | [_, Some(place)] = badly_formed {
        return place % 3 == usize::from(badly_formed[0].is_none());
    }
    let is_one_of_many = ["a memory's clock", "a synchronous reset", "an asynchronous reset"].iter().any(|many| name.starts_with(many));
    !is_one_of_many || [" an input", " a gate", " on an input"].iter().any(|end| name.ends_with(end))
}

/// A netlist that moves, and a long trace; in every second one backs that show.
fn whole_run(random: &mut Random, number: usize) -> Vec<u8> {
    loop {
        let draft = match number % 4 {
            0 => lowered(random),
            1 => machine(random, Size::Large),
            2 => machine(random, Size::Middle),
            _ => by_hand(random),
        };
        let words = draft.words();
        let mut lines = trace(random, &words);
        let has_names = number % 8 >= 4;
        if has_names {
            lines = with_names(random, lines);
        }
        let input = bytes(&words, &lines.concat());
        let mut tally = Tally::default();
        tally.count(&input, &driver::trace(&input));
        if tally.moving > 10 && (!has_names || tally.backs > 2 && tally.differing > 0) {
            return input;
        }
    }
}

/// Random inputs that are refused, as many by each number.
fn refused(seed: u64) -> Vec<Vec<u8>> {
    let mut taken: BTreeMap<String, usize> = BTreeMap::new();
    let first = at_the_limits().len() as u64;
    let cases = (first..).map(|number| case(&mut Random::of_case(seed, number), number));
    let mut inputs = Vec::new();
    for case in cases.take(3_000).filter(|case| !matches!(case.origin, Origin::Lowered | Origin::ByHand | Origin::Free)) {
        let outcome = outcome(&driver::trace(&case.input));
        let count = taken.entry(outcome.clone()).or_default();
        if outcome.starts_with("refused") && *count < OF_EACH_REFUSAL && case.input.len() < MOST_BYTES {
            *count += 1;
            inputs.push(case.input);
        }
    }
    inputs
}

/// Sixteen header words or fewer, some of them others than they should be.
fn damaged_header(random: &mut Random) -> Vec<u8> {
    let used = random.pick(&[0, 8, 2_048, 2_049, 65_535, 65_536]);
    let offset = 16 + 6 * random.pick(&[1_024, 1_024, 1_023, 1_025, 1, 65_535, 65_536]);
    let nets = random.pick(&[0, 3, 1_024, 1_025, 65_535, 65_536]);
    let mut words: Vec<u32> = vec![1, nets, 16, used, offset, 2, 0, 0, 0, 0, 0, 0, 0, 0, 0, 0];
    if random.flag() {
        let at = random.below(16);
        words[at] = random.pick(&[words[at].wrapping_add(1), words[at].wrapping_sub(1), 0, u32::MAX, 16 + 6 * 1_024 + 1]);
    }
    let length = if random.flag() { 64 } else { random.below(70) };
    let mut input = bytes(&words, b"0\n1\n0\n");
    input.truncate(length);
    input
}

/// The inputs as bytes.
pub fn stdin(inputs: &[Vec<u8>]) -> Vec<u8> {
    let mut bytes = (inputs.len() as u32).to_le_bytes().to_vec();
    for input in inputs {
        bytes.extend((input.len() as u32).to_le_bytes());
        bytes.extend(input);
    }
    bytes
}

/// What the oracle's trace program prints, a line `--` after each input.
pub fn stdout(inputs: &[Vec<u8>]) -> Vec<u8> {
    inputs.iter().flat_map(|input| [driver::trace(input), b"--\n".to_vec()].concat()).collect()
}

/// Inputs in stored bytes.
///
/// # Errors
///
/// Says that they end too early or too late.
pub fn read(bytes: &[u8]) -> Result<Vec<Vec<u8>>, String> {
    let (count, mut left) = bytes.split_first_chunk().ok_or("no count of inputs")?;
    let mut inputs = Vec::new();
    for number in 0..u32::from_le_bytes(*count) {
        let input = left.split_first_chunk().and_then(|(length, bytes)| bytes.split_at_checked(u32::from_le_bytes(*length) as usize));
        let (input, behind) = input.ok_or_else(|| format!("ends inside input {number}"))?;
        inputs.push(input.to_vec());
        left = behind;
    }
    match left.is_empty() {
        true => Ok(inputs),
        false => Err("goes on behind the last input".to_string()),
    }
}

/// How many inputs, bytes, lines, keeps and backs there are, and the inputs by outcome.
pub fn describe(inputs: &[Vec<u8>]) -> String {
    let mut tally = Tally::default();
    inputs.iter().for_each(|input| tally.count(input, &driver::trace(input)));
    let Tally { lines, keeps, backs, differing, outcomes, .. } = tally;
    let mut text = format!("{} inputs, {} bytes, {lines} lines printed\n", inputs.len(), stdin(inputs).len());
    text += &format!("{keeps} keeps, {backs} backs, {differing} inputs that print other bits without their backs\n");
    outcomes.iter().for_each(|(outcome, count)| text += &format!("{outcome}: {count}\n"));
    text
}

// ---- the controller ----

/// A trace for corpus/controller.txt: clk, rst, go, set, two bits of goal. It is
/// reset, counts on twice, waits, is set to 3, counts over to 0, is reset while it
/// would count, and set while its clock falls. That moment is kept; it counts on, waits
/// from there, and goes back to a name that is not kept.
const CONTROLLER: [&str; 29] = [
    "010000", "110000", "001000", "101000", "001000", "101000", "000000", "100000", "001111", "101111", "001000", "101000",
    "001000", "101000", "011000", "111000", "001110", "101110", "001101", "001101", "101000", "011111",
    "keep late", "001000", "101000", "back late", "000000", "100000", "back early",
];

/// The lowered controller, of which this is the module image, and its trace.
pub fn controller(image: &[u8]) -> Option<Vec<u8>> {
    let draft = crate::netlists::draft::Draft { n: super::machine::N, ..draft_of(image, 0, false)? };
    Some(bytes(&draft.words(), (CONTROLLER.join("\n") + "\n").as_bytes()))
}

#[cfg(test)]
mod tests {
    use super::{read, stdin};

    #[test]
    fn inputs_survive_their_bytes() {
        let inputs = vec![vec![1, 2, 3], vec![], vec![10]];
        let bytes = stdin(&inputs);
        assert_eq!(bytes, [3, 0, 0, 0, 3, 0, 0, 0, 1, 2, 3, 0, 0, 0, 0, 1, 0, 0, 0, 10]);
        assert_eq!(read(&bytes).unwrap(), inputs);
        (0..bytes.len()).for_each(|length| assert!(read(&bytes[..length]).is_err(), "{length}"));
        assert!(read(&[&bytes[..], &[0]].concat()).is_err());
    }
}
