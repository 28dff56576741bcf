//! Stored runs of netlists for the gate: slices, and the answers of the reading of
//! refusal 11. How many slices there are, then of each the number of its words and
//! the words, 4 bytes each, low byte first; of each answer its three numbers in
//! decimal, a space between them, and byte 10.

use super::cases::{case, Origin};
use super::crowded::deep;
use super::places::{all_places, place, Hits};
use crate::Answer;
use image::Random;

/// Slices up to so many words, of each place of a refusal so many, of accepted ones
/// so many. Of the longest only widths: one that is too large and fits is long.
const CLASSES: [(usize, u64, u64); 4] = [(110, 12, 350), (200, 3, 10), (500, 1, 4), (6_000, 1, 2)];
const LONGEST: usize = 3;

/// Besides, so many long slices of nodes that differ in few digits.
const CROWDED: usize = 20;

/// So many cases are looked at.
const CASES: u64 = 150_000;

/// The slices that a seed gives, with their answers.
pub fn make(seed: u64) -> Vec<(Vec<u32>, Answer)> {
    let mut taken = [(); 4].map(|()| Hits::default());
    let answered = |slice: Vec<u32>| (slice.clone(), reference::netlist_answer(&slice));
    let mut entries: Vec<(Vec<u32>, Answer)> = deep().iter().map(|draft| answered(draft.words())).collect();
    let mut crowded = 0;
    for number in 0..CASES {
        let case = case(&mut Random::of_case(seed, number), number);
        let slice = case.slice;
        let class = CLASSES.iter().position(|(words, ..)| slice.len() <= *words);
        let Some(class) = class.filter(|_| !matches!(case.origin, Origin::Heavy | Origin::HeavyDamaged)) else { continue };
        let answer = reference::netlist_answer(&slice);
        let (_, refused, accepted) = CLASSES[class];
        let most = if answer[0] == 0 { accepted } else { refused };
        let place = place(&slice, answer);
        let is_crowded = class == LONGEST && case.origin == Origin::Crowded && crowded < CROWDED;
        crowded += usize::from(is_crowded);
        let is_wanted = class != LONGEST || answer[0] == 0 || place.ends_with("width");
        if is_crowded || is_wanted && taken[class].0.get(&place).copied().unwrap_or(0) < most {
            taken[class].count(&slice, answer);
            entries.push((slice, answer));
        }
    }
    entries
}

/// The slices as bytes.
pub fn stdin(entries: &[(Vec<u32>, Answer)]) -> Vec<u8> {
    let slices = entries.iter().flat_map(|(slice, _)| [slice.len() as u32].into_iter().chain(slice.iter().copied()));
    [entries.len() as u32].into_iter().chain(slices).flat_map(u32::to_le_bytes).collect()
}

/// The answers as text.
pub fn stdout(entries: &[(Vec<u32>, Answer)]) -> String {
    entries.iter().map(|(_, [number, first, second])| format!("{number} {first} {second}\n")).collect()
}

/// Slices in stored bytes.
///
/// # Errors
///
/// Says that they end too early or too late.
pub fn read(bytes: &[u8]) -> Result<Vec<Vec<u32>>, String> {
    let (words, rest) = bytes.as_chunks();
    let words: Vec<u32> = words.iter().map(|&word| u32::from_le_bytes(word)).collect();
    let (count, mut left) = words.split_first().ok_or("no count of slices")?;
    let mut slices = Vec::new();
    for number in 0..*count {
        let slice = left.split_first().and_then(|(length, words)| words.split_at_checked(*length as usize));
        let (slice, behind) = slice.ok_or_else(|| format!("ends inside slice {number}"))?;
        slices.push(slice.to_vec());
        left = behind;
    }
    match left.is_empty() && rest.is_empty() {
        true => Ok(slices),
        false => Err("goes on behind the last slice".to_string()),
    }
}

/// How many slices and bytes there are, by answer, and how often each place is
/// named; a place that is not named stands there with 0.
pub fn describe(slices: &[Vec<u32>]) -> String {
    let mut hits = Hits(all_places().into_iter().map(|place| (place, 0)).collect());
    slices.iter().for_each(|slice| hits.count(slice, reference::netlist_answer(slice)));
    let bytes = 4 + slices.iter().map(|slice| 4 + 4 * slice.len()).sum::<usize>();
    let longest = slices.iter().map(Vec::len).max().unwrap_or(0);
    format!("{} slices, {bytes} bytes, the longest of {longest} words\n{hits}", slices.len())
}

#[cfg(test)]
mod tests {
    use super::{describe, read, stdin, stdout};

    #[test]
    fn slices_survive_their_bytes() {
        let entries = vec![(vec![1, 0, 16, 0, 22], [11, 5, 0]), (vec![], [11, 0, 0]), (vec![u32::MAX], [11, 0, 0])];
        let bytes = stdin(&entries);
        assert_eq!(bytes.len(), 4 * (1 + 3 + 6));
        assert_eq!(bytes[..12], [3, 0, 0, 0, 5, 0, 0, 0, 1, 0, 0, 0]);
        assert_eq!(read(&bytes).unwrap(), entries.iter().map(|(slice, _)| slice.clone()).collect::<Vec<_>>());
        assert_eq!(stdout(&entries), "11 5 0\n11 0 0\n11 0 0\n");
        (0..bytes.len()).for_each(|length| assert!(read(&bytes[..length]).is_err(), "{length}"));
        (1..9).for_each(|more| assert!(read(&[&bytes[..], &vec![0; more]].concat()).is_err(), "{more}"));
        assert!(describe(&read(&bytes).unwrap()).contains("       1  header word 0\n"));
    }
}
