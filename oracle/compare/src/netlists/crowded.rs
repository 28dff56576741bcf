//! Nodes in no record whose kinds, owners and bits differ in few binary digits, so
//! that a search for an equal one passes many; two of them are often equal. All
//! these slices are refused.

use super::draft::Draft;
use image::netlist_parts::NodeWords;
use image::{Random, ABSENT};
use std::collections::BTreeSet;

/// Kinds of nodes that belong to a record, and the binary digits of the most that
/// their owner and their bit can be.
const KINDS: [(u32, u32, u32); 6] = [(0, 9, 10), (7, 8, 10), (8, 9, 10), (9, 4, 11), (10, 32, 10), (11, 32, 0)];

const MOST: usize = 300;

/// Different nodes, chosen so that in the tree of crates/stored_nodes the search for
/// the last one passes the 40 others: all have one root, and each agrees with it in
/// at least as many digits as there are nodes before. Their number decides the
/// roots, so it is fixed.
const DEEP: [[u32; 3]; 41] = [
    [10, 0, 9], [10, 0, 98], [10, 0, 132], [10, 1, 24], [10, 2, 272], [10, 2, 416], [10, 2, 704], [10, 2, 128],
    [10, 22, 512], [10, 7, 512], [10, 133, 0], [10, 103, 0], [10, 118, 0], [10, 148, 0], [10, 392, 0], [10, 880, 0],
    [10, 3_808, 0], [10, 1_856, 0], [10, 5_760, 0], [10, 16_128, 0], [10, 14_848, 0], [10, 104_448, 0],
    [10, 51_200, 0], [10, 356_352, 0], [10, 303_104, 0], [10, 409_600, 0], [10, 1_736_704, 0], [10, 3_276_800, 0],
    [10, 1_179_648, 0], [10, 231_997_440, 0], [10, 913_833_984, 0], [10, 2_279_604_224, 0], [10, 2_275_409_920, 0],
    [10, 2_277_507_072, 0], [10, 2_290_089_984, 0], [10, 2_298_478_592, 0], [10, 2_315_255_808, 0],
    [10, 2_348_810_240, 0], [10, 2_281_701_376, 0], [11, 3_489_660_928, 0], [8, 0, 0],
];

/// The deep nodes, as they are, and with the last one equal to each other.
pub fn deep() -> Vec<Draft> {
    let last = DEEP.len() - 1;
    let with_last = |from: usize| {
        let mut nodes = DEEP;
        nodes[last] = DEEP[from];
        laid_out(&nodes, 0)
    };
    (0..DEEP.len()).rev().map(with_last).collect()
}

pub fn crowded(random: &mut Random) -> Draft {
    if random.chance(5) {
        return deep().swap_remove(random.below(DEEP.len()));
    }
    let mut nodes = different(random);
    if random.flag() {
        let from = random.below(nodes.len());
        let again = nodes[from];
        nodes.insert(random.range(from as u32 + 1, nodes.len() as u32) as usize, again);
    }
    laid_out(&nodes, random.pick(&[0, 0, 1, 9]))
}

fn laid_out(nodes: &[[u32; 3]], room: usize) -> Draft {
    let nodes: Vec<NodeWords> = (0..).zip(nodes).map(|(net, &[kind, owner, bit])| node(net, kind, owner, bit)).collect();
    Draft { n: nodes.len() + room, nodes, records: Vec::new() }
}

/// An output needs a net below it.
fn node(net: u32, kind: u32, owner: u32, bit: u32) -> NodeWords {
    match (kind, net) {
        (8, 0) => [0, owner, bit, ABSENT, ABSENT, ABSENT],
        (8, _) => [8, owner, bit, net - 1, ABSENT, ABSENT],
        _ => [kind, owner, bit, ABSENT, ABSENT, ABSENT],
    }
}

/// Nodes of few kinds, each with one or two digits other than in an earlier one.
fn different(random: &mut Random) -> Vec<[u32; 3]> {
    let count = 1 + random.below(MOST);
    let only = random.flag().then(|| random.pick(&KINDS));
    let mut nodes: Vec<[u32; 3]> = Vec::new();
    let mut seen = BTreeSet::new();
    for _ in 0..count {
        let (kind, owners, bits) = only.unwrap_or_else(|| random.pick(&KINDS));
        let mut like = if nodes.is_empty() { [kind, random.next() as u32, random.next() as u32] } else { random.pick(&nodes) };
        for _ in 0..random.range(1, 2) {
            let at = random.below((owners + bits) as usize) as u32;
            match at < owners {
                true => like[1] ^= 1 << at,
                false => like[2] ^= 1 << (at - owners),
            }
        }
        let made = [kind, like[1] & digits(owners), like[2] & digits(bits)];
        if seen.insert(made) {
            nodes.push(made);
        }
    }
    nodes
}

/// The number that is all ones in so many digits.
fn digits(count: u32) -> u32 {
    1u32.checked_shl(count).unwrap_or(0).wrapping_sub(1)
}

#[cfg(test)]
mod tests {
    use super::{crowded, deep, DEEP};
    use image::Random;

    #[test]
    fn the_deep_nodes_differ_and_each_equal_one_is_found() {
        let answers: Vec<[u32; 3]> = deep().iter().map(|draft| reference::netlist_answer(&draft.words())).collect();
        assert_eq!(answers.len(), DEEP.len());
        assert_eq!(answers[0], [11, 16, 0]);
        assert!(answers[1..].iter().all(|answer| *answer == [11, 16 + 6 * 40 + 2, 0]));
    }

    #[test]
    fn half_of_them_have_equal_nodes_and_the_rest_nodes_without_a_record() {
        let answers: Vec<[u32; 3]> = (0..1_000).map(|number| reference::netlist_answer(&crowded(&mut Random::of_case(1, number)).words())).collect();
        assert!(answers.iter().all(|answer| answer[0] == 11));
        let equal = answers.iter().filter(|answer| (answer[1] - 16) % 6 == 2).count();
        let left = answers.iter().filter(|answer| answer[1] == 16).count();
        assert_eq!(equal + left, 1_000);
        assert!(equal > 400 && left > 400, "{equal}, {left}");
    }
}
