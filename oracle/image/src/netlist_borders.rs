//! Netlist images at the borders of refusal 11: small right netlists, one for each
//! sort of record and one with all of them, and each of them with every word changed
//! to its neighbours and to the borders of the rules, cut at every length, a record
//! taken away, doubled or exchanged with the next, two nodes exchanged or made equal.

use crate::format::ABSENT;
use crate::netlist_parts::*;

/// Nodes and records of a right netlist.
type Base = (Vec<NodeWords>, Vec<Vec<u32>>);

/// Every netlist of the kind, as words.
pub fn netlist_borders() -> Vec<Vec<u32>> {
    let mut all = Vec::new();
    for (nodes, records) in bases() {
        let room = if nodes.len() > 8 { 1 } else { 0 };
        let words = netlist(nodes.len().max(1) + room, &nodes, &records);
        changed_words(&words, &mut all);
        (0..words.len()).for_each(|length| all.push(words[..length].to_vec()));
        all.push([&words[..], &[7, ABSENT]].concat());
        all.push(words);
        changed_records(&nodes, &records, &mut all);
        changed_nodes(&nodes, &records, &mut all);
    }
    all
}

/// Each word changed to each of some values.
fn changed_words(words: &[u32], all: &mut Vec<Vec<u32>>) {
    const BORDERS: [u32; 24] = [
        0, 1, 2, 3, 4, 5, 12, 15, 16, 17, 31, 32, 33, 255, 256, 511, 512, 1_023, 1_024, 1_025, 2_048, 65_536, 65_537, ABSENT,
    ];
    for at in 0..words.len() {
        let old = words[at];
        let near = [old.wrapping_add(1), old.wrapping_sub(1), words[1], words[1].wrapping_sub(1), old ^ 0x8000_0000, 0x5555_5556];
        let mut values: Vec<u32> = near.into_iter().chain(BORDERS).filter(|&value| value != old).collect();
        values.sort_unstable();
        values.dedup();
        for value in values {
            let mut changed = words.to_vec();
            changed[at] = value;
            all.push(changed);
        }
    }
}

/// Each record taken away, doubled, exchanged with the next, one word longer.
fn changed_records(nodes: &[NodeWords], records: &[Vec<u32>], all: &mut Vec<Vec<u32>>) {
    let mut push = |records: Vec<Vec<u32>>| all.push(netlist(nodes.len().max(1), nodes, &records));
    for at in 0..records.len() {
        let edit = |change: &dyn Fn(&mut Vec<Vec<u32>>)| {
            let mut records = records.to_vec();
            change(&mut records);
            records
        };
        push(edit(&|records| drop(records.remove(at))));
        push(edit(&|records| records.insert(at, records[at].clone())));
        push(edit(&|records| records.push(records[at].clone())));
        push(edit(&|records| records[at].push(0)));
        push(edit(&|records| records.rotate_left(at)));
        push(edit(&|records| {
            if at + 1 < records.len() {
                records.swap(at, at + 1);
            }
        }));
    }
}

/// Each two nodes exchanged, and one as the other is.
fn changed_nodes(nodes: &[NodeWords], records: &[Vec<u32>], all: &mut Vec<Vec<u32>>) {
    for one in 0..nodes.len() {
        for other in 0..nodes.len() {
            let mut changed = nodes.to_vec();
            if one < other {
                changed.swap(one, other);
            } else {
                changed[one] = changed[other];
            }
            if changed != nodes {
                all.push(netlist(changed.len(), &changed, records));
            }
        }
    }
}

fn bases() -> Vec<Base> {
    let cell = |operation: u32, carry: u32| vec![3, operation, 2, carry, 0, 0, 0, 0, 1, 2];
    let sum = |carry: u32| vec![constant(carry & 1), arithmetic_output(0, 0), arithmetic_output(0, 1)];
    vec![
        (vec![], vec![]),
        (vec![input(0, 0), input(0, 1)], vec![vec![0, 0, 2, 0, 1]]),
        (vec![input(0, 0), output(0, 0, 0)], vec![vec![0, 0, 1, 0], vec![0, 0, 1, 1]]),
        (vec![register_output(3, 1), register_output(3, 0)], vec![register(3, 0, 1).to_vec(), register(3, 1, 0).to_vec()]),
        (vec![memory_output(2, 0)], vec![memory(2, 5, 0).to_vec()]),
        (sum(ABSENT), vec![cell(1, ABSENT)]),
        (sum(0), vec![cell(2, 0)]),
        (vec![constant(0), comparison_output(1), comparison_output(0)], vec![vec![4, 3, 1, 0, 0, 2], vec![4, 0, 1, 0, 0, 1]]),
        every_kind(),
    ]
}

/// A netlist with every kind of node and every sort of record.
pub fn every_kind() -> Base {
    const A: u32 = ABSENT;
    let nodes = vec![
        input(0, 0),
        input(0, 1),
        constant(0),
        [2, A, A, 0, 1, A],
        [3, A, A, 3, 0, A],
        [4, A, A, 2, 2, A],
        not(5),
        [6, A, A, 0, 1, 6],
        register_output(0, 0),
        memory_output(0, 0),
        memory_output(0, 1),
        arithmetic_output(0, 0),
        arithmetic_output(0, 1),
        comparison_output(0),
        output(1, 0, 13),
    ];
    let ports = [&[1, 1, 1, 1, 0, 9, 1, 3, A, 0, 0, 1, 0, 1][..], &[2, 1, 1, 1, 0, 1, 10, 1, 3, 4, 1, 0, 1, 0, 0]];
    let records = vec![
        vec![0, 0, 2, 0, 1],
        vec![1, 0, 0, 8, 14, 0, 0, 1, 0, 2, 1, 1, 1],
        [&[2, 0, 2, 0, 1, 2][..], &ports.concat()].concat(),
        vec![3, 0, 2, 6, 0, 1, 2, 3, 11, 12],
        vec![4, 3, 1, 4, 5, 13],
        vec![0, 1, 1, 14],
    ];
    (nodes, records)
}
