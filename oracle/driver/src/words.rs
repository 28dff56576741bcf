//! The netlist image as the words of the caller's buffer.

use image::netlist::{EDITION, HEADER_WORDS, NODE_WORDS};

use crate::Answer;

const SORTS: usize = 5;

/// The `16 + 6n + p` required words of the netlist buffer: the image after
/// acceptance, zeros after a refusal by 6 to 10.
///
/// # Panics
///
/// Panics on a crash, and when the netlist does not fit the limits.
#[must_use]
pub fn words(answer: &Answer, n: u32, p: u32) -> Vec<u32> {
    let (n, p) = (n as usize, p as usize);
    let mut words = vec![0; HEADER_WORDS + NODE_WORDS * n + p];
    match answer {
        Answer::Netlist { nodes, records } => write_image(&mut words, n, p, nodes, records),
        Answer::Refused(_) => {}
        Answer::Crash(text) => panic!("a crash leaves no words: {text}"),
    }
    words
}

fn write_image(words: &mut [u32], n: usize, p: usize, nodes: &[[u32; 6]], records: &[Vec<u32>]) {
    let list = records.concat();
    assert!(nodes.len() <= n, "{} nets pass the limit {n}", nodes.len());
    assert!(
        list.len() <= p,
        "{} list words pass the limit {p}",
        list.len()
    );
    let list_offset = HEADER_WORDS + NODE_WORDS * n;
    words[0] = EDITION;
    words[1] = number(nodes.len());
    words[2] = number(HEADER_WORDS);
    words[3] = number(list.len());
    words[4] = number(list_offset);
    words[5..5 + SORTS].copy_from_slice(&record_counts(records));
    for (place, node) in words[HEADER_WORDS..].chunks_mut(NODE_WORDS).zip(nodes) {
        place.copy_from_slice(node);
    }
    words[list_offset..list_offset + list.len()].copy_from_slice(&list);
}

fn record_counts(records: &[Vec<u32>]) -> [u32; SORTS] {
    let mut counts = [0; SORTS];
    for record in records {
        counts[record[0] as usize] += 1;
    }
    counts
}

fn number(value: usize) -> u32 {
    u32::try_from(value).expect("netlist images fit 32 bits")
}
