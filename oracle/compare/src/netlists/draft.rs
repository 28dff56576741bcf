//! A netlist image by its parts: nodes, records, room.

use image::netlist::{HEADER_WORDS, NODE_WORDS};
use image::netlist_parts::{netlist, NodeWords};

/// Nodes and records, right or wrong.
#[derive(Clone, Debug, Default, PartialEq, Eq)]
pub struct Draft {
    /// Room for so many nodes.
    pub n: usize,
    pub nodes: Vec<NodeWords>,
    pub records: Vec<Vec<u32>>,
}

impl Draft {
    /// The words up to the last list word used, with the counts of the records.
    pub fn words(&self) -> Vec<u32> {
        netlist(self.n, &self.nodes, &self.records)
    }

    /// A slice taken apart, as far as its records can be told apart; the rest of
    /// the list is the last record.
    pub fn of(slice: &[u32]) -> Option<Draft> {
        let &[_, nets, _, used, list_offset, ..] = slice else { return None };
        let (nets, list_offset) = (nets as usize, list_offset as usize);
        let n = list_offset.checked_sub(HEADER_WORDS).filter(|words| words.is_multiple_of(NODE_WORDS))? / NODE_WORDS;
        let list = slice.get(list_offset..list_offset + used as usize).filter(|_| nets <= n)?;
        let nodes = slice[HEADER_WORDS..].as_chunks().0[..nets].to_vec();
        let mut records: Vec<Vec<u32>> = starts(slice).windows(2).map(|pair| list[pair[0]..pair[1]].to_vec()).collect();
        let taken: usize = records.iter().map(Vec::len).sum();
        records.extend((taken < list.len()).then(|| list[taken..].to_vec()));
        Some(Draft { n, nodes, records })
    }
}

/// The list words where records begin, one after another, and the end of the last
/// that can be told.
pub fn starts(slice: &[u32]) -> Vec<usize> {
    let mut starts = vec![0];
    while let Some([_, _, next]) = reference::netlist_record(slice, starts[starts.len() - 1] as u32) {
        starts.push(next as usize);
    }
    starts
}

#[cfg(test)]
mod tests {
    use super::Draft;

    #[test]
    fn drafts_survive_their_words() {
        let draft = Draft {
            n: 3,
            nodes: vec![[0, 0, 0, u32::MAX, u32::MAX, u32::MAX], [8, 1, 0, 0, u32::MAX, u32::MAX]],
            records: vec![vec![0, 0, 1, 0], vec![0, 1, 1, 1]],
        };
        let words = draft.words();
        assert_eq!(words[..10], [1, 2, 16, 8, 34, 2, 0, 0, 0, 0]);
        assert_eq!(Draft::of(&words), Some(draft));
        assert_eq!(Draft::of(&words[..20]), None);
    }
}
