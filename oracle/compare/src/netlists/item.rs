//! What a node of a netlist made by hand is before it has a net, and its words.

use image::netlist_parts::NodeWords;
use image::{Random, ABSENT};

/// What a node is before it has a net.
#[derive(Clone, Copy)]
pub enum Item {
    Constant,
    Gate,
    /// Kind, owner (of a cell: its number here, not yet that of its record), bit.
    Owned(u32, u32, u32),
}

/// The node of an item; `lower` draws each net that it reads, below its own.
pub fn node(random: &mut Random, net: u32, item: Item, lower: fn(&mut Random, u32) -> u32) -> NodeWords {
    let mut node = [ABSENT; 6];
    match item {
        Item::Constant => node[..2].copy_from_slice(&[1, random.range(0, 1)]),
        Item::Gate => {
            let (kind, inputs) = random.pick(&[(2, 2), (3, 2), (4, 2), (5, 1), (6, 3)]);
            node[0] = kind;
            node[3..3 + inputs].fill_with(|| lower(random, net));
        }
        Item::Owned(kind, owner, bit) => {
            node[..3].copy_from_slice(&[kind, owner, bit]);
            if kind == 8 {
                node[3] = lower(random, net);
            }
        }
    }
    node
}
