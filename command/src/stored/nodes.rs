//! What is wrong with a word of a node.

use super::{ABSENT, HEADER_WORDS, NODE_WORDS, Stored, at_most};

/// What a node of a kind has.
pub struct Kind {
    pub name: &'static str,
    /// What its owner word is, and the most it may be; cells have no most.
    owner: Option<(&'static str, u32)>,
    most_bit: Option<u32>,
    inputs: usize,
}

const fn source(name: &'static str, owner: &'static str, most: u32, most_bit: u32) -> Kind {
    Kind { name, owner: Some((owner, most)), most_bit: Some(most_bit), inputs: 0 }
}

const fn gate(name: &'static str, inputs: usize) -> Kind {
    Kind { name, owner: None, most_bit: None, inputs }
}

const KINDS: [Kind; 12] = [
    source("Input", "signal", 511, 1_023),
    Kind { owner: Some(("value", 1)), ..gate("Constant", 0) },
    gate("And", 2),
    gate("Or", 2),
    gate("Xor", 2),
    gate("Not", 1),
    gate("Mux", 3),
    source("RegisterOutput", "register", 255, 1_023),
    Kind { inputs: 1, ..source("Output", "signal", 511, 1_023) },
    source("MemoryOutput", "memory", 15, 2_047),
    source("ArithmeticOutput", "cell", u32::MAX, 1_023),
    source("ComparisonOutput", "cell", u32::MAX, 0),
];

pub const INPUT: u32 = 0;
pub const REGISTER_OUTPUT: u32 = 7;
pub const OUTPUT: u32 = 8;
pub const MEMORY_OUTPUT: u32 = 9;
pub const ARITHMETIC_OUTPUT: u32 = 10;
pub const COMPARISON_OUTPUT: u32 = 11;

pub fn kind(number: u32) -> Option<&'static Kind> {
    KINDS.get(number as usize)
}

impl Kind {
    /// Its name with its article.
    pub fn a_name(&self) -> String {
        let article = if self.name.starts_with(['A', 'I', 'O', 'X']) { "an" } else { "a" };
        format!("{article} {}", self.name)
    }

    pub fn owner_name(&self) -> Option<&'static str> {
        self.owner.map(|(what, _)| what)
    }

    /// It with its owner and bit, where it has them.
    fn owned(&self, owner: u32, bit: u32) -> String {
        let owner = self.owner_name().map_or(String::new(), |what| format!(", {what} {owner}"));
        let bit = self.most_bit.map_or(String::new(), |_| format!(", bit {bit}"));
        format!("{}{owner}{bit}", self.name)
    }
}

impl Stored<'_> {
    /// A node's words.
    pub fn node(self, net: usize) -> [u32; NODE_WORDS] {
        let from = HEADER_WORDS.saturating_add(net.saturating_mul(NODE_WORDS));
        std::array::from_fn(|field| self.word(from.saturating_add(field)))
    }

    pub fn node_word(self, at: usize) -> Option<String> {
        let (net, field) = ((at - HEADER_WORDS) / NODE_WORDS, (at - HEADER_WORDS) % NODE_WORDS);
        let node = self.node(net);
        if net >= self.nets() as usize {
            let (value, nets) = (node[field], self.nets());
            return (value != 0).then(|| format!("word {at} is {value}: there are {nets} nets, so node {net} is unused and its words must be 0"));
        }
        let Some(kind) = kind(node[0]) else {
            return Some(format!("node {net}: its kind is {}, at most {}", node[0], KINDS.len() - 1));
        };
        match field {
            0 => kind.has_record().then(|| format!("node {net} ({}) stands in no record", kind.owned(node[1], node[2]))),
            1 => Some(format!("node {net} ({}): {}", kind.name, kind.wrong_owner(node[1])?)),
            2 => Some(format!("node {net} ({}): {}", kind.name, self.wrong_bit(net, kind)?)),
            _ => Some(format!("node {net} ({}): {}", kind.name, kind.wrong_input(net, field - 3, node[field])?)),
        }
    }

    fn wrong_bit(self, net: usize, kind: &Kind) -> Option<String> {
        let [number, owner, bit, ..] = self.node(net);
        let Some(most) = kind.most_bit else {
            return kind.not_absent("bit", bit);
        };
        if let Some(above) = at_most(bit, most) {
            return Some(format!("its bit is {bit}{above}"));
        }
        let same = (0..net).find(|&earlier| self.node(earlier)[..3] == [number, owner, bit])?;
        Some(format!("its bit is {bit}: node {same} has the same kind, owner and bit ({})", kind.owned(owner, bit)))
    }
}

impl Kind {
    /// Neither gate nor constant.
    fn has_record(&self) -> bool {
        self.most_bit.is_some()
    }

    fn wrong_owner(&self, owner: u32) -> Option<String> {
        match self.owner {
            Some((what, most)) => Some(format!("its {what} is {owner}{}", at_most(owner, most)?)),
            None => self.not_absent("owner", owner),
        }
    }

    fn wrong_input(&self, net: usize, input: usize, value: u32) -> Option<String> {
        let name = format!("{} input", ["first", "second", "third"].get(input)?);
        if input >= self.inputs {
            return self.not_absent(&name, value);
        }
        (value as usize >= net).then(|| format!("its {name} is net {value}, which is not below it"))
    }

    /// A word that this kind does not have.
    fn not_absent(&self, word: &str, value: u32) -> Option<String> {
        let it = self.a_name();
        (value != ABSENT).then(|| format!("its {word} is {value}, and {it} has no {word}: the word must be {ABSENT} (absent)"))
    }
}
