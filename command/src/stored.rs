//! A stored netlist in words: what an accepted one has, and what is wrong with a
//! refused one, told from its words and the place of refusal 11 alone
//! (docs/RULES.md, stored netlist). Any words and any place are answered; a word
//! past the end reads as 0.

mod nodes;
mod records;

use image::ABSENT;
use image::netlist::{HEADER_WORDS, NODE_WORDS};
use records::Record;

/// The most nets, list words used and N.
const MOST: u32 = crate::MOST;

/// Sorts of records, as the header counts them from word 5 on.
const SORTS: [&str; 5] = ["port", "register bit", "memory", "arithmetic cell", "comparison cell"];
const FIRST_COUNT: usize = 5;

/// One line with the counts of an accepted netlist.
pub fn accepted(words: &[u32]) -> String {
    let stored = Stored { words };
    let counted = |count: u32, one: &str, many: &str| format!("{count} {}", if count == 1 { one } else { many });
    let records = (FIRST_COUNT..).zip(["ports", "register bits", "memories", "arithmetic cells", "comparison cells"]);
    let records = records.zip(SORTS).map(|((at, many), one)| counted(stored.word(at), one, many));
    let nets = counted(stored.nets(), "net", "nets");
    let used = counted(stored.used(), "list word", "list words");
    format!("accepted: {nets}, {used}; {}\n", records.collect::<Vec<_>>().join(", "))
}

/// What is wrong at a place.
pub fn why(words: &[u32], place: u32) -> String {
    let stored = Stored { words };
    let at = place as usize;
    let told = match at {
        _ if at >= words.len() => Some(stored.length()),
        _ if at < HEADER_WORDS => stored.header_word(at),
        _ if at < stored.list_at() => stored.node_word(at),
        _ => stored.list_word(at),
    };
    told.unwrap_or_else(|| format!("word {at} is {}, which breaks a rule of docs/RULES.md, stored netlist", stored.word(at)))
}

/// A node's kind with its article.
pub fn kind_in_words(kind: u32) -> String {
    nodes::kind(kind).map_or("no node".to_string(), nodes::Kind::a_name)
}

/// A netlist's words, which may be any.
#[derive(Clone, Copy)]
struct Stored<'a> {
    words: &'a [u32],
}

impl<'a> Stored<'a> {
    fn word(self, at: usize) -> u32 {
        self.words.get(at).copied().unwrap_or(0)
    }

    fn nets(self) -> u32 {
        self.word(1)
    }

    fn used(self) -> u32 {
        self.word(3)
    }

    fn list_at(self) -> usize {
        self.word(4) as usize
    }

    /// The list words used that are there.
    fn list(self) -> &'a [u32] {
        let list = self.words.get(self.list_at()..).unwrap_or(&[]);
        &list[..list.len().min(self.used() as usize)]
    }

    fn length(self) -> String {
        let (there, from, used) = (self.words.len(), self.list_at(), self.used());
        if there < HEADER_WORDS {
            return format!("there are {there} words, and the header alone has {HEADER_WORDS}");
        }
        let asked = from as u64 + u64::from(used);
        format!("there are {there} words, and the header asks for {asked}: the list begins at word {from}, and {used} of its words are used")
    }

    fn header_word(self, at: usize) -> Option<String> {
        let value = self.word(at);
        let (name, wrong) = match at {
            0 => ("edition", must_be(value, 1)),
            1 => ("nets", at_most(value, MOST)),
            2 => ("where the nodes begin", must_be(value, HEADER_WORDS as u32)),
            3 => ("list words used", at_most(value, MOST)),
            4 => ("where the list begins", self.wrong_list_offset()),
            FIRST_COUNT..10 => return self.wrong_count(at),
            _ => ("unused", must_be(value, 0)),
        };
        Some(format!("header word {at} ({name}) is {value}{}", wrong?))
    }

    fn wrong_list_offset(self) -> Option<String> {
        let beyond = self.list_at().checked_sub(HEADER_WORDS);
        let limit = beyond.filter(|words| words.is_multiple_of(NODE_WORDS)).map(|words| words / NODE_WORDS);
        match limit.filter(|limit| (1..=MOST as usize).contains(limit)) {
            None => Some(format!(", it must be 16 + 6N with N from 1 to {MOST}")),
            Some(limit) => (limit < self.nets() as usize).then(|| format!(", which makes N {limit}, and there are {} nets", self.nets())),
        }
    }

    /// Judged last: the records were found right.
    fn wrong_count(self, at: usize) -> Option<String> {
        let (sort, counted) = (at - FIRST_COUNT, self.word(at));
        let found = Record::all(self).filter(|record| record.sort() == sort as u32).count();
        let name = SORTS[sort];
        (found != counted as usize).then(|| format!("header word {at} counts {counted} records of sort {sort} ({name}), and the list has {found}"))
    }
}

fn must_be(value: u32, right: u32) -> Option<String> {
    (value != right).then(|| format!(", it must be {right}"))
}

fn at_most(value: u32, most: u32) -> Option<String> {
    if most == 0 { must_be(value, 0) } else { (value > most).then(|| format!(", at most {most}")) }
}
