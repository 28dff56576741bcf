//! What each word of a netlist is for, by name: the words of records as a table,
//! and a name for the place of a refusal, so that a run can tell how often each
//! sort of wrong word was met.

use super::draft::starts;
use crate::Answer;
use image::netlist::{HEADER_WORDS, NODE_WORDS};
use image::{KINDS, SORTS};
use std::collections::BTreeMap;
use std::fmt;

/// What a word of a record must be.
#[derive(Clone, Copy, Debug, PartialEq, Eq)]
pub enum Role {
    Sort,
    /// From one number to another.
    Range(u32, u32),
    /// A width as that of the first port's read data, at this word.
    DataWidth(usize),
    Net,
    /// A net that a cell takes.
    Operand,
    /// A net or absent.
    Control,
    /// A net that a cell takes, or absent.
    Carry,
    /// 0 or 1, and 0 where the control at this word is absent.
    With(usize),
    /// The net of this bit of the record's owner.
    Own(u32),
}

/// A word's name and role.
pub type Field = (&'static str, Role);

const FLAG: Role = Role::Range(0, 1);
const WIDTH: Role = Role::Range(1, 1_024);
const ADDRESS_WIDTH: Role = Role::Range(1, 32);

/// The words of a record by its own sort, widths and port count, as many as it has
/// by them; `None` where that is more than there are here.
pub fn layout(words: &[u32]) -> Option<Vec<Field>> {
    let sort = *words.first()?;
    let mut fields: Vec<Field> = vec![("sort", Role::Sort)];
    let most = words.len();
    let repeat = |fields: &mut Vec<Field>, count: u64, name, role: &dyn Fn(u32) -> Role| {
        let fits = fields.len() as u64 + count <= most as u64;
        fits.then(|| fields.extend((0..count as u32).map(|bit| (name, role(bit)))))
    };
    let width = u64::from(words.get(2).copied().unwrap_or(0));
    match sort {
        0 => {
            fields.extend([("signal", Role::Range(0, 511)), ("width", WIDTH)]);
            repeat(&mut fields, width, "net", &Role::Own)?;
        }
        1 => {
            fields.extend([("index", Role::Range(0, 255)), ("bit", Role::Range(0, 1_023)), ("output", Role::Own(words.get(2).copied()?))]);
            fields.extend([("data", Role::Net), ("clock", Role::Net), ("edge", FLAG), ("enable", Role::Control)]);
            fields.extend([("enable level", Role::With(7)), ("reset", Role::Control), ("reset level", Role::With(9))]);
            fields.extend([("asynchronous", Role::With(9)), ("value", Role::With(9))]);
        }
        2 => {
            fields.extend([("index", Role::Range(0, 15)), ("depth", Role::Range(1, 65_536)), ("style", Role::Range(0, 2))]);
            fields.extend([("latency", Role::Range(1, 1)), ("port count", Role::Range(1, 2))]);
            for port in 0..*words.get(5)? {
                let &[read_address, read_data, write_address, write_data] = words.get(fields.len()..)?.first_chunk()?;
                let first = if port == 0 { WIDTH } else { Role::DataWidth(7) };
                fields.extend([("read address width", ADDRESS_WIDTH), ("read data width", first)]);
                fields.extend([("write address width", ADDRESS_WIDTH), ("write data width", Role::DataWidth(7))]);
                let measure = words[7];
                repeat(&mut fields, u64::from(read_address), "read address", &|_| Role::Net)?;
                repeat(&mut fields, u64::from(read_data), "read data", &|bit| Role::Own(port.wrapping_mul(measure).wrapping_add(bit)))?;
                repeat(&mut fields, u64::from(write_address), "write address", &|_| Role::Net)?;
                repeat(&mut fields, u64::from(write_data), "write data", &|_| Role::Net)?;
                let enable = fields.len();
                fields.extend([("read enable", Role::Control), ("read enable level", Role::With(enable)), ("write enable", Role::Net)]);
                fields.extend([("write enable level", FLAG), ("clock", Role::Net), ("edge", FLAG)]);
            }
        }
        3 => {
            fields.extend([("operation", Role::Range(0, 2)), ("width", WIDTH), ("carry", Role::Carry)]);
            repeat(&mut fields, width, "left", &|_| Role::Operand)?;
            repeat(&mut fields, width, "right", &|_| Role::Operand)?;
            repeat(&mut fields, width, "output", &Role::Own)?;
        }
        4 => {
            fields.extend([("operation", Role::Range(0, 3)), ("width", WIDTH)]);
            repeat(&mut fields, width, "left", &|_| Role::Operand)?;
            repeat(&mut fields, width, "right", &|_| Role::Operand)?;
            fields.push(("output", Role::Own(0)));
        }
        _ => return None,
    }
    (fields.len() <= most).then_some(fields)
}

/// A name for an answer's place in its slice.
pub fn place(slice: &[u32], answer: Answer) -> String {
    let [number, word, _] = answer;
    if number == 0 {
        return "accepted".to_string();
    }
    let word = word as usize;
    if word >= slice.len() {
        return length_place(slice);
    }
    match word {
        5..=9 => format!("count of {} records", SORTS[word - 5]),
        0..HEADER_WORDS => format!("header word {word}"),
        _ if word < slice[4] as usize => node_place(slice, word - HEADER_WORDS),
        _ => list_place(slice, word - slice[4] as usize),
    }
}

fn length_place(slice: &[u32]) -> String {
    let part = match slice.len() {
        0..5 => "words 0 to 4",
        5..HEADER_WORDS => "the header",
        length if length < slice[4] as usize => "the nodes",
        _ => "the list",
    };
    format!("length: ends in {part}")
}

fn node_place(slice: &[u32], word: usize) -> String {
    let (net, word) = (word / NODE_WORDS, word % NODE_WORDS);
    let nodes: &[[u32; NODE_WORDS]] = slice[HEADER_WORDS..].as_chunks().0;
    let node = &nodes[net];
    if net >= slice[1] as usize {
        return "unused node word".to_string();
    }
    let Some(kind) = KINDS.get(node[0] as usize) else {
        return "node: kind unknown".to_string();
    };
    match word {
        0 => format!("left: {kind}"),
        1 => format!("{kind}: owner"),
        2 if nodes[..net].iter().any(|other| other[..3] == node[..3]) => format!("{kind}: equal to an earlier node"),
        2 => format!("{kind}: bit"),
        _ => format!("{kind}: input {}", word - 3),
    }
}

fn list_place(slice: &[u32], word: usize) -> String {
    let start = starts(slice).into_iter().rev().find(|&start| start <= word).expect("0 is a start");
    let list = slice[4] as usize;
    let record = &slice[list + start..list + slice[3] as usize];
    let Some(sort) = SORTS.get(record[0] as usize) else {
        return "record: sort unknown".to_string();
    };
    let Some(fields) = layout(record).filter(|_| word > start) else {
        return format!("{sort} record: does not fit");
    };
    let (name, role) = fields[word - start];
    let value = record[word - start];
    match role {
        Role::Own(_) if value >= slice[1] => format!("{sort} record: {name}, no net"),
        Role::Own(_) => format!("{sort} record: {name}, {}", another(slice, record, value)),
        _ => format!("{sort} record: {name}"),
    }
}

/// In what a net that a record lists wrongly differs from what it should be.
fn another(slice: &[u32], record: &[u32], net: u32) -> &'static str {
    let kind = slice[HEADER_WORDS + NODE_WORDS * net as usize];
    match (record[0], kind) {
        (0, 0 | 8) | (1, 7) | (2, 9) | (3, 10) | (4, 11) => "node of its kind",
        _ => "another kind",
    }
}

/// How often each place was met.
#[derive(Clone, Debug, Default)]
pub struct Hits(pub BTreeMap<String, u64>);

impl Hits {
    pub fn count(&mut self, slice: &[u32], answer: Answer) {
        *self.0.entry(place(slice, answer)).or_default() += 1;
    }
}

impl fmt::Display for Hits {
    fn fmt(&self, f: &mut fmt::Formatter) -> fmt::Result {
        self.0.iter().try_for_each(|(place, count)| writeln!(f, "{count:>8}  {place}"))
    }
}

/// Every place that a refusal can have, by name.
pub fn all_places() -> Vec<String> {
    let mut places: Vec<String> = [0, 1, 2, 3, 4, 10, 11, 12, 13, 14, 15].map(|word| format!("header word {word}")).to_vec();
    places.extend(["words 0 to 4", "the header", "the nodes", "the list"].map(|part| format!("length: ends in {part}")));
    places.extend(SORTS.map(|sort| format!("count of {sort} records")));
    places.extend(["unused node word", "node: kind unknown", "record: sort unknown"].map(str::to_string));
    places.extend(SORTS.map(|sort| format!("{sort} record: does not fit")));
    for (number, kind) in KINDS.iter().enumerate() {
        // A cell's number has no range.
        if number < 10 {
            places.push(format!("{kind}: owner"));
        }
        places.extend((0..3).map(|input| format!("{kind}: input {input}")));
        places.push(format!("{kind}: bit"));
        if matches!(number, 0 | 7..) {
            places.push(format!("{kind}: equal to an earlier node"));
            places.push(format!("left: {kind}"));
        }
    }
    for record in RECORDS {
        let fields = layout(record).expect("a whole record");
        for (name, role) in fields {
            let place = format!("{} record: {name}", SORTS[record[0] as usize]);
            match role {
                Role::Sort => {}
                Role::Own(_) => places.extend(["no net", "node of its kind", "another kind"].map(|how| format!("{place}, {how}"))),
                _ => places.push(place),
            }
        }
    }
    places.sort();
    places.dedup();
    places
}

/// A record of each sort, by its words that tell its length.
const RECORDS: [&[u32]; 5] = [
    &[0, 0, 1, 0],
    &[1, 0, 0, 0, 0, 0, 0, 0, 0, 0, 0, 0, 0],
    &[2, 0, 1, 0, 1, 1, 1, 1, 1, 1, 0, 0, 0, 0, 0, 0, 0, 0, 0, 0],
    &[3, 0, 1, 0, 0, 0, 0],
    &[4, 0, 1, 0, 0, 0],
];
