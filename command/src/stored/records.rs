//! What is wrong with a word of a list record.

use super::nodes::{ARITHMETIC_OUTPUT, COMPARISON_OUTPUT, INPUT, MEMORY_OUTPUT, OUTPUT, REGISTER_OUTPUT, kind};
use super::{ABSENT, SORTS, Stored, at_most};
use std::iter::successors;

const PORT: u32 = 0;
const REGISTER: u32 = 1;
const MEMORY: u32 = 2;
const ARITHMETIC: u32 = 3;
const COMPARISON: u32 = 4;

const MOST_WIDTH: u32 = 1_024;
const MOST_ADDRESS: u32 = 32;

/// A record of the list, also one that does not fit.
#[derive(Clone, Copy)]
pub struct Record<'a> {
    /// Its number in the list.
    number: usize,
    /// The list word at which it begins.
    start: usize,
    /// Arithmetic and comparison records before it.
    cells: [u32; 2],
    /// The list words used from its first one on.
    words: &'a [u32],
}

/// A word of a record, and how it is judged.
struct Field {
    name: String,
    rule: Rule,
}

enum Rule {
    /// At least and at most.
    Within(u32, u32),
    /// Below the net count.
    Net,
    /// Below the net count, or ABSENT.
    NetOrAbsent,
    /// 0 or 1 beside a control; 0 where it is absent.
    Beside { control: &'static str, is_absent: bool },
    /// The width of the first port's read data.
    DataWidth(u32),
    /// A net whose node the record has as its own: of one of these kinds, with
    /// this owner and bit.
    Own { kinds: &'static [u32], owner: u32, bit: u64 },
}

impl Stored<'_> {
    pub fn list_word(self, at: usize) -> Option<String> {
        let word = at.checked_sub(self.list_at())?;
        let record = Record::all(self).take_while(|record| record.start <= word).last()?;
        let index = word - record.start;
        if index == 0 {
            return record.wrong_begin();
        }
        let field = self.field(&record, index)?;
        let value = record.word(index);
        let shown = match field.rule {
            Rule::Net | Rule::NetOrAbsent | Rule::Own { .. } if value == ABSENT => "absent".to_string(),
            Rule::Net | Rule::NetOrAbsent | Rule::Own { .. } => format!("net {value}"),
            _ => value.to_string(),
        };
        let wrong = self.broken(&record, &field.rule, value)?;
        Some(format!("{}: {} is {shown}{wrong}", record.title(), field.name))
    }

    /// How a word breaks its rule.
    fn broken(self, record: &Record, rule: &Rule, value: u32) -> Option<String> {
        let nets = self.nets();
        let no_net = || (value >= nets).then(|| format!(", and there are {nets} nets"));
        match *rule {
            Rule::Within(0, most) => at_most(value, most),
            Rule::Within(least, most) if least == most => (value != most).then(|| format!(", it must be {most}")),
            Rule::Within(least, most) => (!(least..=most).contains(&value)).then(|| format!(", it must be {least} to {most}")),
            Rule::Net if value == ABSENT => Some(", it must be a net".to_string()),
            Rule::NetOrAbsent if value == ABSENT => None,
            Rule::Net | Rule::NetOrAbsent => no_net(),
            Rule::Beside { control, is_absent: true } => (value != 0).then(|| format!(", it must be 0, since the {control} is absent")),
            Rule::Beside { .. } => at_most(value, 1),
            Rule::DataWidth(width) => (value != width).then(|| format!(", and port 0's read data are {width} wide")),
            Rule::Own { .. } if value >= nets => no_net(),
            Rule::Own { kinds, owner, bit } => {
                let other = self.of_other_kind(value, kinds).or_else(|| self.of_other_owner(value, owner, bit));
                other.or_else(|| self.listed_before(record, value)).or_else(|| record.not_below(value))
            }
        }
    }

    fn of_other_kind(self, net: u32, kinds: &[u32]) -> Option<String> {
        let [number, ..] = self.node(net as usize);
        let found = kind(number)?.a_name();
        let wanted: Vec<&str> = kinds.iter().filter_map(|&number| Some(kind(number)?.name)).collect();
        (!kinds.contains(&number)).then(|| format!(", which is {found} and no {}", wanted.join(" or ")))
    }

    fn of_other_owner(self, net: u32, owner: u32, bit: u64) -> Option<String> {
        let [number, its_owner, its_bit, ..] = self.node(net as usize);
        let what = kind(number)?.owner_name()?;
        let is_other = its_owner != owner || u64::from(its_bit) != bit;
        is_other.then(|| format!(", which has {what} {its_owner}, bit {its_bit}, and must have {what} {owner}, bit {bit}"))
    }

    fn listed_before(self, record: &Record, net: u32) -> Option<String> {
        let mut before = Record::all(self).take_while(|earlier| earlier.start < record.start);
        let first = before.find(|earlier| self.has_as_own(earlier, net))?;
        Some(format!(", which is listed a second time (first in {})", first.title()))
    }

    /// Whether a record lists a net as its own.
    fn has_as_own(self, record: &Record, net: u32) -> bool {
        let is_own = |index: usize| matches!(self.field(record, index), Some(Field { rule: Rule::Own { .. }, .. }));
        (1..record.fitting().unwrap_or(0)).any(|index| record.word(index) == net && is_own(index))
    }

    /// A word of a record, its first aside.
    fn field(self, record: &Record, index: usize) -> Option<Field> {
        match record.sort() {
            PORT => Some(self.port_field(record, index)),
            REGISTER => record.register_field(index),
            MEMORY => record.memory_field(index),
            ARITHMETIC => record.arithmetic_field(index),
            COMPARISON => record.comparison_field(index),
            _ => None,
        }
    }

    /// A port's nodes are of the first one's kind.
    fn port_field(self, record: &Record, index: usize) -> Field {
        let first = self.node(record.word(3) as usize)[0];
        let kinds: &[u32] = match (index, first) {
            (4.., INPUT) => &[INPUT],
            (4.., OUTPUT) => &[OUTPUT],
            _ => &[INPUT, OUTPUT],
        };
        match index {
            1 => field("its signal", Rule::Within(0, 511)),
            2 => field("its width", Rule::Within(1, MOST_WIDTH)),
            _ => {
                let bit = index as u64 - 3;
                field(format!("bit {bit}"), Rule::Own { kinds, owner: record.word(1), bit })
            }
        }
    }
}

fn field(name: impl Into<String>, rule: Rule) -> Field {
    Field { name: name.into(), rule }
}

impl<'a> Record<'a> {
    /// The records in turn, up to the first that does not fit.
    pub fn all(stored: Stored<'a>) -> impl Iterator<Item = Record<'a>> {
        let first = Record { number: 0, start: 0, cells: [0, 0], words: stored.list() };
        successors((!first.words.is_empty()).then_some(first), Record::next)
    }

    fn next(&self) -> Option<Record<'a>> {
        let length = self.fitting()?;
        let mut cells = self.cells;
        match self.sort() {
            ARITHMETIC => cells[0] += 1,
            COMPARISON => cells[1] += 1,
            _ => {}
        }
        let next = Record { number: self.number + 1, start: self.start + length, cells, words: &self.words[length..] };
        (!next.words.is_empty()).then_some(next)
    }

    fn word(&self, index: usize) -> u32 {
        self.words.get(index).copied().unwrap_or(0)
    }

    pub fn sort(&self) -> u32 {
        self.word(0)
    }

    /// How many words it takes; of a memory at least so many, where they are
    /// more than are left.
    fn length(&self) -> Option<u64> {
        let width = u64::from(self.word(2));
        match self.sort() {
            PORT => Some(3 + width),
            REGISTER => Some(13),
            MEMORY => Some(self.memory_ports().last().map_or(6, |(start, length)| start as u64 + length)),
            ARITHMETIC => Some(4 + 3 * width),
            COMPARISON => Some(4 + 2 * width),
            _ => None,
        }
    }

    /// Its length, where it fits.
    fn fitting(&self) -> Option<usize> {
        let length = self.length()? as usize;
        (length <= self.words.len()).then_some(length)
    }

    /// Each port of a memory that begins inside the words left: its first word
    /// and its length. There are as many as the record says.
    fn memory_ports(&self) -> impl Iterator<Item = (usize, u64)> {
        let length = |start: usize| (0..4).map(|list| u64::from(self.word(start + list))).sum::<u64>() + 10;
        let port = move |start: usize| (start, length(start));
        let next = move |&(start, length): &(usize, u64)| {
            let start = start + length as usize;
            (start <= self.words.len()).then(|| port(start))
        };
        successors(Some(port(6)), next).take(self.word(5) as usize)
    }

    fn title(&self) -> String {
        let (number, first, second) = (self.number, self.word(1), self.word(2));
        match self.sort() {
            PORT => format!("record {number} (port of signal {first})"),
            REGISTER => format!("record {number} (register {first}, bit {second})"),
            MEMORY => format!("record {number} (memory {first})"),
            ARITHMETIC => format!("record {number} (arithmetic cell {})", self.cells[0]),
            COMPARISON => format!("record {number} (comparison cell {})", self.cells[1]),
            _ => format!("record {number}"),
        }
    }

    fn wrong_begin(&self) -> Option<String> {
        let (title, left) = (self.title(), self.words.len());
        let Some(length) = self.length() else {
            return Some(format!("{title}: its sort is {}, at most {}", self.sort(), SORTS.len() - 1));
        };
        let at_least = if self.sort() == MEMORY { "at least " } else { "" };
        (length > left as u64).then(|| format!("{title} does not fit: it has {at_least}{length} words, and {left} list words are left"))
    }

    /// Where it is a cell: an input that is not below this output.
    fn not_below(&self, output: u32) -> Option<String> {
        let inputs = 2 * self.word(2) as usize;
        let inputs = match self.sort() {
            ARITHMETIC => 3..4 + inputs,
            COMPARISON => 3..3 + inputs,
            _ => return None,
        };
        let above = |&input: &u32| input >= output && input != ABSENT;
        let input = inputs.map(|index| self.word(index)).find(above)?;
        Some(format!(", and net {input}, an input of the cell, is not below it"))
    }

    fn register_field(&self, index: usize) -> Option<Field> {
        let beside = |control: &'static str, at: usize| Rule::Beside { control, is_absent: self.word(at) == ABSENT };
        Some(match index {
            1 => field("its register", Rule::Within(0, 255)),
            2 => field("its bit", Rule::Within(0, 1_023)),
            3 => {
                let bit = u64::from(self.word(2));
                field("its output", Rule::Own { kinds: &[REGISTER_OUTPUT], owner: self.word(1), bit })
            }
            4 => field("its data", Rule::Net),
            5 => field("its clock", Rule::Net),
            6 => field("its edge", Rule::Within(0, 1)),
            7 => field("its enable", Rule::NetOrAbsent),
            8 => field("its enable's level", beside("enable", 7)),
            9 => field("its reset", Rule::NetOrAbsent),
            10 => field("its reset's level", beside("reset", 9)),
            11 => field("its reset's mode", beside("reset", 9)),
            12 => field("its reset value", beside("reset", 9)),
            _ => return None,
        })
    }

    fn memory_field(&self, index: usize) -> Option<Field> {
        Some(match index {
            1 => field("its number", Rule::Within(0, 15)),
            2 => field("its depth", Rule::Within(1, 65_536)),
            3 => field("its style", Rule::Within(0, 2)),
            4 => field("its latency", Rule::Within(1, 1)),
            5 => field("its port count", Rule::Within(1, 2)),
            _ => {
                let (port, (start, _)) = self.memory_ports().enumerate().take_while(|&(_, (start, _))| start <= index).last()?;
                return self.memory_port_field(port, start, index - start);
            }
        })
    }

    /// Word `index` of a port that begins at word `start`.
    fn memory_port_field(&self, port: usize, start: usize, index: usize) -> Option<Field> {
        const LISTS: [&str; 4] = ["read address", "read data", "write address", "write data"];
        let named = |name: &str, rule: Rule| Some(field(format!("port {port}'s {name}"), rule));
        let data_width = self.word(7);
        if let Some(list) = LISTS.get(index) {
            let rule = match index {
                0 | 2 => Rule::Within(1, MOST_ADDRESS),
                1 if port == 0 => Rule::Within(1, MOST_WIDTH),
                _ => Rule::DataWidth(data_width),
            };
            return named(&format!("{list} width"), rule);
        }
        let mut index = index - LISTS.len();
        for (list, name) in LISTS.iter().enumerate() {
            let width = self.word(start + list) as usize;
            if index < width {
                let bit = port as u64 * u64::from(data_width) + index as u64;
                let own = Rule::Own { kinds: &[MEMORY_OUTPUT], owner: self.word(1), bit };
                return Some(field(format!("bit {index} of port {port}'s {name}"), if list == 1 { own } else { Rule::Net }));
            }
            index -= width;
        }
        let nets = (0..LISTS.len()).map(|list| self.word(start + list) as usize).sum::<usize>();
        let is_absent = self.word(start + LISTS.len() + nets) == ABSENT;
        match index {
            0 => named("read enable", Rule::NetOrAbsent),
            1 => named("read enable's level", Rule::Beside { control: "read enable", is_absent }),
            2 => named("write enable", Rule::Net),
            3 => named("write enable's level", Rule::Within(0, 1)),
            4 => named("clock", Rule::Net),
            5 => named("edge", Rule::Within(0, 1)),
            _ => None,
        }
    }

    fn arithmetic_field(&self, index: usize) -> Option<Field> {
        match index {
            1 => Some(field("its operation", Rule::Within(0, 2))),
            2 => Some(field("its width", Rule::Within(1, MOST_WIDTH))),
            3 => Some(field("its carry", Rule::NetOrAbsent)),
            _ => self.operand_field(index - 4, &[ARITHMETIC_OUTPUT], self.cells[0]),
        }
    }

    fn comparison_field(&self, index: usize) -> Option<Field> {
        match index {
            1 => Some(field("its operation", Rule::Within(0, 3))),
            2 => Some(field("its width", Rule::Within(1, MOST_WIDTH))),
            _ => self.operand_field(index - 3, &[COMPARISON_OUTPUT], self.cells[1]),
        }
    }

    /// Word `index` of a cell's left nets, right nets and outputs.
    fn operand_field(&self, index: usize, kinds: &'static [u32], cell: u32) -> Option<Field> {
        let width = self.word(2) as usize;
        let bit = index.checked_rem(width)?;
        Some(match index / width {
            0 => field(format!("bit {bit} of its left operand"), Rule::Net),
            1 => field(format!("bit {bit} of its right operand"), Rule::Net),
            _ => {
                let bit = index as u64 - 2 * width as u64;
                field(format!("output bit {bit}"), Rule::Own { kinds, owner: cell, bit })
            }
        })
    }
}
