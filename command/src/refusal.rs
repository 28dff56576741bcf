//! A refusal in words: which limit, buffer, field, record, signal, register or
//! word of a netlist, and which rule of docs/RULES.md and docs/FORMATS.md.

use crate::arguments::Wish;
use crate::lowering::{Room, taken};
use crate::{Answer, MOST, stored};
use image::{HEADER_BYTES, Image, MOST as MOST_RECORDS, RECORD_BYTES, disassemble, read_header};
use std::ops::RangeInclusive;

/// Sections in image order: the sort of their records, and the section's name.
const SECTIONS: [(&str, &str); 7] = [
    ("signal", "signals"),
    ("expression", "expressions"),
    ("list word", "list"),
    ("assignment", "assignments"),
    ("register", "registers"),
    ("memory", "memories"),
    ("name byte", "names"),
];

/// `refused`, the three numbers, and what they mean; for a record also the
/// record itself on a line of its own.
pub fn in_words(answer: Answer, image: &[u8], wish: &Wish, room: &Room) -> String {
    let [number, first, second] = answer;
    let (words, record) = match number {
        1 => (limits(wish), None),
        2 => (netlist_short(wish, room), None),
        3 => (field(image, first), None),
        4 => (record(image, first, second), record_text(image, first, second)),
        5 => (scratch_short(image, wish, room), None),
        6 => (format!("{} is needed and has no driver", bit_of_signal(image, first, second)), None),
        7 => (format!("combinational loop through {}", bit_of_signal(image, first, second)), None),
        8 => (format!("{} is no constant", reset_bit(image, first, second)), None),
        9 => (too_many("nets", wish.limited_by[0], wish.nets, taken(image).map(|(nets, _)| nets)), None),
        10 => (too_many("list words", wish.limited_by[1], wish.words, taken(image).map(|(_, words)| words)), None),
        _ => (unknown(), None),
    };
    let record = record.map_or(String::new(), |line| format!("  {line}\n"));
    line(answer, &words) + &record
}

/// The same for the refusal of a stored netlist.
pub fn of_netlist_in_words(answer: Answer, netlist: &[u32]) -> String {
    let [number, place, _] = answer;
    line(answer, &if number == 11 { stored::why(netlist, place) } else { unknown() })
}

/// A refusal's line.
pub(crate) fn line([number, first, second]: Answer, words: &str) -> String {
    format!("refused {number} {first} {second}: {words}\n")
}

pub(crate) fn unknown() -> String {
    "an answer that docs/RULES.md does not know".to_string()
}

// The caller.

fn limits(wish: &Wish) -> String {
    let outside = |what: &str, value: u32, range: RangeInclusive<u32>| {
        let (from, to) = (range.start(), range.end());
        (!range.contains(&value)).then(|| format!("the {what} limit {value} is outside {from} to {to}"))
    };
    let both = [outside("net", wish.nets, 1..=MOST), outside("list", wish.words, 0..=MOST)];
    both.into_iter().flatten().collect::<Vec<_>>().join("; ")
}

fn netlist_short(wish: &Wish, room: &Room) -> String {
    let Wish { nets, words, .. } = wish;
    let Room { netlist, netlist_needed, .. } = room;
    format!("the netlist buffer has {netlist} words; 16 + 6 * {nets} + {words} = {netlist_needed} are needed")
}

fn scratch_short(image: &[u8], wish: &Wish, room: &Room) -> String {
    let Room { scratch, scratch_needed, .. } = room;
    let sum = Image::decode(image).map_or(String::new(), |image| {
        let (signal_bits, expression_bits) = (image.signal_bits(), image.expression_bits());
        let expressions = image.expressions.len();
        format!("4 * {signal_bits} + {expression_bits} + 8 * {expressions} + 4 * {} + 64 = ", wish.nets)
    });
    format!("the scratch has {scratch} words; {sum}{scratch_needed} are needed")
}

// Whoever writes the image.

/// The rule that a header field or a record breaks, in the words it is written in.
fn rule(image: &[u8]) -> String {
    reading::cause(image).map_or(String::new(), |cause| format!(": \"{}\"", cause.rule))
}

fn field(image: &[u8], field: u32) -> String {
    let bytes = image.len();
    let Some(header) = read_header(image) else {
        return format!("the image has {bytes} bytes and no whole header{}", rule(image));
    };
    let value = header.get(field as usize).copied().unwrap_or(0);
    let more = match field {
        0 if value == 1 => ", which ./lower --from-edition-1 takes".to_string(),
        0 => String::new(),
        1 => format!(", the image has {bytes} bytes"),
        _ if field % 2 == 0 => format!(", at most {}", MOST_RECORDS[section_of(field)]),
        _ => format!(", it should be {}", end_of_sections_before(&header, section_of(field))),
    };
    format!("header field {field} ({}) is {value}{more}{}", field_name(field), rule(image))
}

fn field_name(field: u32) -> String {
    match field {
        0 => "edition".to_string(),
        1 => "total bytes".to_string(),
        _ => {
            let what = if field % 2 == 0 { "count" } else { "offset" };
            format!("{what} of {}", SECTIONS[section_of(field)].1)
        }
    }
}

/// The section that a header field from 2 on is about.
fn section_of(field: u32) -> usize {
    ((field as usize - 2) / 2).min(SECTIONS.len() - 1)
}

/// The byte behind the header and the sections before one, by their counts.
fn end_of_sections_before(header: &[u32], section: usize) -> u64 {
    let bytes_of = |s: usize| u64::from(header[2 + 2 * s]) * RECORD_BYTES[s] as u64;
    HEADER_BYTES as u64 + (0..section).map(bytes_of).sum::<u64>()
}

fn record(image: &[u8], section: u32, number: u32) -> String {
    let sort = SECTIONS.get(section as usize).map_or("record", |(sort, _)| sort);
    let named = record_name(image, section, number).map_or(String::new(), |name| format!(" ({name})"));
    format!("{sort} {number}{named}{}", rule(image))
}

/// The name of a record that has one of printable bytes.
pub(crate) fn record_name(image: &[u8], section: u32, number: u32) -> Option<String> {
    let image = Image::decode(image)?;
    let number = number as usize;
    let name = match section {
        0 => image.name_of(image.signals.get(number)?),
        3 => image.name_of(image.signals.get(image.assignments.get(number)?[0] as usize)?),
        4 => image.name_of(image.registers.get(number)?),
        5 => image.name_of(image.memories.get(number)?),
        _ => None,
    };
    let is_printable = |name: &&str| (1..=64).contains(&name.len()) && name.bytes().all(|byte| (33..=126).contains(&byte));
    name.filter(is_printable).map(str::to_string)
}

/// The record as the disassembler writes it: one line for each record, those of
/// the list and the names aside.
fn record_text(image: &[u8], section: u32, number: u32) -> Option<String> {
    let image = Image::decode(image)?;
    let counts = image.counts();
    let before: usize = [0, 1, 3, 4, 5].into_iter().filter(|&s| s < section).map(|s| counts[s as usize]).sum();
    let text = disassemble(&image);
    let mut records = text.lines().filter(|line| !line.starts_with("list ") && !line.starts_with("names "));
    records.nth(before + number as usize).map(str::to_string)
}

// The designer.

fn bit_of_signal(image: &[u8], signal: u32, bit: u32) -> String {
    let name = record_name(image, 0, signal).unwrap_or_else(|| signal.to_string());
    format!("bit {bit} of signal {name}")
}

fn reset_bit(image: &[u8], register: u32, bit: u32) -> String {
    let name = record_name(image, 4, register).unwrap_or_else(|| register.to_string());
    format!("bit {bit} of the reset value of register {name}")
}

fn too_many(what: &str, limited_by: &str, limit: u32, needed: Option<u32>) -> String {
    let needed = needed.map_or(String::new(), |needed| format!("; {needed} are needed"));
    format!("more than {limit} {what} ({limited_by}) would be made{needed}")
}
