//! Makes an image smaller while something about it persists: drops records,
//! reduces widths and fields, and tidies list and names.

use image::memory_field::{FIRST_PORT, HAS_SECOND, SECOND_PORT, WORD_WIDTH};
use image::{constant_words, kind, port_field, set_word, word_at, Image, ABSENT, HEADER_BYTES, MEMORY_FIELDS};
use std::time::{Duration, Instant};

const MOST_ATTEMPTS: usize = 60_000;
const MOST_TIME: Duration = Duration::from_secs(30);

/// The smallest image found for which `persists` still holds.
pub fn shrink(image: &[u8], persists: &mut dyn FnMut(&[u8]) -> bool) -> Vec<u8> {
    let mut search = Search { best: image.to_vec(), persists, attempts: 0, until: Instant::now() + MOST_TIME };
    while search.round() && search.may_go_on() {}
    search.best
}

struct Search<'a> {
    best: Vec<u8>,
    persists: &'a mut dyn FnMut(&[u8]) -> bool,
    attempts: usize,
    until: Instant,
}

/// What falls with each step: bytes, then the sum of all fields. An absent
/// field counts least, so that dropping a control is a step too.
fn size(bytes: &[u8]) -> (usize, u64) {
    let weight = |word: &[u8]| match word.iter().rev().fold(0, |value, &byte| value << 8 | u64::from(byte)) {
        value if value == u64::from(ABSENT) => 0,
        value => value + 1,
    };
    (bytes.len(), bytes.chunks(4).map(weight).sum())
}

impl Search<'_> {
    fn may_go_on(&self) -> bool {
        self.attempts < MOST_ATTEMPTS && Instant::now() < self.until
    }

    /// Takes the candidate if it is smaller and the difference persists.
    fn attempt(&mut self, candidate: &[u8]) -> bool {
        if size(candidate) >= size(&self.best) || !self.may_go_on() {
            return false;
        }
        self.attempts += 1;
        let taken = (self.persists)(candidate);
        if taken {
            self.best = candidate.to_vec();
        }
        taken
    }

    /// One round of all edits; whether it made the image smaller.
    fn round(&mut self) -> bool {
        let before = size(&self.best);
        if Image::decode(&self.best).is_some() {
            for edit in EDITS {
                self.apply(*edit);
            }
        } else {
            self.shrink_bytes();
        }
        size(&self.best) < before
    }

    /// Tries an edit at every place, from the last to the first.
    fn apply(&mut self, edit: Edit) {
        let mut place = self.image().map_or(0, |image| edit.places(&image));
        while place > 0 && self.may_go_on() {
            place -= 1;
            let Some(image) = self.image() else { return };
            for candidate in edit.candidates(&image, place) {
                if self.attempt(&candidate.encode()) {
                    break;
                }
            }
        }
    }

    fn image(&self) -> Option<Image> {
        Image::decode(&self.best)
    }

    /// For bytes whose header is wrong: cuts them and clears words.
    fn shrink_bytes(&mut self) {
        let length = self.best.len();
        for shorter in [0, HEADER_BYTES - 1, HEADER_BYTES, length / 2, length.saturating_sub(4), length.saturating_sub(1)] {
            if shorter < self.best.len() {
                let cut = self.best[..shorter].to_vec();
                if !self.attempt(&cut) {
                    self.attempt(&with_total(cut, shorter));
                }
            }
        }
        for word in (0..self.best.len() / 4).rev() {
            let mut cleared = self.best.clone();
            if cleared.len() >= 4 * word + 4 {
                set_word(&mut cleared, word, 0);
                self.attempt(&cleared);
            }
        }
    }
}

/// The bytes with their length in the header's total.
fn with_total(mut bytes: Vec<u8>, total: usize) -> Vec<u8> {
    if bytes.len() >= 8 {
        set_word(&mut bytes, 1, total as u32);
    }
    bytes
}

/// A way to make an image smaller, at one of several places.
#[derive(Clone, Copy)]
enum Edit {
    DropMemory,
    DropRegister,
    DropAssignments,
    DropUnusedExpressions,
    DropExpression,
    DropSignal,
    ReplaceExpression,
    NarrowWidth,
    TidyList,
    TidyNames,
    LowerField,
}

const EDITS: &[Edit] = &[
    Edit::DropMemory,
    Edit::DropRegister,
    Edit::DropAssignments,
    Edit::DropUnusedExpressions,
    Edit::ReplaceExpression,
    Edit::DropUnusedExpressions,
    Edit::DropExpression,
    Edit::DropSignal,
    Edit::TidyList,
    Edit::TidyNames,
    Edit::NarrowWidth,
    Edit::LowerField,
];

/// Runs of assignments are dropped 64, 8 and 1 at a time.
const RUNS: [usize; 3] = [64, 8, 1];

impl Edit {
    fn places(self, image: &Image) -> usize {
        match self {
            Edit::DropMemory => image.memories.len(),
            Edit::DropRegister => image.registers.len(),
            Edit::DropAssignments => image.assignments.len() * RUNS.len(),
            Edit::DropUnusedExpressions | Edit::TidyList | Edit::TidyNames => 1,
            Edit::DropExpression | Edit::ReplaceExpression => image.expressions.len(),
            Edit::DropSignal => image.signals.len(),
            Edit::NarrowWidth => widths(image).len(),
            Edit::LowerField => field_count(image),
        }
    }

    /// Candidates at a place. The image may have shrunk since places were
    /// counted, so a place may be past the end and give none.
    fn candidates(self, image: &Image, place: usize) -> Vec<Image> {
        match self {
            Edit::DropMemory => with(image, |copy| remove(&mut copy.memories, place)),
            Edit::DropRegister => with(image, |copy| remove(&mut copy.registers, place)),
            Edit::DropAssignments => drop_assignments(image, place),
            Edit::DropUnusedExpressions => with(image, drop_unused_expressions),
            Edit::DropExpression => drop_expression(image, place),
            Edit::DropSignal => drop_signal(image, place),
            Edit::ReplaceExpression => replace_expression(image, place),
            Edit::NarrowWidth => narrow_width(image, place),
            Edit::TidyList => with(image, tidy_list),
            Edit::TidyNames => with(image, tidy_names),
            Edit::LowerField => lower_field(image, place),
        }
    }
}

fn with(image: &Image, edit: impl FnOnce(&mut Image)) -> Vec<Image> {
    let mut copy = image.clone();
    edit(&mut copy);
    vec![copy]
}

fn remove<T>(records: &mut Vec<T>, place: usize) {
    if place < records.len() {
        records.remove(place);
    }
}

fn drop_assignments(image: &Image, place: usize) -> Vec<Image> {
    let count = image.assignments.len();
    if count == 0 {
        return Vec::new();
    }
    // The largest runs come first, since places fall.
    let run = RUNS[RUNS.len() - 1 - (place / count).min(RUNS.len() - 1)];
    let start = place % count;
    with(image, |copy| drop(copy.assignments.drain(start..(start + run).min(count))))
}

// ---- expressions ----

/// Calls `visit` on each field that names an expression.
fn for_each_expression_name(image: &mut Image, visit: &mut dyn FnMut(&mut u32)) {
    let mut parts = vec![false; image.list.len()];
    for fields in &mut image.expressions {
        let [kind, _, a, b, c] = fields;
        match *kind {
            kind::UNARY => visit(b),
            kind::BINARY => [b, c].into_iter().for_each(&mut *visit),
            kind::MUX => [a, b, c].into_iter().for_each(&mut *visit),
            kind::SLICE => visit(a),
            kind::CONCAT => mark(&mut parts, *a, *b as usize),
            _ => {}
        }
    }
    for (word, _) in image.list.iter_mut().zip(parts).filter(|(_, is_part)| *is_part) {
        visit(word);
    }
    for fields in &mut image.assignments {
        visit(&mut fields[3]);
    }
    for fields in &mut image.registers {
        visit(&mut fields[3]);
        if fields[8] != ABSENT {
            visit(&mut fields[11]);
        }
    }
    for fields in &mut image.memories {
        for port in ports(fields[HAS_SECOND]) {
            [0, 4, 5].into_iter().for_each(|field| visit(&mut fields[port + field]));
        }
    }
}

fn mark(marks: &mut [bool], start: u32, count: usize) {
    marks.iter_mut().skip(start as usize).take(count).for_each(|mark| *mark = true);
}

/// First fields of the ports that are there.
fn ports(present: u32) -> &'static [usize] {
    if present == 1 { &[FIRST_PORT, SECOND_PORT] } else { &[FIRST_PORT] }
}

fn drop_unused_expressions(image: &mut Image) {
    loop {
        let mut used = vec![false; image.expressions.len()];
        for_each_expression_name(image, &mut |name| mark(&mut used, *name, 1));
        let Some(unused) = used.iter().rposition(|used| !used) else { return };
        remove_expression(image, unused, 0);
    }
}

/// Removes an expression; what named it names `instead`.
fn remove_expression(image: &mut Image, place: usize, instead: u32) {
    let removed = place as u32;
    for_each_expression_name(image, &mut |name| redirect(name, removed, instead));
    image.expressions.remove(place);
}

/// A name of a record, after record `removed` is gone.
fn redirect(name: &mut u32, removed: u32, instead: u32) {
    if *name == removed {
        *name = instead;
    }
    if *name > removed && *name != ABSENT {
        *name -= 1;
    }
}

/// Drops an expression; an operand or an earlier one of its width takes its
/// place.
fn drop_expression(image: &Image, place: usize) -> Vec<Image> {
    let Some(fields) = image.expressions.get(place) else { return Vec::new() };
    let same_width = |&other: &usize| image.expressions[other][1] == fields[1];
    let mut instead: Vec<usize> =
        fields[2..].iter().map(|&operand| operand as usize).filter(|&operand| operand < place).filter(same_width).collect();
    instead.extend((0..place).find(same_width));
    instead.push(0);
    instead.dedup();
    instead.into_iter().flat_map(|other| with(image, |copy| remove_expression(copy, place, other as u32))).collect()
}

/// Puts a signal's bits or a constant that is there in an expression's place.
fn replace_expression(image: &Image, place: usize) -> Vec<Image> {
    let Some(&[_, width, ..]) = image.expressions.get(place) else { return Vec::new() };
    let signal = image.signals.iter().position(|signal| signal[2] >= width && signal[3] == 1);
    let zeros = image.list.windows(constant_words(width.min(1_024)).max(1)).position(|words| words.iter().all(|&word| word == 0));
    let signal = signal.map(|signal| [kind::SIGNAL, width, signal as u32, 0, 0]);
    let constant = zeros.map(|start| [kind::CONSTANT, width, start as u32, 0, 0]);
    [signal, constant].into_iter().flatten().flat_map(|fields| with(image, |copy| copy.expressions[place] = fields)).collect()
}

// ---- signals ----

/// Calls `visit` on each field that names a signal.
fn for_each_signal_name(image: &mut Image, visit: &mut dyn FnMut(&mut u32)) {
    for fields in image.expressions.iter_mut().filter(|fields| fields[0] == kind::SIGNAL) {
        visit(&mut fields[2]);
    }
    for fields in &mut image.assignments {
        visit(&mut fields[0]);
    }
    for fields in &mut image.registers {
        [2, 4, 6, 8].into_iter().for_each(|field| visit(&mut fields[field]));
    }
    for fields in &mut image.memories {
        for port in ports(fields[HAS_SECOND]) {
            [1, 2, 6, 8].into_iter().for_each(|field| visit(&mut fields[port + field]));
        }
    }
}

fn drop_signal(image: &Image, place: usize) -> Vec<Image> {
    let Some(fields) = image.signals.get(place) else { return Vec::new() };
    let same_width = image.signals.iter().enumerate().find(|(other, signal)| *other != place && signal[2] == fields[2]);
    let mut instead = vec![0];
    instead.extend(same_width.map(|(other, _)| other as u32));
    let removed = place as u32;
    let without = |other: u32| {
        with(image, |copy| {
            for_each_signal_name(copy, &mut |name| redirect(name, removed, other));
            copy.signals.remove(place);
        })
    };
    instead.into_iter().rev().flat_map(without).collect()
}

// ---- widths, list, names, fields ----

/// The widths above 1 that occur.
fn widths(image: &Image) -> Vec<u32> {
    let signals = image.signals.iter().map(|signal| signal[2]);
    let expressions = image.expressions.iter().map(|expression| expression[1]);
    let mut widths: Vec<u32> = signals.chain(expressions).filter(|&width| width > 1).collect();
    widths.sort_unstable();
    widths.dedup();
    widths
}

/// Makes everything of one width narrower.
fn narrow_width(image: &Image, place: usize) -> Vec<Image> {
    let Some(&width) = widths(image).get(place) else { return Vec::new() };
    let narrow = |narrower: u32| {
        with(image, |copy| {
            let signals = copy.signals.iter_mut().map(|fields| &mut fields[2]);
            let expressions = copy.expressions.iter_mut().map(|fields| &mut fields[1]);
            let assignments = copy.assignments.iter_mut().map(|fields| &mut fields[2]);
            let memories = copy.memories.iter_mut().map(|fields| &mut fields[WORD_WIDTH]);
            let fields = signals.chain(expressions).chain(assignments).chain(memories);
            for field in fields.filter(|field| **field == width) {
                *field = narrower;
            }
        })
    };
    [1, 2, width / 2, width - 1].into_iter().filter(|&narrower| narrower < width).flat_map(narrow).collect()
}

/// Lays the list words in use out anew, without gaps; equal stretches are one.
fn tidy_list(image: &mut Image) {
    let mut list: Vec<u32> = Vec::new();
    for fields in &mut image.expressions {
        let count = match fields[0] {
            kind::CONSTANT => constant_words(fields[1].min(1_024)),
            kind::CONCAT => fields[3] as usize,
            _ => continue,
        };
        let start = fields[2] as usize;
        let Some(words) = start.checked_add(count).and_then(|end| image.list.get(start..end)) else { return };
        let there = list.windows(count.max(1)).position(|stretch| stretch == words);
        fields[2] = there.unwrap_or(list.len()) as u32;
        if there.is_none() {
            list.extend_from_slice(words);
        }
    }
    image.list = list;
}

/// Gives every record a short name, different in its section.
fn tidy_names(image: &mut Image) {
    let longest = image.signals.len().max(image.registers.len()).max(image.memories.len());
    let (names, stretches) = short_names(longest);
    let name = |fields: &mut [u32], number: usize| fields[..2].copy_from_slice(&stretches[number]);
    image.signals.iter_mut().enumerate().for_each(|(number, fields)| name(fields, number));
    image.registers.iter_mut().enumerate().for_each(|(number, fields)| name(fields, number));
    image.memories.iter_mut().enumerate().for_each(|(number, fields)| name(fields, number));
    image.names = names;
}

/// So many names of one and two letters, and where each stands.
fn short_names(count: usize) -> (Vec<u8>, Vec<[u32; 2]>) {
    let mut names = Vec::new();
    let mut stretches = Vec::new();
    for number in 0..count {
        let start = names.len() as u32;
        if number >= 26 {
            names.push(b'A' + (number / 26) as u8);
        }
        names.push(b'a' + (number % 26) as u8);
        stretches.push([start, names.len() as u32 - start]);
    }
    (names, stretches)
}

fn field_count(image: &Image) -> usize {
    (image.encode().len() - image.names.len() - HEADER_BYTES) / 4
}

/// Makes one field of a record or one list word absent, 0, half, or one less.
fn lower_field(image: &Image, place: usize) -> Vec<Image> {
    let bytes = image.encode();
    if place >= field_count(image) {
        return Vec::new();
    }
    let value = word_at(&bytes, HEADER_BYTES / 4 + place);
    let absent_control = absent_from(image, place);
    let lower = [0, value / 2, value.saturating_sub(1)].into_iter().filter(|&lower| lower < value);
    let lowered = lower.filter_map(|lower| {
        let mut copy = bytes.clone();
        set_word(&mut copy, HEADER_BYTES / 4 + place, lower);
        Image::decode(&copy)
    });
    absent_control.into_iter().chain(lowered).collect()
}

/// The image with the control or port that begins at this field absent.
fn absent_from(image: &Image, place: usize) -> Option<Image> {
    let fields_before = 4 * image.signals.len() + 5 * image.expressions.len() + image.list.len() + 4 * image.assignments.len();
    let place = place.checked_sub(fields_before)?;
    let mut copy = image.clone();
    if let Some(register) = copy.registers.get_mut(place / 12) {
        match place % 12 {
            6 => register[6..8].copy_from_slice(&[ABSENT, 0]),
            8 => register[8..12].copy_from_slice(&[ABSENT, 0, 0, 0]),
            _ => return None,
        }
        return Some(copy);
    }
    let place = place - 12 * image.registers.len();
    let memory = copy.memories.get_mut(place / MEMORY_FIELDS)?;
    match place % MEMORY_FIELDS {
        HAS_SECOND => memory[HAS_SECOND..].fill(0),
        field if [FIRST_PORT, SECOND_PORT].map(|port| port + port_field::READ_ENABLE).contains(&field) => {
            memory[field..field + 2].copy_from_slice(&[ABSENT, 0]);
        }
        _ => return None,
    }
    Some(copy)
}

#[cfg(test)]
mod tests {
    use super::{shrink, WORD_WIDTH};
    use image::{kind, Builder, Image};

    fn wide_image() -> Image {
        let mut builder = Builder::new();
        let a = builder.input("first", 16);
        let b = builder.input("second", 16);
        let y = builder.output("result", 16);
        let z = builder.output("other", 16);
        let (left, right) = (builder.read(a), builder.read(b));
        let sum = builder.add(left, right);
        let product = builder.mul(sum, right);
        let masked = builder.and(product, sum);
        builder.assign(y, masked);
        builder.assign(z, sum);
        builder.finish()
    }

    #[test]
    fn keeps_what_persists_and_drops_the_rest() {
        let has_product = |image: &Image| image.expressions.iter().any(|fields| fields[0] == kind::BINARY && fields[2] == 5);
        let small = shrink(&wide_image().encode(), &mut |bytes| Image::decode(bytes).is_some_and(|image| has_product(&image)));
        let small = Image::decode(&small).unwrap();
        assert!(has_product(&small));
        assert_eq!(small.counts(), [0, 1, 0, 0, 0, 0, 0]);
    }

    #[test]
    fn checked_images_stay_checked_where_that_persists() {
        let accepted = |bytes: &[u8]| reference::scratch_words(bytes, 1).is_some();
        let has_sum = |image: &Image| image.expressions.iter().any(|fields| fields[0] == kind::BINARY && fields[2] == 3);
        let image = wide_image().encode();
        assert!(accepted(&image));
        let small = shrink(&image, &mut |bytes| accepted(bytes) && has_sum(&Image::decode(bytes).unwrap()));
        let small = Image::decode(&small).unwrap();
        assert_eq!(small.expressions.len(), 2);
        assert!(small.signals.len() <= 1 && small.signal_bits() <= 1);
    }

    #[test]
    fn memories_are_narrowed_with_their_words() {
        let mut builder = Builder::new();
        let clock = builder.input("clock", 1);
        let data = builder.input("data", 8);
        let read = builder.output("read", 8);
        let (address, write) = (builder.read(clock), builder.read(data));
        let first = image::port(address, read, write, clock);
        builder.memory("m", image::Memory { depth: 2, style: 0, first, second: None });
        let kept = |bytes: &[u8]| {
            reference::scratch_words(bytes, 1).is_some() && Image::decode(bytes).is_some_and(|image| image.memories.len() == 1)
        };
        let small = Image::decode(&shrink(&builder.finish().encode(), &mut |bytes| kept(bytes))).unwrap();
        assert_eq!(small.memories[0][WORD_WIDTH], 1);
    }

    #[test]
    fn wrong_headers_are_cut() {
        let mut bytes = wide_image().encode();
        bytes.push(0);
        let small = shrink(&bytes, &mut |bytes| reference::check(bytes, 1, 0, 22, 0) == [3, 1, 0]);
        assert_eq!(small.len(), 64);
    }
}
