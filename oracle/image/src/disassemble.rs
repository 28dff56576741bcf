//! The disassembler: image to text. Each record is written in the most
//! readable way that the assembler turns back into exactly that record.

use crate::assemble::{is_reserved, Assembler};
use crate::format::*;
use crate::text::{is_name, quote};
use std::fmt::Write;

/// The text of an image; assembled again it gives the same bytes.
pub fn disassemble(image: &Image) -> String {
    let mut writer = Writer {
        image,
        assembler: Assembler::default(),
        text: String::new(),
    };
    for number in 0..image.signals.len() {
        writer.signal(number);
    }
    for number in 0..image.expressions.len() {
        writer.expression(number);
    }
    for number in 0..image.assignments.len() {
        writer.assignment(number);
    }
    for number in 0..image.registers.len() {
        writer.register(number);
    }
    for number in 0..image.memories.len() {
        writer.memory(number);
    }
    writer.fill_list(image.list.len());
    writer.fill_names(image.names.len());
    writer.text
}

/// The text so far and what the assembler makes of it.
struct Writer<'a> {
    image: &'a Image,
    assembler: Assembler,
    text: String,
}

impl Writer<'_> {
    /// Keeps the first candidate that gives exactly the wanted record.
    fn write(&mut self, candidates: &[String]) {
        for line in candidates {
            let before = self.assembler.image.counts();
            if self.assembler.line(0, line).is_ok() && self.agrees(before) {
                self.text.push_str(line);
                self.text.push('\n');
                return;
            }
            self.take_back(before);
        }
        unreachable!("the raw form gives every record");
    }

    /// Whether what was added since `before` is what the image holds there.
    fn agrees(&self, before: [usize; 7]) -> bool {
        let made = &self.assembler.image;
        let want = self.image;
        added(&made.signals, &want.signals, before[SIGNALS])
            && added(&made.expressions, &want.expressions, before[EXPRESSIONS])
            && added(&made.list, &want.list, before[LIST])
            && added(&made.assignments, &want.assignments, before[ASSIGNMENTS])
            && added(&made.registers, &want.registers, before[REGISTERS])
            && added(&made.memories, &want.memories, before[MEMORIES])
            && added(&made.names, &want.names, before[NAMES])
    }

    fn take_back(&mut self, before: [usize; 7]) {
        let made = &mut self.assembler.image;
        made.signals.truncate(before[SIGNALS]);
        made.expressions.truncate(before[EXPRESSIONS]);
        made.list.truncate(before[LIST]);
        made.assignments.truncate(before[ASSIGNMENTS]);
        made.registers.truncate(before[REGISTERS]);
        made.memories.truncate(before[MEMORIES]);
        made.names.truncate(before[NAMES]);
        self.assembler
            .signals
            .retain(|_, number| (*number as usize) < before[SIGNALS]);
        self.assembler
            .expressions
            .retain(|_, number| (*number as usize) < before[EXPRESSIONS]);
    }

    /// Writes the list words before `end` that no record has brought.
    fn fill_list(&mut self, end: usize) {
        let from = self.assembler.image.list.len();
        for words in self.image.list[from.min(end)..end].chunks(16) {
            self.write(&[format!("list{}", fields(words))]);
        }
    }

    /// Writes the name bytes before `end` that no record has brought.
    fn fill_names(&mut self, end: usize) {
        let from = self.assembler.image.names.len();
        for bytes in self.image.names[from.min(end)..end].chunks(64) {
            self.write(&[format!("names {}", quote(bytes))]);
        }
    }

    /// The bytes of a name that lies inside the names section.
    fn name(&self, offset: u32, length: u32) -> Option<&[u8]> {
        let end = (offset as usize).checked_add(length as usize)?;
        self.image.names.get(offset as usize..end)
    }

    /// Brings the names up to `offset`, if the name lies after them.
    fn before_name(&mut self, offset: u32, length: u32) {
        if self.name(offset, length).is_some() {
            self.fill_names(offset as usize);
        }
    }

    /// What can stand after a record's label to give its name.
    fn name_forms(&self, offset: u32, length: u32) -> Vec<String> {
        let quoted = self
            .name(offset, length)
            .map(|name| format!(" name {}", quote(name)));
        quoted
            .into_iter()
            .chain([format!(" name at {offset} {length}")])
            .collect()
    }

    fn signal(&mut self, number: usize) {
        let record = self.image.signals[number];
        let [offset, length, width, direction] = record;
        self.before_name(offset, length);
        let mut candidates = Vec::new();
        if let Some(sort) = DIRECTIONS.get(direction as usize) {
            if let Some(label) = self.own_label(number) {
                candidates.push(format!("{sort} {label} {width}"));
            }
            for name in self.name_forms(offset, length) {
                candidates.push(format!("{sort} s{number} {width}{name}"));
            }
        }
        candidates.push(format!("raw signal s{number} ={}", fields(&record)));
        self.write(&candidates);
    }

    /// The signal's name, where it can serve as its label. Labels `s0`, `s1`
    /// and so on are kept for signals whose name cannot.
    fn own_label(&self, number: usize) -> Option<String> {
        let [offset, length, ..] = self.image.signals[number];
        let name = self.name(offset, length)?;
        let text = std::str::from_utf8(name).ok()?;
        let numbered = name.starts_with(b"s") && name[1..].iter().all(u8::is_ascii_digit);
        (is_name(name) && !is_reserved(text) && !numbered).then(|| text.to_string())
    }

    /// How the text names signal `number`.
    fn signal_label(&self, number: u32) -> String {
        let of_own = (number as usize) < self.image.signals.len();
        let own = of_own.then(|| self.own_label(number as usize)).flatten();
        match own {
            Some(label) if self.assembler.signals.get(&label) == Some(&number) => label,
            _ if of_own => format!("s{number}"),
            _ => format!("@{number}"),
        }
    }

    /// How the text names expression `number` at this point.
    fn label(&self, number: u32) -> String {
        if (number as usize) < self.assembler.image.expressions.len() {
            format!("e{number}")
        } else {
            format!("@{number}")
        }
    }

    fn expression(&mut self, number: usize) {
        let record = self.image.expressions[number];
        let width = record[1];
        self.before_stretch(record);
        let mut candidates = Vec::new();
        for form in self.forms(record) {
            candidates.push(format!("expr e{number} = {form}"));
            candidates.push(format!("expr e{number} : {width} = {form}"));
        }
        candidates.push(format!("raw expr e{number} ={}", fields(&record)));
        self.write(&candidates);
    }

    /// Start and length of the list words that a record uses.
    fn stretch(&self, [kind, width, start, count, _]: [u32; 5]) -> Option<(usize, usize)> {
        let length = match kind {
            kind::CONSTANT => constant_words(width),
            kind::CONCAT => count as usize,
            _ => return None,
        };
        let start = start as usize;
        (start + length <= self.image.list.len()).then_some((start, length))
    }

    fn before_stretch(&mut self, record: [u32; 5]) {
        if let Some((start, _)) = self.stretch(record) {
            self.fill_list(start);
        }
    }

    /// Ways to write an expression, the most readable first.
    fn forms(&self, record: [u32; 5]) -> Vec<String> {
        let [kind, width, first, second, third] = record;
        let high = u64::from(second) + u64::from(width);
        let range = format!("{} {second}", high.saturating_sub(1));
        match kind {
            kind::SIGNAL => {
                let signal = self.signal_label(first);
                let bits = range.replace(' ', ":");
                vec![
                    format!("signal {signal}"),
                    format!("signal {signal}[{bits}]"),
                ]
            }
            kind::CONSTANT => {
                let value = self
                    .stretch(record)
                    .map(|stretch| self.constant(width, stretch));
                value
                    .into_iter()
                    .chain([format!("const {width} at {first}")])
                    .collect()
            }
            kind::UNARY => match UNARY_OPS.get(first as usize) {
                Some(op) => vec![format!("{op} {}", self.label(second))],
                None => vec![],
            },
            kind::BINARY => match BINARY_OPS.get(first as usize) {
                Some(op) => vec![format!("{op} {} {}", self.label(second), self.label(third))],
                None => vec![],
            },
            kind::MUX => {
                let [condition, then, other] = [first, second, third].map(|part| self.label(part));
                vec![format!("mux {condition} {then} {other}")]
            }
            kind::CONCAT => {
                let parts = self.stretch(record).map(|stretch| self.concat(stretch));
                parts
                    .into_iter()
                    .chain([format!("concat at {first} {second}")])
                    .collect()
            }
            kind::SLICE => vec![format!("slice {} {range}", self.label(first))],
            _ => vec![],
        }
    }

    fn constant(&self, width: u32, (start, length): (usize, usize)) -> String {
        let mut digits = String::new();
        for word in self.image.list[start..start + length].iter().rev() {
            write!(digits, "{word:08x}").expect("text takes all");
        }
        let digits = digits.trim_start_matches('0');
        format!(
            "const {width} 0x{}",
            if digits.is_empty() { "0" } else { digits }
        )
    }

    fn concat(&self, (start, length): (usize, usize)) -> String {
        let mut form = "concat".to_string();
        for part in &self.image.list[start..start + length] {
            form.push(' ');
            form.push_str(&self.label(*part));
        }
        form
    }

    fn assignment(&mut self, number: usize) {
        let record = self.image.assignments[number];
        let [signal, lsb, width, value] = record;
        let (signal, value) = (self.signal_label(signal), self.label(value));
        let high = (u64::from(lsb) + u64::from(width)).saturating_sub(1);
        self.write(&[
            format!("assign {signal} = {value}"),
            format!("assign {signal}[{high}:{lsb}] = {value}"),
            format!("raw assign{}", fields(&record)),
        ]);
    }

    fn register(&mut self, number: usize) {
        let record = self.image.registers[number];
        self.before_name(record[0], record[1]);
        let mut rest = format!(
            " target {} next {} clock {} {}",
            self.signal_label(record[2]),
            self.label(record[3]),
            self.signal_label(record[4]),
            ["rising", "falling"][usize::from(record[5] != 0)],
        );
        rest += &self.control("enable", record[6], record[7]);
        rest += &self.control("reset", record[8], record[9]);
        if record[8] != ABSENT {
            let mode = ["sync", "async"][usize::from(record[10] != 0)];
            rest += &format!(" {mode} value {}", self.label(record[11]));
        }
        self.named("register", &format!("r{number}"), &record, &rest);
    }

    fn memory(&mut self, number: usize) {
        let record = self.image.memories[number];
        self.before_name(record[0], record[1]);
        let (depth, width) = (record[memory_field::DEPTH], record[memory_field::WORD_WIDTH]);
        let style = STYLES.get(record[memory_field::STYLE] as usize).unwrap_or(&"?");
        let mut rest = format!(" depth {depth} width {width} style {style}");
        if record[memory_field::LATENCY] != 1 {
            rest += &format!(" latency {}", record[memory_field::LATENCY]);
        }
        rest += &self.port(&record[memory_field::FIRST_PORT..memory_field::HAS_SECOND]);
        if record[memory_field::HAS_SECOND] == 1 {
            rest += &self.port(&record[memory_field::SECOND_PORT..]);
        }
        self.named("memory", &format!("m{number}"), &record, &rest);
    }

    fn port(&self, port: &[u32]) -> String {
        let mut text = format!(" port raddr {}", self.label(port[0]));
        text += &format!(" rdata {}", self.signal_label(port[1]));
        text += &self.control("renable", port[2], port[3]);
        text += &format!(
            " waddr {} wdata {}",
            self.label(port[4]),
            self.label(port[5])
        );
        text += &self.control("wenable", port[6], port[7]);
        let edge = ["rising", "falling"][usize::from(port[9] != 0)];
        text += &format!(" clock {} {edge}", self.signal_label(port[8]));
        text
    }

    fn control(&self, word: &str, signal: u32, low: u32) -> String {
        if signal == ABSENT {
            return String::new();
        }
        let level = ["high", "low"][usize::from(low != 0)];
        format!(" {word} {} {level}", self.signal_label(signal))
    }

    /// A register or memory: under its own name, a quoted one, or raw.
    fn named(&mut self, sort: &str, label: &str, record: &[u32], rest: &str) {
        let mut candidates = Vec::new();
        let name = self.name(record[0], record[1]).filter(|name| is_name(name));
        if let Some(name) = name.and_then(|name| std::str::from_utf8(name).ok()) {
            candidates.push(format!("{sort} {name}{rest}"));
        }
        for name in self.name_forms(record[0], record[1]) {
            candidates.push(format!("{sort} {label}{name}{rest}"));
        }
        candidates.push(format!("raw {sort}{}", fields(record)));
        self.write(&candidates);
    }
}

/// Whether the records of `made` from `from` on are those of `want`.
fn added<T: PartialEq>(made: &[T], want: &[T], from: usize) -> bool {
    made.len() <= want.len() && made[from..] == want[from..made.len()]
}

fn fields(words: &[u32]) -> String {
    words.iter().fold(String::new(), |text, word| {
        text + " "
            + &if *word == ABSENT {
                "absent".to_string()
            } else {
                word.to_string()
            }
    })
}
