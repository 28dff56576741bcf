//! The assembler: text to image, one record a line. It gives names their
//! numbers and infers widths; it does not judge the image.

use crate::edition::to_edition_1;
use crate::format::*;
use crate::text::{small, tokens, Token};
use std::collections::HashMap;
use std::fmt;

/// What is wrong with a text, and in which line (from 1).
#[derive(Clone, PartialEq, Eq, Debug)]
pub struct AsmError {
    pub line: usize,
    pub message: String,
}

impl fmt::Display for AsmError {
    fn fmt(&self, out: &mut fmt::Formatter) -> fmt::Result {
        write!(out, "line {}: {}", self.line, self.message)
    }
}

impl std::error::Error for AsmError {}

/// Turns a text into the bytes of an image.
pub fn assemble(text: &str) -> Result<Vec<u8>, AsmError> {
    let mut assembler = Assembler::default();
    let mut first = 0;
    let mut joined = String::new();
    for (index, line) in text.lines().enumerate() {
        if joined.is_empty() {
            first = index + 1;
        }
        if let Some(part) = continued(line) {
            joined.push_str(part);
            joined.push(' ');
            continue;
        }
        joined.push_str(line);
        assembler.line(first, &joined).map_err(|message| AsmError {
            line: first,
            message,
        })?;
        joined.clear();
    }
    if !joined.is_empty() {
        return Err(AsmError {
            line: first,
            message: "last line is continued".to_string(),
        });
    }
    assembler
        .finish()
        .map_err(|(line, message)| AsmError { line, message })
}

/// A line that ends with a backslash outside a comment goes on in the next.
fn continued(line: &str) -> Option<&str> {
    let part = line.trim_end().strip_suffix('\\')?;
    (!part.contains('#')).then_some(part)
}

/// What is applied to the bytes once all records are there.
enum Patch {
    Header(usize, u32),
    Truncate(usize),
    Append(Vec<u8>),
}

/// The records so far and the numbers of their names.
#[derive(Default)]
pub struct Assembler {
    pub image: Image,
    pub signals: HashMap<String, u32>,
    pub expressions: HashMap<String, u32>,
    /// Whether the bytes are to be those of edition 1.
    edition_1: bool,
    patches: Vec<(usize, Patch)>,
    number: usize,
}

/// Where a name's bytes lie.
enum NameAt {
    Append(Vec<u8>),
    Stretch(u32, u32),
}

impl Assembler {
    /// Takes one statement, which stands in line `number`.
    pub fn line(&mut self, number: usize, line: &str) -> Result<(), String> {
        self.number = number;
        let tokens = tokens(line)?;
        let mut words = Words {
            tokens: &tokens,
            at: 0,
        };
        if words.ended() {
            return Ok(());
        }
        let statement = words.word("a statement")?;
        match statement.as_str() {
            "wire" => self.signal(&mut words, 0),
            "input" => self.signal(&mut words, 1),
            "output" => self.signal(&mut words, 2),
            "expr" => self.expression(&mut words),
            "assign" => self.assignment(&mut words),
            "register" => self.register(&mut words),
            "memory" => self.memory(&mut words),
            "list" => self.list(&mut words),
            "names" => words.text().map(|bytes| self.image.names.extend(bytes)),
            "raw" => self.raw(&mut words),
            "edition" => self.edition(&mut words),
            "header" | "truncate" | "append" => self.patch(&statement, &mut words),
            other => Err(format!("unknown statement '{other}'")),
        }?;
        words.end()
    }

    /// The bytes of the image, with all patches applied.
    fn finish(self) -> Result<Vec<u8>, (usize, String)> {
        let mut bytes = if self.edition_1 {
            to_edition_1(&self.image)
        } else {
            self.image.encode()
        };
        for (line, patch) in self.patches {
            match patch {
                Patch::Header(field, value) if 4 * field + 4 <= bytes.len() => {
                    set_word(&mut bytes, field, value);
                }
                Patch::Truncate(length) if length <= bytes.len() => bytes.truncate(length),
                Patch::Append(more) => bytes.extend(more),
                _ => return Err((line, "there are not as many bytes".to_string())),
            }
        }
        Ok(bytes)
    }

    // Statements.

    fn signal(&mut self, words: &mut Words, direction: u32) -> Result<(), String> {
        let label = words.new_name(&self.signals)?;
        let width = words.field()?;
        let (offset, length) = self.name(words, &label)?;
        self.signals.insert(label, self.image.signals.len() as u32);
        self.image.signals.push([offset, length, width, direction]);
        Ok(())
    }

    /// Reads `name TEXT` or `name at OFFSET LENGTH`; without it the label is
    /// the name. Names are laid out in the order of the text.
    fn name(&mut self, words: &mut Words, label: &str) -> Result<(u32, u32), String> {
        let name = if !words.take("name") {
            NameAt::Append(label.as_bytes().to_vec())
        } else if words.take("at") {
            NameAt::Stretch(words.field()?, words.field()?)
        } else {
            NameAt::Append(words.text()?)
        };
        Ok(match name {
            NameAt::Stretch(offset, length) => (offset, length),
            NameAt::Append(bytes) => self.image.add_name(bytes).into(),
        })
    }

    fn expression(&mut self, words: &mut Words) -> Result<(), String> {
        let label = words.new_name(&self.expressions)?;
        let width = if words.take_mark(':') {
            Some(words.field()?)
        } else {
            None
        };
        words.mark('=')?;
        let before = self.image.expressions.len();
        let number = self.form(words, width)?;
        if self.image.expressions.len() == before {
            return Err("this names an expression that is there already".to_string());
        }
        self.expressions.insert(label, number);
        Ok(())
    }

    fn assignment(&mut self, words: &mut Words) -> Result<(), String> {
        let signal = self.signal_number(words)?;
        let range = words.range()?;
        let (lsb, width) = match range {
            Some(range) => range,
            None => (0, self.signal_width(signal)?),
        };
        words.mark('=')?;
        let value = self.form(words, None)?;
        self.image.assignments.push([signal, lsb, width, value]);
        Ok(())
    }

    fn register(&mut self, words: &mut Words) -> Result<(), String> {
        let label = words.word("a register's name")?;
        let mut record = [0; 12];
        (record[0], record[1]) = self.name(words, &label)?;
        words.keyword("target")?;
        record[2] = self.signal_number(words)?;
        words.keyword("next")?;
        record[3] = self.operand(words)?;
        words.keyword("clock")?;
        record[4] = self.signal_number(words)?;
        record[5] = words.choice(["rising", "falling"]);
        (record[6], record[7]) = self.control(words, "enable")?;
        (record[8], record[9]) = self.control(words, "reset")?;
        if record[8] != ABSENT {
            record[10] = words.choice(["sync", "async"]);
            words.keyword("value")?;
            record[11] = self.operand(words)?;
        }
        self.image.registers.push(record);
        Ok(())
    }

    fn memory(&mut self, words: &mut Words) -> Result<(), String> {
        let label = words.word("a memory's name")?;
        let mut record = [0; MEMORY_FIELDS];
        (record[0], record[1]) = self.name(words, &label)?;
        words.keyword("depth")?;
        record[memory_field::DEPTH] = words.field()?;
        let width = if words.take("width") {
            Some(words.field()?)
        } else {
            None
        };
        record[memory_field::STYLE] = if words.take("style") {
            words.style()?
        } else {
            0
        };
        record[memory_field::LATENCY] = if words.take("latency") {
            words.field()?
        } else {
            1
        };
        words.keyword("port")?;
        record[memory_field::FIRST_PORT..memory_field::HAS_SECOND].copy_from_slice(&self.port(words)?);
        if words.take("port") {
            record[memory_field::HAS_SECOND] = 1;
            record[memory_field::SECOND_PORT..].copy_from_slice(&self.port(words)?);
        }
        let read_data_width = self.image.read_data_width(&record);
        record[memory_field::WORD_WIDTH] = width.unwrap_or(read_data_width);
        self.image.memories.push(record);
        Ok(())
    }

    fn port(&mut self, words: &mut Words) -> Result<[u32; 10], String> {
        let mut port = [0; 10];
        words.keyword("raddr")?;
        port[0] = self.operand(words)?;
        words.keyword("rdata")?;
        port[1] = self.signal_number(words)?;
        (port[2], port[3]) = self.control(words, "renable")?;
        words.keyword("waddr")?;
        port[4] = self.operand(words)?;
        words.keyword("wdata")?;
        port[5] = self.operand(words)?;
        words.expect("wenable")?;
        (port[6], port[7]) = self.control(words, "wenable")?;
        words.keyword("clock")?;
        port[8] = self.signal_number(words)?;
        port[9] = words.choice(["rising", "falling"]);
        Ok(port)
    }

    /// An optional control: its word, a signal, and `high` or `low`.
    fn control(&mut self, words: &mut Words, keyword: &str) -> Result<(u32, u32), String> {
        if !words.take(keyword) {
            return Ok((ABSENT, 0));
        }
        let signal = self.signal_number(words)?;
        Ok((signal, words.choice(["high", "low"])))
    }

    fn list(&mut self, words: &mut Words) -> Result<(), String> {
        while !words.ended() {
            let word = self.raw_field(words)?;
            self.image.list.push(word);
        }
        Ok(())
    }

    fn raw(&mut self, words: &mut Words) -> Result<(), String> {
        let section = words.word("a section")?;
        match section.as_str() {
            "signal" => {
                let label = words.raw_label(&self.signals)?;
                let record = self.raw_record(words)?;
                self.signals
                    .extend(label.map(|label| (label, self.image.signals.len() as u32)));
                self.image.signals.push(record);
            }
            "expr" => {
                let label = words.raw_label(&self.expressions)?;
                let record = self.raw_record(words)?;
                let number = self.image.expressions.len() as u32;
                self.expressions.extend(label.map(|label| (label, number)));
                self.image.expressions.push(record);
            }
            "assign" => {
                let record = self.raw_record(words)?;
                self.image.assignments.push(record);
            }
            "register" => {
                let record = self.raw_record(words)?;
                self.image.registers.push(record);
            }
            "memory" => {
                let record = self.raw_record(words)?;
                self.image.memories.push(record);
            }
            other => return Err(format!("no raw record '{other}'")),
        }
        Ok(())
    }

    fn raw_record<const FIELDS: usize>(&self, words: &mut Words) -> Result<[u32; FIELDS], String> {
        let mut record = [0; FIELDS];
        for (field, value) in record.iter_mut().enumerate() {
            if words.ended() {
                return Err(format!("{field} fields where {FIELDS} are due"));
            }
            *value = self.raw_field(words)?;
        }
        Ok(record)
    }

    /// A number, `absent`, or the number of a named expression or signal.
    fn raw_field(&self, words: &mut Words) -> Result<u32, String> {
        let Some(Token::Word(word)) = words.peek().cloned() else {
            return words.field();
        };
        words.at += 1;
        if word == "absent" {
            return Ok(ABSENT);
        }
        let known = self
            .expressions
            .get(&word)
            .or_else(|| self.signals.get(&word));
        known.copied().ok_or(format!("nothing is named '{word}'"))
    }

    /// The edition of the bytes: 2 where no statement says otherwise.
    fn edition(&mut self, words: &mut Words) -> Result<(), String> {
        match words.field()? {
            1 => self.edition_1 = true,
            EDITION => self.edition_1 = false,
            other => return Err(format!("there is no edition {other}")),
        }
        Ok(())
    }

    fn patch(&mut self, statement: &str, words: &mut Words) -> Result<(), String> {
        let patch = match statement {
            "header" => Patch::Header(words.field()? as usize, words.value()?),
            "truncate" => Patch::Truncate(words.field()? as usize),
            _ => Patch::Append(words.text()?),
        };
        if matches!(patch, Patch::Header(field, _) if field >= HEADER_FIELDS) {
            return Err("the header has fields 0 to 15".to_string());
        }
        self.patches.push((self.number, patch));
        Ok(())
    }

    // Expressions.

    /// A form at the end of a statement or inside parentheses.
    fn form(&mut self, words: &mut Words, width: Option<u32>) -> Result<u32, String> {
        let head = match words.peek() {
            Some(Token::Word(word)) if is_reserved(word) => word.clone(),
            _ => return self.plain(words, width),
        };
        words.at += 1;
        match head.as_str() {
            "signal" => {
                let signal = self.signal_number(words)?;
                self.read(words, signal, width)
            }
            "const" => self.constant(words, width),
            "mux" => self.mux(words, width),
            "concat" => self.concat(words, width),
            "slice" => self.slice(words, width),
            "at" | "absent" => Err(format!("'{head}' does not begin an expression")),
            _ => self.operator(words, &head, width),
        }
    }

    /// An operand in its own line, or with a width that overrides its own.
    fn plain(&mut self, words: &mut Words, width: Option<u32>) -> Result<u32, String> {
        let number = self.operand(words)?;
        if let Some(width) = width {
            let record = self.image.expressions.get_mut(number as usize);
            record.ok_or("no such expression")?[1] = width;
        }
        Ok(number)
    }

    /// A name, a name with a range, a constant, a number or a form in
    /// parentheses. All but names and numbers make a record of their own.
    fn operand(&mut self, words: &mut Words) -> Result<u32, String> {
        match words.next("an expression")? {
            Token::Record(number) => Ok(number),
            Token::Literal(width, limbs) => self.constant_record(width, &limbs),
            Token::Mark('(') => {
                let number = self.form(words, None)?;
                words.mark(')')?;
                self.taken(words, number)
            }
            Token::Word(word) if is_reserved(&word) => {
                Err(format!("'{word}' needs parentheses here"))
            }
            Token::Word(word) => match (self.expressions.get(&word), self.signals.get(&word)) {
                (Some(&number), _) => self.taken(words, number),
                (None, Some(&signal)) => self.read(words, signal, None),
                (None, None) => Err(format!("nothing is named '{word}'")),
            },
            _ => Err("here should be an expression".to_string()),
        }
    }

    /// The expression itself, or a slice of it if a range follows.
    fn taken(&mut self, words: &mut Words, number: u32) -> Result<u32, String> {
        match words.range()? {
            None => Ok(number),
            Some((lsb, width)) => Ok(self.push([kind::SLICE, width, number, lsb, 0])),
        }
    }

    fn read(&mut self, words: &mut Words, signal: u32, width: Option<u32>) -> Result<u32, String> {
        let (lsb, own) = match words.range()? {
            Some(range) => range,
            None => (0, width.map_or_else(|| self.signal_width(signal), Ok)?),
        };
        Ok(self.push([kind::SIGNAL, width.unwrap_or(own), signal, lsb, 0]))
    }

    fn constant(&mut self, words: &mut Words, width: Option<u32>) -> Result<u32, String> {
        let own = words.field()?;
        if words.take("at") {
            let start = words.field()?;
            return Ok(self.push([kind::CONSTANT, width.unwrap_or(own), start, 0, 0]));
        }
        let number = match words.next("a value")? {
            Token::Number(limbs) => self.constant_record(own, &limbs)?,
            _ => return Err("here should be a value".to_string()),
        };
        self.image.expressions[number as usize][1] = width.unwrap_or(own);
        Ok(number)
    }

    fn constant_record(&mut self, width: u32, limbs: &[u64]) -> Result<u32, String> {
        let start = self.image.list.len() as u32;
        let room = constant_words(width) / 2;
        if limbs.iter().skip(room).any(|limb| *limb != 0) || room > MOST[LIST] {
            return Err(format!("the value does not fit {width} bits"));
        }
        for limb in 0..room {
            let value = limbs.get(limb).copied().unwrap_or(0);
            self.image.list.push(value as u32);
            self.image.list.push((value >> 32) as u32);
        }
        Ok(self.push([kind::CONSTANT, width, start, 0, 0]))
    }

    fn operator(
        &mut self,
        words: &mut Words,
        head: &str,
        width: Option<u32>,
    ) -> Result<u32, String> {
        if let Some(op) = UNARY_OPS.iter().position(|name| *name == head) {
            let input = self.operand(words)?;
            let own = if op == 0 { self.width(input) } else { Some(1) };
            let width = inferred(width.or(own))?;
            return Ok(self.push([kind::UNARY, width, op as u32, input, 0]));
        }
        let position = BINARY_OPS.iter().position(|name| *name == head);
        let op = position.ok_or(format!("unknown operator '{head}'"))? as u32;
        let lhs = self.operand(words)?;
        let rhs = self.operand(words)?;
        let own = match binary_class(op) {
            BinaryClass::Compare => Some(1),
            BinaryClass::Equal | BinaryClass::Shift => self.width(lhs),
        };
        let width = inferred(width.or(own))?;
        Ok(self.push([kind::BINARY, width, op, lhs, rhs]))
    }

    fn mux(&mut self, words: &mut Words, width: Option<u32>) -> Result<u32, String> {
        let condition = self.operand(words)?;
        let then = self.operand(words)?;
        let otherwise = self.operand(words)?;
        let width = inferred(width.or(self.width(then)))?;
        Ok(self.push([kind::MUX, width, condition, then, otherwise]))
    }

    fn concat(&mut self, words: &mut Words, width: Option<u32>) -> Result<u32, String> {
        if words.take("at") {
            let (start, count) = (words.field()?, words.field()?);
            return Ok(self.push([kind::CONCAT, inferred(width)?, start, count, 0]));
        }
        let mut parts = Vec::new();
        while !words.ended() && !words.is_mark(')') {
            parts.push(self.operand(words)?);
        }
        let own: Option<u32> = parts.iter().map(|part| self.width(*part)).sum();
        let start = self.image.list.len() as u32;
        let width = inferred(width.or(own))?;
        self.image.list.extend_from_slice(&parts);
        Ok(self.push([kind::CONCAT, width, start, parts.len() as u32, 0]))
    }

    fn slice(&mut self, words: &mut Words, width: Option<u32>) -> Result<u32, String> {
        let input = self.operand(words)?;
        let (high, lsb) = (words.field()?, words.field()?);
        let own = range_of(high, lsb)?.1;
        Ok(self.push([kind::SLICE, width.unwrap_or(own), input, lsb, 0]))
    }

    fn push(&mut self, record: [u32; 5]) -> u32 {
        self.image.expressions.push(record);
        self.image.expressions.len() as u32 - 1
    }

    fn width(&self, expression: u32) -> Option<u32> {
        Some(self.image.expressions.get(expression as usize)?[1])
    }

    fn signal_width(&self, signal: u32) -> Result<u32, String> {
        let record = self.image.signals.get(signal as usize);
        record
            .map(|record| record[2])
            .ok_or("no such signal, so no width".to_string())
    }

    fn signal_number(&self, words: &mut Words) -> Result<u32, String> {
        match words.next("a signal")? {
            Token::Record(number) => Ok(number),
            Token::Word(word) => self
                .signals
                .get(&word)
                .copied()
                .ok_or(format!("no signal is named '{word}'")),
            _ => Err("here should be a signal".to_string()),
        }
    }
}

fn inferred(width: Option<u32>) -> Result<u32, String> {
    width.ok_or("the width does not follow, write it as ': WIDTH'".to_string())
}

/// Words that begin an expression and therefore name nothing.
pub fn is_reserved(word: &str) -> bool {
    matches!(
        word,
        "signal" | "const" | "mux" | "concat" | "slice" | "at" | "absent"
    ) || UNARY_OPS.contains(&word)
        || BINARY_OPS.contains(&word)
}

/// Lowest bit and width of the range from `high` down to `low`.
fn range_of(high: u32, low: u32) -> Result<(u32, u32), String> {
    let width = high
        .checked_sub(low)
        .and_then(|distance| distance.checked_add(1));
    width
        .map(|width| (low, width))
        .ok_or(format!("range {high}:{low} is upside down"))
}

/// A line's tokens and how far they have been read.
struct Words<'a> {
    tokens: &'a [Token],
    at: usize,
}

impl Words<'_> {
    fn peek(&self) -> Option<&Token> {
        self.tokens.get(self.at)
    }

    fn next(&mut self, wanted: &str) -> Result<Token, String> {
        let token = self
            .peek()
            .cloned()
            .ok_or(format!("the line ends where {wanted} is due"))?;
        self.at += 1;
        Ok(token)
    }

    fn ended(&self) -> bool {
        self.at == self.tokens.len()
    }

    fn end(&self) -> Result<(), String> {
        match self.peek() {
            None => Ok(()),
            Some(Token::Word(word)) => Err(format!("'{word}' is too much or in the wrong place")),
            Some(_) => Err("the line goes on after its end".to_string()),
        }
    }

    fn word(&mut self, wanted: &str) -> Result<String, String> {
        match self.next(wanted)? {
            Token::Word(word) => Ok(word),
            _ => Err(format!("here should be {wanted}")),
        }
    }

    fn new_name(&mut self, known: &HashMap<String, u32>) -> Result<String, String> {
        let name = self.word("a name")?;
        if is_reserved(&name) {
            return Err(format!("'{name}' cannot be a name"));
        }
        if known.contains_key(&name) {
            return Err(format!("'{name}' is there already"));
        }
        Ok(name)
    }

    /// A raw record's optional `NAME =`.
    fn raw_label(&mut self, known: &HashMap<String, u32>) -> Result<Option<String>, String> {
        if self.tokens.get(self.at + 1) != Some(&Token::Mark('=')) {
            return Ok(None);
        }
        let name = self.new_name(known)?;
        self.mark('=')?;
        Ok(Some(name))
    }

    fn text(&mut self) -> Result<Vec<u8>, String> {
        match self.next("a text in quotes")? {
            Token::Text(bytes) => Ok(bytes),
            _ => Err("here should be a text in quotes".to_string()),
        }
    }

    fn field(&mut self) -> Result<u32, String> {
        match self.next("a number")? {
            Token::Number(limbs) => small(&limbs),
            _ => Err("here should be a number".to_string()),
        }
    }

    /// A number or `absent`.
    fn value(&mut self) -> Result<u32, String> {
        if self.take("absent") {
            return Ok(ABSENT);
        }
        self.field()
    }

    fn is_word(&self, word: &str) -> bool {
        matches!(self.peek(), Some(Token::Word(found)) if found == word)
    }

    fn take(&mut self, word: &str) -> bool {
        let found = self.is_word(word);
        self.at += usize::from(found);
        found
    }

    fn expect(&self, word: &str) -> Result<(), String> {
        if self.is_word(word) {
            Ok(())
        } else {
            Err(format!("here should be '{word}'"))
        }
    }

    fn keyword(&mut self, word: &str) -> Result<(), String> {
        self.expect(word)?;
        self.at += 1;
        Ok(())
    }

    /// The position of the word that follows; none of them stands for the first.
    fn choice(&mut self, of: [&str; 2]) -> u32 {
        if self.take(of[1]) {
            return 1;
        }
        self.take(of[0]);
        0
    }

    fn style(&mut self) -> Result<u32, String> {
        let style = self.word("a style")?;
        let position = STYLES.iter().position(|name| *name == style);
        position
            .map(|style| style as u32)
            .ok_or(format!("no style '{style}'"))
    }

    fn is_mark(&self, mark: char) -> bool {
        self.peek() == Some(&Token::Mark(mark))
    }

    fn take_mark(&mut self, mark: char) -> bool {
        let found = self.is_mark(mark);
        self.at += usize::from(found);
        found
    }

    fn mark(&mut self, mark: char) -> Result<(), String> {
        if self.take_mark(mark) {
            Ok(())
        } else {
            Err(format!("here should be '{mark}'"))
        }
    }

    /// An optional range `[HIGH:LOW]` or `[BIT]`, as lowest bit and width.
    fn range(&mut self) -> Result<Option<(u32, u32)>, String> {
        if !self.take_mark('[') {
            return Ok(None);
        }
        let high = self.field()?;
        let low = if self.take_mark(':') {
            self.field()?
        } else {
            high
        };
        self.mark(']')?;
        range_of(high, low).map(Some)
    }
}
