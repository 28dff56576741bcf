//! A VCD as a trace: a line at the start, and one for each time at which a value
//! of an input stands. Values in a checkpoint ($dumpvars, $dumpall, $dumpon) count
//! where they differ. Variables are found by name, in a scope or in any.

use crate::trace::arguments::FromVcd;
use crate::trace::ports::{Port, binary};
use std::collections::HashMap;
use std::io::{BufRead, Error, Read, Result as Io};

/// A VCD that is read as the lines of a trace.
pub struct VcdTrace<R> {
    words: Words<R>,
    unknown_is_0: bool,
    inputs: Vec<Input>,
    /// The inputs that a variable's code is the value of.
    by_code: HashMap<Vec<u8>, Vec<usize>>,
    time: u64,
    now: Now,
    /// A line was given.
    is_started: bool,
    is_at_end: bool,
    /// Bytes of the line that is being given.
    line: Vec<u8>,
    given: usize,
}

/// An input and its value so far: characters, bit 0 first.
struct Input {
    port: Port,
    value: Vec<u8>,
}

/// What has been met at the present time.
#[derive(Default)]
struct Now {
    any_value: bool,
    input_value: bool,
    in_checkpoint: bool,
}

/// A variable that is declared.
struct Variable {
    scope: String,
    name: Vec<u8>,
    width: usize,
    code: Vec<u8>,
}

impl<R: BufRead> VcdTrace<R> {
    /// Reads the declarations and finds the inputs among them.
    ///
    /// # Errors
    ///
    /// Says what is no VCD, which input is missing, found twice or of another width.
    pub fn new(from: R, wish: &FromVcd, inputs: &[Port]) -> Result<VcdTrace<R>, String> {
        let mut words = Words { from, word: Vec::new() };
        let variables = declarations(&mut words).map_err(|error| error.to_string())?;
        let mut by_code: HashMap<Vec<u8>, Vec<usize>> = HashMap::new();
        for (number, port) in inputs.iter().enumerate() {
            let variable = variable_of(&variables, port, wish.scope.as_deref())?;
            by_code.entry(variable.code.clone()).or_default().push(number);
        }
        let input = |port: &Port| Input { port: port.clone(), value: vec![b'x'; port.width] };
        Ok(VcdTrace {
            words,
            unknown_is_0: wish.unknown_is_0,
            inputs: inputs.iter().map(input).collect(),
            by_code,
            time: 0,
            now: Now::default(),
            is_started: false,
            is_at_end: false,
            line: Vec::new(),
            given: 0,
        })
    }

    /// Reads up to the end of a time that gives a line; false at the end.
    fn next_line(&mut self) -> Io<bool> {
        while !self.is_at_end {
            let is_line = match self.words.next()? {
                false => {
                    self.is_at_end = true;
                    self.time_ends()?
                }
                true if self.words.word[0] == b'#' => self.next_time()?,
                true => self.command_or_value().map(|()| false)?,
            };
            if is_line {
                return Ok(true);
            }
        }
        Ok(false)
    }

    fn next_time(&mut self) -> Io<bool> {
        let text = String::from_utf8_lossy(&self.words.word[1..]).into_owned();
        let time: u64 = text.parse().map_err(|_| self.wrong(&format!("#{text} is no time")))?;
        if time < self.time {
            return Err(self.wrong(&format!("time {time} stands behind it")));
        }
        // Values before the first time stand at time 0.
        let is_line = time > self.time && self.time_ends()?;
        self.time = time;
        Ok(is_line)
    }

    /// Makes the line of the time that ends, if it gives one.
    fn time_ends(&mut self) -> Io<bool> {
        let is_start = !self.is_started && self.now.any_value;
        let is_line = is_start || self.is_started && self.now.input_value;
        self.now = Now::default();
        if !is_line {
            return Ok(false);
        }
        self.is_started = true;
        self.line.clear();
        self.given = 0;
        for input in &self.inputs {
            let is_known = input.value.iter().all(|bit| b"01".contains(bit));
            if !is_known && !self.unknown_is_0 {
                let (name, value) = (&input.port.name, binary(&input.value));
                return Err(self.wrong(&format!("{name} is {value}, and each bit must be 0 or 1; --unknown 0 reads others as 0")));
            }
            self.line.extend(input.value.iter().map(|bit| if *bit == b'1' { b'1' } else { b'0' }));
        }
        self.line.push(b'\n');
        Ok(true)
    }

    fn command_or_value(&mut self) -> Io<()> {
        let word = self.words.word.clone();
        match word[0] {
            b'$' => match &word[..] {
                b"$dumpvars" | b"$dumpall" | b"$dumpon" | b"$dumpoff" => self.now.in_checkpoint = true,
                b"$end" => self.now.in_checkpoint = false,
                _ => self.words.skip_to_end()?,
            },
            b'b' | b'B' | b'r' | b'R' | b's' | b'S' => {
                let is_vector = b"bB".contains(&word[0]);
                if !self.words.next()? {
                    return Err(self.wrong("it ends in a value"));
                }
                let code = self.words.word.clone();
                self.value(&code, if is_vector { &word[1..] } else { b"" })?;
            }
            _ => self.value(&word[1..], &word[..1])?,
        }
        Ok(())
    }

    /// A variable's value; none that has no bits is an input's.
    fn value(&mut self, code: &[u8], value: &[u8]) -> Io<()> {
        self.now.any_value = true;
        for &number in self.by_code.get(code).map_or(&[][..], Vec::as_slice) {
            let width = self.inputs[number].port.width;
            let is_word = value.iter().all(|bit| b"01xXzZuUwWlLhH-".contains(bit));
            if value.is_empty() || value.len() > width || !is_word {
                let (name, value) = (&self.inputs[number].port.name, String::from_utf8_lossy(value));
                return Err(self.wrong(&format!("{name} has width {width} and is given the value {value:?}")));
            }
            // A short value goes on to the left with 0, or with its first unknown bit.
            let above = if b"01".contains(&value[0]) { b'0' } else { value[0] };
            let word: Vec<u8> = value.iter().rev().copied().chain(std::iter::repeat(above)).take(width).collect();
            let counts = !self.now.in_checkpoint || self.inputs[number].value != word;
            self.now.input_value |= counts;
            self.inputs[number].value = word;
        }
        Ok(())
    }

    fn wrong(&self, problem: &str) -> Error {
        Error::other(format!("at time {}: {problem}", self.time))
    }
}

impl<R: BufRead> Read for VcdTrace<R> {
    fn read(&mut self, buffer: &mut [u8]) -> Io<usize> {
        if self.given == self.line.len() && !self.next_line()? {
            return Ok(0);
        }
        let count = buffer.len().min(self.line.len() - self.given);
        buffer[..count].copy_from_slice(&self.line[self.given..][..count]);
        self.given += count;
        Ok(count)
    }
}

/// All variables, up to the end of the declarations.
fn declarations(words: &mut Words<impl BufRead>) -> Io<Vec<Variable>> {
    let mut variables = Vec::new();
    let mut scopes: Vec<String> = Vec::new();
    loop {
        if !words.next()? {
            return Err(Error::other("no VCD: it has no $enddefinitions"));
        }
        let command = words.word.clone();
        let body = if command.starts_with(b"$") && command != b"$end" { words.up_to_end()? } else { Vec::new() };
        let text = |at: usize| body.get(at).map(|word| String::from_utf8_lossy(word).into_owned());
        match &command[..] {
            b"$scope" => scopes.push(text(1).unwrap_or_default()),
            b"$upscope" => drop(scopes.pop()),
            b"$var" => {
                let width = text(1).and_then(|width| width.parse().ok());
                let (Some(width), Some(code), Some(name)) = (width, body.get(2), body.get(3)) else {
                    return Err(Error::other("no VCD: a $var has no width, code and name"));
                };
                variables.push(Variable { scope: scopes.join("."), name: name.clone(), width, code: code.clone() });
            }
            b"$enddefinitions" => return Ok(variables),
            _ => {}
        }
    }
}

/// The one variable that is an input's.
fn variable_of<'a>(variables: &'a [Variable], port: &Port, scope: Option<&str>) -> Result<&'a Variable, String> {
    let is_meant = |variable: &&Variable| scope.is_none_or(|scope| variable.scope == scope) && variable.is_called(&port.name);
    let found: Vec<&Variable> = variables.iter().filter(is_meant).collect();
    let name = &port.name;
    let Some(first) = found.first() else {
        let place = scope.map_or(String::new(), |scope| format!(" in scope {scope}"));
        return Err(format!("there is no variable {name}{place}, and {name} is an input"));
    };
    if let Some(other) = found.iter().find(|variable| variable.code != first.code) {
        return Err(format!("{name} is a variable in scope {} and another in scope {}: --scope names one", first.scope, other.scope));
    }
    if first.width != port.width {
        return Err(format!("{name} has width {} there, and the input has width {}", first.width, port.width));
    }
    Ok(first)
}

impl Variable {
    /// Whether it has this name: with or without its range, or behind a backslash,
    /// which stands before a name that is no simple identifier.
    fn is_called(&self, name: &str) -> bool {
        let behind = self.name.strip_prefix(name.as_bytes());
        match self.name.strip_prefix(b"\\") {
            Some(own) => own == name.as_bytes(),
            None => behind.is_some_and(|behind| behind.is_empty() || is_range(behind)),
        }
    }
}

/// `[1:0]` and the like.
fn is_range(text: &[u8]) -> bool {
    let inside = text.strip_prefix(b"[").and_then(|text| text.strip_suffix(b"]"));
    inside.is_some_and(|inside| inside.contains(&b':') && inside.iter().all(|byte| byte.is_ascii_digit() || *byte == b':'))
}

/// The words of a VCD, between blanks and line ends.
struct Words<R> {
    from: R,
    word: Vec<u8>,
}

impl<R: BufRead> Words<R> {
    /// Reads the next word; false at the end.
    fn next(&mut self) -> Io<bool> {
        self.word.clear();
        loop {
            let buffer = self.from.fill_buf()?;
            if buffer.is_empty() {
                return Ok(!self.word.is_empty());
            }
            let blanks = if self.word.is_empty() { buffer.iter().take_while(|byte| byte.is_ascii_whitespace()).count() } else { 0 };
            let letters = buffer[blanks..].iter().take_while(|byte| !byte.is_ascii_whitespace()).count();
            self.word.extend(&buffer[blanks..blanks + letters]);
            let is_ended = blanks + letters < buffer.len() && !self.word.is_empty();
            self.from.consume(blanks + letters);
            if is_ended {
                return Ok(true);
            }
        }
    }

    fn up_to_end(&mut self) -> Io<Vec<Vec<u8>>> {
        let mut words = Vec::new();
        while self.next()? && self.word != b"$end" {
            words.push(self.word.clone());
        }
        Ok(words)
    }

    fn skip_to_end(&mut self) -> Io<()> {
        while self.next()? && self.word != b"$end" {}
        Ok(())
    }
}
