//! A run as a VCD: a variable for each port, a unit of time for each settings line
//! of its history.
//!
//! Reading it gives the same lines: where no input of a line changes, its first
//! is written once more (see `reading`).
//!
//! The lines after a `back` are of another run, which has a scope of its own within
//! that of the first, and values from the moment gone back to. Where there are such
//! runs, the file is written anew at the end.

use super::endings::Endings;
use crate::trace::history::Moment;
use crate::trace::named::{Named, Verb};
use crate::trace::ports::{Port, Ports, binary, words_of};
use crate::trace::records::Record;
use std::fs::File;
use std::io::{BufWriter, Error, Read, Result as Io, Seek, SeekFrom, Write};

pub struct VcdWriter {
    file: String,
    to: BufWriter<File>,
    scope: String,
    ports: Ports,
    /// The run that the next line is of.
    run: Run,
    /// The runs before it.
    ended: Vec<Run>,
    endings: Endings,
}

/// Where a run stands.
#[derive(Default)]
struct Run {
    /// The number of its first variable.
    first: usize,
    /// The time of its next line.
    time: u64,
    /// Its line before, inputs then outputs.
    before: [Vec<u8>; 2],
}

impl VcdWriter {
    /// Makes the file.
    ///
    /// # Errors
    ///
    /// It cannot be made.
    pub fn new(file: &str, scope: &str, ports: &Ports) -> Io<VcdWriter> {
        Ok(VcdWriter {
            file: file.to_string(),
            to: BufWriter::new(File::create(file)?),
            scope: scope.to_string(),
            ports: ports.clone(),
            run: Run::default(),
            ended: Vec::new(),
            endings: Endings::default(),
        })
    }

    /// The declarations of the first run's scope and of these within it.
    fn header(&self, endings: &[String]) -> String {
        let unit = match endings {
            [] => "One unit of time is one line of the trace.",
            _ => "One unit of time is one settings line of a run's history. NAME_1 is the run after the first back, to NAME.",
        };
        let mut text = format!("$comment {unit} $end\n$timescale 1 ns $end\n$scope module {} $end\n{}", self.scope, self.variables(0));
        for (scope, number) in endings.iter().zip(1..) {
            text += &format!("$scope module {scope} $end\n{}$upscope $end\n", self.variables(self.first_variable(number)));
        }
        text + "$upscope $end\n$enddefinitions $end\n"
    }

    /// The variables of a run, numbered from its first.
    fn variables(&self, first: usize) -> String {
        let variable = |(port, number): (&Port, usize)| {
            let range = if port.width == 1 { String::new() } else { format!(" [{}:0]", port.width - 1) };
            format!("$var wire {} {} {}{range} $end\n", port.width, code(number), reference(&port.name))
        };
        self.ports.inputs.iter().chain(&self.ports.outputs).zip(first..).map(variable).collect()
    }

    /// The number of the first variable of the run after so many backs.
    fn first_variable(&self, backs: usize) -> usize {
        backs * (self.ports.inputs.len() + self.ports.outputs.len())
    }

    /// Begins the run after a `back`, with the values of its moment.
    fn begin(&mut self, scope: String, moment: &Moment) -> Io<()> {
        if !self.to.get_ref().metadata()?.is_file() {
            return Err(Error::other("with a back in the trace a VCD is written anew at the end, which only a plain file can be"));
        }
        self.endings.scopes.push(scope);
        let run = Run { first: self.first_variable(self.endings.scopes.len()), time: moment.time, ..Run::default() };
        self.ended.push(std::mem::replace(&mut self.run, run));
        self.line(&moment.inputs, &moment.outputs)
    }

    /// Writes the first run's values again, with those of the others among them; it
    /// is longer than what was written.
    fn write_anew(&mut self) -> Io<()> {
        self.to.flush()?;
        let mut first_run = Vec::new();
        let mut written = File::open(&self.file)?;
        written.seek(SeekFrom::Start(self.header(&[]).len() as u64))?;
        written.read_to_end(&mut first_run)?;
        self.to.rewind()?;
        let header = self.header(&self.endings.scopes);
        self.to.write_all(header.as_bytes())?;
        self.endings.write(&first_run, &mut self.to)
    }

    /// Makes the outputs of each run unknown after its last line, where another run
    /// goes on; the end of the longest.
    fn ends(&mut self) -> Io<u64> {
        let runs = || self.ended.iter().chain([&self.run]);
        let end = runs().map(|run| run.time).max().unwrap_or(0);
        for run in runs().filter(|run| run.time < end) {
            let values = self.endings.at(run.time);
            for (port, number) in self.ports.outputs.iter().zip(run.first + self.ports.inputs.len()..) {
                value(values, port, &vec![b'x'; port.width], number)?;
            }
        }
        Ok(end)
    }
}

impl Run {
    /// Writes the values of a line that differ from those before it; all, where
    /// there are none before.
    fn values(&mut self, ports: &Ports, inputs: &[u8], outputs: &[u8], to: &mut impl Write) -> Io<()> {
        let is_same = self.before[0] == inputs;
        let sides = [(&ports.inputs, inputs), (&ports.outputs, outputs)];
        let mut number = self.first;
        for ((side, line), before) in sides.into_iter().zip(&mut self.before) {
            let old = if before.is_empty() { line } else { &before[..] };
            for ((port, word), (_, old)) in words_of(side, line).zip(words_of(side, old)) {
                let is_again = is_same && number == self.first && !ports.inputs.is_empty();
                if before.is_empty() || word != old || is_again {
                    value(to, port, word, number)?;
                }
                number += 1;
            }
            *before = line.to_vec();
        }
        self.time += 1;
        Ok(())
    }
}

impl Record for VcdWriter {
    fn line(&mut self, inputs: &[u8], outputs: &[u8]) -> Io<()> {
        let time = self.run.time;
        if !self.ended.is_empty() {
            return self.run.values(&self.ports, inputs, outputs, self.endings.at(time));
        }
        let is_first = time == 0;
        if is_first {
            let header = self.header(&[]);
            self.to.write_all(header.as_bytes())?;
        }
        writeln!(self.to, "#{time}")?;
        if is_first {
            writeln!(self.to, "$dumpvars")?;
        }
        self.run.values(&self.ports, inputs, outputs, &mut self.to)?;
        if is_first { writeln!(self.to, "$end") } else { Ok(()) }
    }

    fn named(&mut self, line: &Named, moment: &Moment) -> Io<()> {
        match line.verb {
            Verb::Keep => Ok(()),
            Verb::Back => self.begin(line.ending(self.endings.scopes.len() + 1), moment),
        }
    }

    fn flush(&mut self) -> Io<()> {
        self.to.flush()
    }

    /// The last line lasts a unit of time too.
    fn end(&mut self) -> Io<()> {
        if self.run.time == 0 {
            let header = self.header(&[]);
            self.to.write_all(header.as_bytes())?;
        }
        let end = self.ends()?;
        if !self.ended.is_empty() {
            self.write_anew()?;
        }
        writeln!(self.to, "#{end}")?;
        self.flush()
    }
}

fn value(to: &mut impl Write, port: &Port, word: &[u8], number: usize) -> Io<()> {
    match port.width {
        1 => writeln!(to, "{}{}", char::from(word[0]), code(number)),
        _ => writeln!(to, "b{} {}", binary(word), code(number)),
    }
}

/// The short code of a variable: digits from `!` to `~`.
fn code(number: usize) -> String {
    let digit = char::from(b'!' + (number % 94) as u8);
    if number < 94 { digit.to_string() } else { format!("{digit}{}", code(number / 94 - 1)) }
}

/// A name as it stands in a VCD: one that is no simple identifier begins with a
/// backslash.
fn reference(name: &str) -> String {
    let is_simple = name.bytes().all(|byte| byte.is_ascii_alphanumeric() || b"_$".contains(&byte));
    let begins_well = name.bytes().next().is_some_and(|byte| byte.is_ascii_alphabetic() || byte == b'_');
    if is_simple && begins_well { name.to_string() } else { format!("\\{name}") }
}
