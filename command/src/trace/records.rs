//! What is written of a run, line by line: the output bits, and the trace, a
//! table, a VCD and a drawing where they are asked for.

use super::arguments::Wish;
use super::history::Moment;
use super::named::Named;
use super::ports::Ports;
use super::svg::Svg;
use super::table::Table;
use super::vcd::writing::VcdWriter;
use std::fs::File;
use std::io::{BufWriter, Error, ErrorKind, Result as Io, Write, stdout};
use std::path::Path;

/// What is made of each settings line's input and output bits, and of the lines
/// between them.
pub trait Record {
    /// # Errors
    ///
    /// Writing failed.
    fn line(&mut self, inputs: &[u8], outputs: &[u8]) -> Io<()>;

    /// A line `keep` or `back`, and the moment that is kept or gone back to.
    ///
    /// # Errors
    ///
    /// Writing failed.
    fn named(&mut self, line: &Named, moment: &Moment) -> Io<()>;

    /// Shows what was written so far.
    ///
    /// # Errors
    ///
    /// Writing failed.
    fn flush(&mut self) -> Io<()>;

    /// After the last line.
    ///
    /// # Errors
    ///
    /// Writing failed.
    fn end(&mut self) -> Io<()> {
        self.flush()
    }
}

/// A record, and the file that it goes to.
pub struct Written {
    file: String,
    record: Box<dyn Record>,
}

/// Why a record cannot be written.
#[derive(Debug)]
pub enum NotWritten {
    /// A reader that has gone away has seen enough.
    Gone,
    Problem(String),
}

impl Written {
    /// Does something with the record.
    ///
    /// # Errors
    ///
    /// Says why it cannot be written.
    pub fn with(&mut self, work: impl Fn(&mut dyn Record) -> Io<()>) -> Result<(), NotWritten> {
        work(self.record.as_mut()).map_err(|error| match error.kind() {
            ErrorKind::BrokenPipe => NotWritten::Gone,
            _ => NotWritten::Problem(problem(&self.file, &error)),
        })
    }
}

fn problem(file: &str, error: &Error) -> String {
    format!("{file}: {error}")
}

/// The bits of one side, as the program reads or prints them.
struct Bits<W> {
    to: W,
    are_inputs: bool,
}

impl<W: Write> Record for Bits<W> {
    fn line(&mut self, inputs: &[u8], outputs: &[u8]) -> Io<()> {
        self.to.write_all(if self.are_inputs { inputs } else { outputs })?;
        self.to.write_all(b"\n")
    }

    /// It has no outputs.
    fn named(&mut self, line: &Named, _: &Moment) -> Io<()> {
        if self.are_inputs { writeln!(self.to, "{line}") } else { Ok(()) }
    }

    fn flush(&mut self) -> Io<()> {
        self.to.flush()
    }
}

/// All that a wish asks for, the files made.
///
/// # Errors
///
/// Says which file cannot be made.
pub fn wished(wish: &Wish, ports: &Ports) -> Result<Vec<Written>, String> {
    let made = |file: &String| File::create(file).map(BufWriter::new).map_err(|error| problem(file, &error));
    let mut all = Vec::new();
    let mut add = |file: &str, record: Box<dyn Record>| all.push(Written { file: file.to_string(), record });
    let printed = BufWriter::new(stdout());
    if wish.table {
        add("standard output", Box::new(Table::new(printed, ports)));
    } else if wish.output.is_none() {
        add("standard output", Box::new(Bits { to: printed, are_inputs: false }));
    }
    if let Some(file) = &wish.output {
        add(file, Box::new(Bits { to: made(file)?, are_inputs: false }));
    }
    if let Some(file) = &wish.trace_out {
        add(file, Box::new(Bits { to: made(file)?, are_inputs: true }));
    }
    if let Some(file) = &wish.vcd {
        let vcd = VcdWriter::new(file, &scope_of(&wish.file), ports).map_err(|error| problem(file, &error))?;
        add(file, Box::new(vcd));
    }
    if let Some(file) = &wish.svg {
        add(file, Box::new(Svg::new(made(file)?, ports)));
    }
    Ok(all)
}

/// The scope of a module's signals: its file's name without its ending, where
/// that is a name.
fn scope_of(file: &str) -> String {
    let stem = Path::new(file).file_stem().and_then(|stem| stem.to_str()).unwrap_or("");
    let is_name = !stem.is_empty() && stem.bytes().all(|byte| byte.is_ascii_alphanumeric() || b"_-".contains(&byte));
    if is_name && stem != "-" { stem.to_string() } else { "module".to_string() }
}
