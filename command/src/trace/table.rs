//! A table of the lines: a column for each port, vectors in hexadecimal. A line
//! `keep` or `back` stands there as it is.

use super::history::Moment;
use super::named::Named;
use super::ports::{Port, Ports, hexadecimal, words_of};
use super::records::Record;
use std::io::{Result as Io, Write};

/// Digits of a line's number before columns move to the right.
const NUMBER: usize = 5;

pub struct Table<W> {
    to: W,
    ports: Ports,
    lines: u64,
}

impl<W: Write> Table<W> {
    pub fn new(to: W, ports: &Ports) -> Table<W> {
        Table { to, ports: ports.clone(), lines: 0 }
    }

    fn row(&mut self, first: &str, inputs: &[String], outputs: &[String]) -> Io<()> {
        write!(self.to, "{first:>NUMBER$} ")?;
        for (port, cell) in self.ports.inputs.iter().zip(inputs) {
            write!(self.to, " {cell:>0$}", column(port))?;
        }
        write!(self.to, " |")?;
        for (port, cell) in self.ports.outputs.iter().zip(outputs) {
            write!(self.to, " {cell:>0$}", column(port))?;
        }
        writeln!(self.to)
    }
}

/// The characters of a port's column.
fn column(port: &Port) -> usize {
    port.name.len().max(port.width.div_ceil(4))
}

impl<W: Write> Record for Table<W> {
    fn line(&mut self, inputs: &[u8], outputs: &[u8]) -> Io<()> {
        let names = |ports: &[Port]| ports.iter().map(|port| port.name.clone()).collect::<Vec<_>>();
        let cells = |ports: &[Port], line: &[u8]| words_of(ports, line).map(|(_, word)| hexadecimal(word)).collect::<Vec<_>>();
        if self.lines == 0 {
            let (inputs, outputs) = (names(&self.ports.inputs), names(&self.ports.outputs));
            self.row("line", &inputs, &outputs)?;
        }
        let (inputs, outputs) = (cells(&self.ports.inputs, inputs), cells(&self.ports.outputs, outputs));
        self.row(&self.lines.to_string(), &inputs, &outputs)?;
        self.lines += 1;
        Ok(())
    }

    fn named(&mut self, line: &Named, _: &Moment) -> Io<()> {
        writeln!(self.to, "{:>NUMBER$}  {line}", self.lines)?;
        self.lines += 1;
        Ok(())
    }

    fn flush(&mut self) -> Io<()> {
        self.to.flush()
    }
}
