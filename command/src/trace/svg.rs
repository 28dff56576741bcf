//! A drawing of the lines as waves: bits as lines, vectors as boxes with their
//! value in hexadecimal, names at the left. Readable on light and dark ground.
//! Runs after a `back` stand below, each from the column of its moment.

use super::history::Moment;
use super::named::{Named, Verb};
use super::ports::{Port, Ports, hexadecimal, words_of};
use super::records::Record;
use std::io::{Result as Io, Write};
use std::ops::Range;

/// The most lines of a run that are drawn: the first ones.
const MOST_LINES: usize = 400;
/// The most runs after a `back` that are drawn.
const MOST_ENDINGS: usize = 16;

const TOP: usize = 30;
const ROW: usize = 28;
const WAVE: usize = 16;
const COLUMN: usize = 26;
/// The width of a letter.
const LETTER: usize = 8;
/// Between inputs and outputs.
const GAP: usize = 10;

const STYLE: &str = "\
.ground { fill: #ffffff } text { font: 13px monospace; fill: #1f2328 }
.grid { stroke: #d8dee4 } .number { font-size: 10px; fill: #656d76 }
.wave { fill: none; stroke-width: 1.5 } .input { stroke: #0550ae } .output { stroke: #116329 }
@media (prefers-color-scheme: dark) {
.ground { fill: #0d1117 } text { fill: #e6edf3 } .grid { stroke: #30363d } .number { fill: #9198a1 }
.input { stroke: #79c0ff } .output { stroke: #7ee787 }
}";

pub struct Svg<W> {
    to: W,
    ports: Ports,
    runs: Vec<Run>,
    backs: usize,
}

/// What is drawn of a run.
#[derive(Default)]
struct Run {
    title: String,
    /// The time of its first line.
    time: u64,
    /// The inputs and outputs of each line.
    lines: Vec<[Vec<u8>; 2]>,
}

impl<W: Write> Svg<W> {
    pub fn new(to: W, ports: &Ports) -> Svg<W> {
        Svg { to, ports: ports.clone(), runs: vec![Run::default()], backs: 0 }
    }
}

impl<W: Write> Record for Svg<W> {
    fn line(&mut self, inputs: &[u8], outputs: &[u8]) -> Io<()> {
        let run = self.runs.get_mut(self.backs).filter(|run| run.lines.len() < MOST_LINES);
        if let Some(run) = run {
            run.lines.push([inputs.to_vec(), outputs.to_vec()]);
        }
        Ok(())
    }

    /// A run after a `back` begins with its moment.
    fn named(&mut self, line: &Named, moment: &Moment) -> Io<()> {
        if line.verb == Verb::Back {
            self.backs += 1;
            if self.backs <= MOST_ENDINGS {
                self.runs.push(Run { title: line.ending(self.backs), time: moment.time, lines: Vec::new() });
            }
            self.line(&moment.inputs, &moment.outputs)?;
        }
        Ok(())
    }

    /// Nothing is written before the end.
    fn flush(&mut self) -> Io<()> {
        Ok(())
    }

    fn end(&mut self) -> Io<()> {
        self.to.write_all(drawing(&self.ports, &self.runs).as_bytes())?;
        self.to.flush()
    }
}

/// A port's row: how it is drawn, and its words, a column each.
struct Row<'a> {
    port: &'a Port,
    class: &'static str,
    top: usize,
    words: Vec<&'a [u8]>,
}

fn drawing(ports: &Ports, runs: &[Run]) -> String {
    let names = ports.inputs.iter().chain(&ports.outputs).map(|port| &port.name);
    let letters = names.chain(runs.iter().map(|run| &run.title)).map(String::len).max().unwrap_or(0);
    let left = 16 + LETTER * letters;
    let width = left + COLUMN * runs.iter().map(Run::columns).max().unwrap_or(0) + 16;
    let (mut height, mut waves) = (0, String::new());
    for run in runs {
        let rows = rows(ports, &run.lines, height);
        let bottom = rows.last().map_or(height + TOP, |row| row.top) + ROW;
        waves += &run.drawn(&rows, left, height..bottom);
        height = bottom;
    }
    let head = format!("<svg xmlns=\"http://www.w3.org/2000/svg\" width=\"{width}\" height=\"{height}\" viewBox=\"0 0 {width} {height}\">\n");
    let ground = format!("<style>\n{STYLE}\n</style>\n<rect class=\"ground\" width=\"{width}\" height=\"{height}\"/>\n");
    head + &ground + &waves + "</svg>\n"
}

impl Run {
    /// The column of its first line: its time, or the first where this is not drawn
    /// of the first run.
    fn column(&self) -> usize {
        usize::try_from(self.time).ok().filter(|time| *time < MOST_LINES).unwrap_or(0)
    }

    /// The columns up to its last line.
    fn columns(&self) -> usize {
        self.column() + self.lines.len()
    }

    /// Its rows at a height, with a grid and the times of its lines.
    fn drawn(&self, rows: &[Row], names: usize, height: Range<usize>) -> String {
        let left = names + COLUMN * self.column();
        let mut svg = String::new();
        for (number, time) in (0..self.lines.len()).zip(self.time..) {
            let x = left + COLUMN * number;
            svg += &format!("<path class=\"grid\" d=\"M{x} {}V{}\"/>\n", height.start + TOP - 6, height.end - 8);
            // A long number has the room of several columns.
            if number % time.to_string().len().div_ceil(4) == 0 {
                let y = height.start + 16;
                svg += &format!("<text class=\"number\" x=\"{}\" y=\"{y}\" text-anchor=\"middle\">{time}</text>\n", x + COLUMN / 2);
            }
        }
        if !self.title.is_empty() {
            svg += &self.seam(names, left + COLUMN, height);
        }
        for row in rows {
            svg += &named(&row.port.name, names, row.top + 13);
            svg += &if row.port.width == 1 { row.bit(left) } else { row.vector(left) };
        }
        svg
    }

    /// The title, a line above it, and one behind the moment gone back to.
    fn seam(&self, names: usize, behind: usize, Range { start, end }: Range<usize>) -> String {
        let width = names + COLUMN * self.columns();
        let path = format!("<path class=\"grid\" stroke-width=\"3\" d=\"M0 {start}H{width}M{behind} {start}V{}\"/>\n", end - 8);
        path + &named(&self.title, names, start + 16)
    }
}

/// A name at the left.
fn named(name: &str, names: usize, y: usize) -> String {
    format!("<text x=\"{}\" y=\"{y}\" text-anchor=\"end\">{}</text>\n", names - 8, escaped(name))
}

fn rows<'a>(ports: &'a Ports, lines: &'a [[Vec<u8>; 2]], above: usize) -> Vec<Row<'a>> {
    let mut rows = Vec::new();
    for (side, (ports, class)) in [(&ports.inputs, "input"), (&ports.outputs, "output")].into_iter().enumerate() {
        let first = rows.len();
        for (number, port) in ports.iter().enumerate() {
            rows.push(Row { port, class, top: above + TOP + ROW * (first + number) + GAP * side, words: Vec::new() });
        }
        for line in lines {
            words_of(ports, &line[side]).zip(&mut rows[first..]).for_each(|((_, word), row)| row.words.push(word));
        }
    }
    rows
}

impl Row<'_> {
    /// A bit's line, up where it is 1.
    fn bit(&self, left: usize) -> String {
        let level = |word: &[u8]| if word == b"1" { self.top } else { self.top + WAVE };
        let start = self.words.first().map_or(self.top, |word| level(word));
        let mut path = format!("M{left} {start}");
        for (_, to, word) in self.runs() {
            path += &format!("V{}H{}", level(word), left + COLUMN * to);
        }
        format!("<path class=\"wave {}\" d=\"{path}\"/>\n", self.class)
    }

    /// A box for each value, as long as it stays.
    fn vector(&self, left: usize) -> String {
        let (top, middle, bottom) = (self.top, self.top + WAVE / 2, self.top + WAVE);
        let a_box = |(from, to, word): (usize, usize, &[u8])| {
            let (x, end) = (left + COLUMN * from, left + COLUMN * to);
            let (a, b) = (x + 3, end - 3);
            let path = format!("M{x} {middle}L{a} {top}H{b}L{end} {middle}L{b} {bottom}H{a}Z");
            let value = shortened(&hexadecimal(word), (end - x - 6) / LETTER);
            let text = format!("<text x=\"{}\" y=\"{}\" text-anchor=\"middle\">{value}</text>", (x + end) / 2, top + 13);
            format!("<path class=\"wave {}\" d=\"{path}\"/>{text}\n", self.class)
        };
        self.runs().into_iter().map(a_box).collect()
    }

    /// Stretches of one value: the first column, the one behind the last, the value.
    fn runs(&self) -> Vec<(usize, usize, &[u8])> {
        let mut runs: Vec<(usize, usize, &[u8])> = Vec::new();
        for (column, &word) in self.words.iter().enumerate() {
            match runs.last_mut() {
                Some((_, end, value)) if *value == word => *end = column + 1,
                _ => runs.push((column, column + 1, word)),
            }
        }
        runs
    }
}

/// The lowest digits, where there is no room for all.
fn shortened(digits: &str, room: usize) -> String {
    if digits.len() <= room { digits.to_string() } else { format!("…{}", &digits[digits.len() + 1 - room.max(1)..]) }
}

fn escaped(name: &str) -> String {
    name.replace('&', "&amp;").replace('<', "&lt;").replace('>', "&gt;")
}
