//! The longest trace that there may be, and one line more: a netlist without nets is
//! fed with empty lines, and the lines that come back are counted. Once the second line
//! is a keep, the last one that may be there a back, and the one more a back that 15
//! would refuse.

use super::limits::bytes;
use super::machine::N;
use super::run::{write, Program};
use crate::netlists::draft::Draft;
use std::io::{Read, Write};

/// "For traces of up to 4,294,967,295 lines."
const MOST_LINES: u64 = u32::MAX as u64;

const CHUNK: usize = 1 << 20;

/// What a program printed for so many empty lines: how many empty lines, and what
/// follows them.
#[derive(Debug, PartialEq, Eq)]
struct Printed {
    empty: u64,
    rest: Vec<u8>,
}

/// A trace: some lines, so many empty ones, some lines.
#[derive(Clone, Copy, Debug)]
struct Trace {
    first: &'static [u8],
    empty: u64,
    last: &'static [u8],
}

impl Trace {
    const fn of_empty(lines: u64) -> Self {
        Trace { first: b"", empty: lines, last: b"" }
    }
}

/// The longest trace, one line more, and the latter with a keep and backs.
const TRACES: [Trace; 3] = [
    Trace::of_empty(MOST_LINES),
    Trace::of_empty(MOST_LINES + 1),
    Trace { first: b"\nkeep a\n", empty: MOST_LINES - 3, last: b"back a\nback b\n" },
];

/// Feeds these traces.
pub fn longest(program: &Program) -> Result<String, String> {
    let refused = || b"refused 13 4294967295 0\n".to_vec();
    let expected = [(MOST_LINES, vec![]), (MOST_LINES, refused()), (MOST_LINES - 2, refused())];
    for (trace, (empty, rest)) in TRACES.into_iter().zip(expected) {
        let (printed, expected) = (printed(program, trace)?, Printed { empty, rest });
        if printed != expected {
            return Err(format!("{trace:?}: expected {expected:?}, got {printed:?}"));
        }
    }
    Ok(format!("{MOST_LINES} lines are answered, and one more is refused"))
}

fn printed(program: &Program, trace: Trace) -> Result<Printed, String> {
    let mut process = program.start()?;
    let mut pipe = process.stdin.take().expect("a pipe");
    let mut output = process.stdout.take().expect("a pipe");
    let printed = std::thread::scope(|scope| {
        let writer = scope.spawn(move || feed(&mut pipe, trace));
        let printed = count(&mut output).map_err(|error| program.problem(error))?;
        writer.join().expect("a thread that ends").map_err(|error| program.problem(error))?;
        Ok::<_, String>(printed)
    })?;
    match process.wait() {
        Ok(status) if status.success() => Ok(printed),
        Ok(status) => Err(program.problem(status)),
        Err(error) => Err(program.problem(error)),
    }
}

/// A netlist without nets, and the trace.
fn feed(pipe: &mut impl Write, trace: Trace) -> std::io::Result<()> {
    let empty = Draft { n: N, ..Draft::default() };
    write(pipe, &bytes(&empty.words(), trace.first))?;
    let chunk = vec![b'\n'; CHUNK];
    let mut left = trace.empty;
    while left > 0 {
        let size = left.min(CHUNK as u64);
        write(pipe, &chunk[..size as usize])?;
        left -= size;
    }
    write(pipe, trace.last)
}

/// Counts the empty lines that the output begins with.
fn count(output: &mut impl Read) -> std::io::Result<Printed> {
    const MOST_REST: usize = 100;
    let mut printed = Printed { empty: 0, rest: Vec::new() };
    let mut chunk = vec![0; CHUNK];
    loop {
        let read = output.read(&mut chunk)?;
        if read == 0 {
            return Ok(printed);
        }
        let is_empty = |byte: &u8| *byte == b'\n';
        let empty = if printed.rest.is_empty() { chunk[..read].iter().take_while(|byte| is_empty(byte)).count() } else { 0 };
        printed.empty += empty as u64;
        let room = MOST_REST - printed.rest.len();
        printed.rest.extend(chunk[empty..read].iter().take(room));
    }
}

#[cfg(test)]
mod tests {
    use super::{count, feed, Printed, Trace};

    #[test]
    fn what_is_fed_is_counted() {
        let mut input = Vec::new();
        feed(&mut input, Trace::of_empty(3_000_000)).unwrap();
        let text = driver::trace(&input);
        assert_eq!(count(&mut &text[..]).unwrap(), Printed { empty: 3_000_000, rest: Vec::new() });
        let text = [&text[..], b"refused 13 7 0\n"].concat();
        assert_eq!(count(&mut &text[..]).unwrap(), Printed { empty: 3_000_000, rest: b"refused 13 7 0\n".to_vec() });
    }

    #[test]
    fn keeps_and_backs_are_fed_around_the_empty_lines() {
        let mut input = Vec::new();
        feed(&mut input, Trace { first: b"\nkeep a\n", empty: 7, last: b"back a\nback b\n" }).unwrap();
        assert_eq!(driver::trace(&input), b"\n\n\n\n\n\n\n\nrefused 15 10 0\n");
    }
}
