//! What the trace program prints on many inputs, held against the oracle's trace
//! program byte for byte, up to the first difference.

use super::cases::{case, Origin};
use super::limits::bytes;
use crate::plan::Plan;
use crate::printed::Difference;
use image::Random;
use std::collections::BTreeMap;
use std::fmt;
use std::io::{ErrorKind, Write};
use std::path::PathBuf;
use std::process::{ChildStdin, Command, Stdio};
use std::time::{Duration, Instant};

/// What prints the output bits of an input.
pub trait Tracer {
    fn trace(&self, input: &[u8]) -> Result<Vec<u8>, String>;
}

/// A program that reads standard input.
pub struct Program(pub PathBuf);

/// A pipe takes so many bytes before anything is read.
const PIPE: usize = 65_536;

impl Program {
    /// A process with pipes.
    pub fn start(&self) -> Result<std::process::Child, String> {
        let mut command = Command::new(&self.0);
        let command = command.stdin(Stdio::piped()).stdout(Stdio::piped()).stderr(Stdio::piped());
        command.spawn().map_err(|error| self.problem(error))
    }

    pub fn problem(&self, error: impl fmt::Display) -> String {
        format!("{}: {error}", self.0.display())
    }
}

impl Tracer for Program {
    /// What the program writes. It must end well and write no error; it need not
    /// read all of its input.
    fn trace(&self, input: &[u8]) -> Result<Vec<u8>, String> {
        let mut process = self.start()?;
        let stdin = process.stdin.take().expect("a pipe");
        let feed = |mut stdin: ChildStdin| write(&mut stdin, input);
        let wait = || process.wait_with_output().map_err(|error| self.problem(error));
        let (written, output) = if input.len() <= PIPE {
            (feed(stdin), wait()?)
        } else {
            std::thread::scope(|scope| {
                let writer = scope.spawn(|| feed(stdin));
                let output = wait()?;
                Ok::<_, String>((writer.join().expect("a thread that ends"), output))
            })?
        };
        match written {
            Err(error) => Err(self.problem(error)),
            _ if !output.status.success() => Err(self.problem(output.status)),
            _ if !output.stderr.is_empty() => Err(String::from_utf8_lossy(&output.stderr).into_owned()),
            _ => Ok(output.stdout),
        }
    }
}

/// Writes all; a program that reads no further is no problem.
pub fn write(pipe: &mut impl Write, bytes: &[u8]) -> std::io::Result<()> {
    match pipe.write_all(bytes).and_then(|()| pipe.flush()) {
        Err(error) if error.kind() == ErrorKind::BrokenPipe => Ok(()),
        written => written,
    }
}

/// The refusal that a text ends with, if it does.
pub fn refusal(text: &[u8]) -> Option<[u32; 3]> {
    let last = text.strip_suffix(b"\n")?.rsplit(|&byte| byte == b'\n').next()?;
    let numbers = String::from_utf8_lossy(last.strip_prefix(b"refused ")?);
    let numbers: Vec<u32> = numbers.split(' ').map(|number| number.parse().expect("a number of a refusal")).collect();
    numbers.try_into().ok()
}

/// How a text ends.
pub fn outcome(text: &[u8]) -> String {
    refusal(text).map_or("run to the end".to_string(), |[number, ..]| format!("refused {number}"))
}

/// What was compared.
#[derive(Clone, Debug, Default)]
pub struct Tally {
    pub inputs: u64,
    pub bytes: u64,
    pub lines: u64,
    /// Lines whose output bits are others than those of the line before.
    pub moving: u64,
    /// Keeps and backs that were taken.
    pub keeps: u64,
    pub backs: u64,
    /// Inputs that would print other output bits without their backs.
    pub differing: u64,
    pub origins: BTreeMap<String, u64>,
    pub outcomes: BTreeMap<String, u64>,
}

impl Tally {
    /// An input and what it prints.
    pub fn count(&mut self, input: &[u8], text: &[u8]) {
        self.inputs += 1;
        self.bytes += input.len() as u64;
        let lines = output_bits(text);
        self.lines += text.iter().filter(|&&byte| byte == b'\n').count() as u64;
        self.moving += lines.windows(2).filter(|pair| !pair[1].is_empty() && pair[0] != pair[1]).count() as u64;
        self.count_names(input, text);
        *self.outcomes.entry(outcome(text)).or_default() += 1;
    }

    /// Keeps and backs before the line that is refused.
    fn count_names(&mut self, input: &[u8], text: &[u8]) {
        let lines = taken(input, text);
        let backs = lines.iter().filter(|line| line.starts_with(b"back")).count();
        self.keeps += lines.iter().filter(|line| line.starts_with(b"keep")).count() as u64;
        self.backs += backs as u64;
        if backs > 0 {
            let plain: Vec<&[u8]> = lines.into_iter().filter(|line| !line.starts_with(b"back")).collect();
            let without = driver::trace(&bytes(&parts(input).0, &plain.concat()));
            self.differing += u64::from(output_bits(&without) != output_bits(text));
        }
    }
}

/// The lines of a text that are output bits.
fn output_bits(text: &[u8]) -> Vec<&[u8]> {
    text.split(|&byte| byte == b'\n').filter(|line| line.iter().all(|byte| matches!(byte, b'0' | b'1'))).collect()
}

/// The lines of the trace that were taken, with their ends: those before a refusal, none
/// where the netlist is refused.
pub fn taken<'a>(input: &'a [u8], text: &[u8]) -> Vec<&'a [u8]> {
    let count = match refusal(text) {
        None => usize::MAX,
        Some([11 | 12, ..]) => 0,
        Some([_, line, _]) => line as usize,
    };
    parts(input).1.split_inclusive(|&byte| byte == b'\n').take(count).collect()
}

impl fmt::Display for Tally {
    fn fmt(&self, f: &mut fmt::Formatter) -> fmt::Result {
        let Tally { inputs, bytes, lines, moving, keeps, backs, differing, origins, outcomes } = self;
        write!(f, "{inputs} inputs of {bytes} bytes, {lines} lines printed, {moving} of them other than the one before")?;
        write!(f, "; {keeps} keeps, {backs} backs, {differing} inputs that print other bits without their backs")?;
        outcomes.iter().chain(origins).try_for_each(|(name, count)| write!(f, "; {name}: {count}"))
    }
}

/// A difference, where it was met, and the smallest input found that shows one.
pub struct Failure {
    pub number: u64,
    pub origin: Origin,
    pub difference: Difference,
    pub small: Vec<u8>,
    pub small_difference: Difference,
}

impl fmt::Display for Failure {
    fn fmt(&self, f: &mut fmt::Formatter) -> fmt::Result {
        writeln!(f, "DIFFERENCE at input {} ({:?}): {}", self.number, self.origin, self.difference)?;
        writeln!(f, "smallest input found, {} bytes:\n{}", self.small.len(), Shown(&self.small))?;
        write!(f, "{}", self.small_difference)
    }
}

/// An input for people: words that are not 0, and the trace.
struct Shown<'a>(&'a [u8]);

impl fmt::Display for Shown<'_> {
    fn fmt(&self, f: &mut fmt::Formatter) -> fmt::Result {
        let (words, trace) = parts(self.0);
        let show = |(at, word): (usize, &u32)| match *word {
            u32::MAX => format!("{at}:-"),
            word => format!("{at}:{word}"),
        };
        let words: Vec<String> = words.iter().enumerate().filter(|(_, word)| **word != 0).map(show).collect();
        writeln!(f, "words: {}\ntrace: {:?}", words.join(" "), String::from_utf8_lossy(trace))
    }
}

/// The words of the netlist, as far as they are there, and the trace.
fn parts(input: &[u8]) -> (Vec<u32>, &[u8]) {
    let words: Vec<u32> = input.as_chunks().0.iter().map(|&word| u32::from_le_bytes(word)).collect();
    let end = match words.get(3..5) {
        Some(&[used, offset]) => (offset as usize).saturating_add(used as usize).min(words.len()),
        _ => words.len(),
    };
    (words[..end].to_vec(), &input[4 * end..])
}

/// Compares every input of the plan, or stops at the first difference.
pub fn run(tracer: &dyn Tracer, plan: &Plan) -> Result<Tally, Box<Failure>> {
    let mut tally = Tally::default();
    for number in plan.first..plan.first + plan.count {
        let case = case(&mut Random::of_case(plan.seed, number), number);
        let expected = driver::trace(&case.input);
        tally.count(&case.input, &expected);
        *tally.origins.entry(case.origin.to_string()).or_default() += 1;
        if let Some(difference) = compare(tracer, &case.input, &expected) {
            let again = |input: &[u8]| compare(tracer, input, &driver::trace(input));
            let small = shrink(&case.input, &|input| again(input).is_some());
            let small_difference = again(&small).unwrap_or_else(|| difference.clone());
            return Err(Box::new(Failure { number, origin: case.origin, difference, small, small_difference }));
        }
    }
    Ok(tally)
}

/// One input.
pub fn compare(tracer: &dyn Tracer, input: &[u8], expected: &[u8]) -> Option<Difference> {
    match tracer.trace(input) {
        Err(problem) => Some(Difference::Failed(problem)),
        Ok(got) if got == expected => None,
        Ok(got) => Some(first_difference(expected, &got)),
    }
}

/// Two texts that differ; lines are counted from 0.
fn first_difference(expected: &[u8], got: &[u8]) -> Difference {
    let lines = |text: &[u8]| -> Vec<String> { text.split_inclusive(|&byte| byte == b'\n').map(|line| String::from_utf8_lossy(line).into_owned()).collect() };
    let (expected, got) = (lines(expected), lines(got));
    let number = expected.iter().zip(&got).take_while(|(left, right)| left == right).count();
    let line = |lines: &[String]| lines.get(number).cloned().unwrap_or_default();
    Difference::Line(number, line(&expected), line(&got))
}

// ---- shrinking ----

/// The smallest input found for which `persists` still holds: first fewer lines, then
/// fewer records and nodes.
fn shrink(input: &[u8], persists: &dyn Fn(&[u8]) -> bool) -> Vec<u8> {
    let until = Instant::now() + Duration::from_secs(5);
    let (words, trace) = parts(input);
    let mut lines: Vec<Vec<u8>> = trace.split_inclusive(|&byte| byte == b'\n').map(<[u8]>::to_vec).collect();
    let mut size = lines.len();
    while size > 0 {
        let mut end = lines.len();
        while end > 0 && Instant::now() < until {
            let start = end.saturating_sub(size);
            let left = [&lines[..start], &lines[end..]].concat();
            if persists(&bytes(&words, &left.concat())) {
                lines = left;
            }
            end = start;
        }
        size /= 2;
    }
    let trace = lines.concat();
    let small = crate::netlists::run::shrink(words, &|words| persists(&bytes(words, &trace)));
    bytes(&small, &trace)
}

#[cfg(test)]
mod tests {
    use super::{bytes, outcome, taken};

    #[test]
    fn outcomes() {
        assert_eq!(outcome(b""), "run to the end");
        assert_eq!(outcome(b"01\n00\n"), "run to the end");
        assert_eq!(outcome(b"01\nrefused 13 1 0\n"), "refused 13");
    }

    #[test]
    fn lines_that_are_taken() {
        let input = bytes(&[0, 0, 0, 0, 5], b"0\nkeep a\nback b\n");
        assert_eq!(taken(&input, b"1\n"), [&b"0\n"[..], b"keep a\n", b"back b\n"]);
        assert_eq!(taken(&input, b"1\nrefused 15 2 0\n"), [&b"0\n"[..], b"keep a\n"]);
        assert_eq!(taken(&input, b"refused 12 0 0\n"), [&b""[..]; 0]);
    }
}
