//! A run of the program trace as a child: it is sent a netlist and a trace, and
//! its lines are taken as they come.

use super::given::Given;
use super::history::History;
use super::lines::{Sent, Stopped};
use super::ports::{Ports, bits};
use super::records::{NotWritten, Record, Written};
use crate::Answer;
use crate::shell::bytes_of;
use std::io::{BufRead, BufReader, ErrorKind, Read, Result as Io, Write};
use std::process::{Child, ChildStdin, ChildStdout, Command, Stdio};
use std::sync::mpsc::{Sender, channel};
use std::thread::{JoinHandle, spawn};

/// Bytes that are taken from a trace at a time.
const AT_A_TIME: usize = 1 << 16;

/// A trace's bytes, and the file that they come from.
pub struct Trace {
    pub file: String,
    pub from: Box<dyn Read + Send>,
}

/// How a run ended.
#[derive(Debug, PartialEq, Eq)]
pub enum End {
    /// Each line was answered, or nobody wants to see more.
    Answered,
    Refused(Answer, Stopped),
}

/// The program's path: that of the variable TRACE_PROGRAM, or what `rt` builds.
pub fn program() -> String {
    let built = concat!(env!("CARGO_MANIFEST_DIR"), "/../target/bin/trace");
    std::env::var("TRACE_PROGRAM").unwrap_or(built.to_string())
}

/// Runs the program over a trace. What is asked for is written as its lines come.
///
/// # Errors
///
/// Says in one line what cannot be read, run or written.
pub fn run(program: &str, given: &Given, trace: Trace, mut written: Vec<Written>) -> Result<End, String> {
    let mut child = Command::new(program)
        .stdin(Stdio::piped())
        .stdout(Stdio::piped())
        .spawn()
        .map_err(|error| format!("{program}: {error}; it is the program trace, which ./trace builds"))?;
    let (Some(to), Some(from)) = (child.stdin.take(), child.stdout.take()) else {
        return Err(format!("{program}: no pipes"));
    };
    let (sender, receiver) = channel();
    let netlist = bytes_of(&given.words);
    let feeder = spawn(move || feed(to, &netlist, trace, &sender));
    let mut answers = Answers { program, from: BufReader::new(from), sent: Sent::new(receiver), history: History::default() };
    let taken = answers.take(&given.ports.clone().unwrap_or_default(), &mut written);
    if let Err(not_written) = taken {
        let _ = child.kill();
        let _ = child.wait();
        return quietly(not_written).map(|()| End::Answered);
    }
    all(&mut written, |record| record.end()).or_else(quietly)?;
    match taken {
        // The program has ended by itself, and the trace may go on: nobody waits for the feeder.
        Ok(Some(answer)) => child.wait().map(|_| End::Refused(answer, answers.stopped())).map_err(|error| format!("{program}: {error}")),
        _ => ended_well(program, &mut child, feeder).and_then(|()| answers.all_answered()).map(|()| End::Answered),
    }
}

/// Sends the netlist and the trace. Bytes are noted before the program gets them.
fn feed(mut to: ChildStdin, netlist: &[u8], mut trace: Trace, sent: &Sender<Vec<u8>>) -> Result<(), String> {
    let mut next = netlist.to_vec();
    let mut buffer = vec![0; AT_A_TIME];
    loop {
        // Where the program has refused something, nobody asks how this ended.
        to.write_all(&next).map_err(|error| format!("the program trace ended before {} did: {error}", trace.file))?;
        let count = read(&mut trace.from, &mut buffer).map_err(|error| format!("{}: {error}", trace.file))?;
        next = buffer[..count].to_vec();
        if count == 0 || sent.send(next.clone()).is_err() {
            return Ok(());
        }
    }
}

fn read(from: &mut dyn Read, buffer: &mut [u8]) -> Io<usize> {
    loop {
        match from.read(buffer) {
            Err(error) if error.kind() == ErrorKind::Interrupted => {}
            read => return read,
        }
    }
}

/// What the program prints.
struct Answers<'a> {
    program: &'a str,
    from: BufReader<ChildStdout>,
    sent: Sent,
    history: History,
}

impl Answers<'_> {
    /// Takes its lines up to the end or a refusal.
    fn take(&mut self, ports: &Ports, written: &mut [Written]) -> Result<Option<Answer>, NotWritten> {
        let mut line = Vec::new();
        while self.next_line(&mut line)? {
            if let Some(answer) = refusal(&line) {
                self.take_named(answer[1], written)?;
                return Ok(Some(answer));
            }
            self.check(&line, bits(&ports.outputs))?;
            self.take_named(u32::MAX, written)?;
            let inputs = self.sent.line().filter(|inputs| inputs.len() == bits(&ports.inputs));
            let inputs = inputs.ok_or_else(|| NotWritten::Problem(format!("{}: it answers a line that it was not sent", self.program)))?;
            self.history.line(inputs, &line);
            all(written, |record| record.line(inputs, &line))?;
            if self.from.buffer().is_empty() {
                all(written, |record| record.flush())?;
            }
        }
        self.take_named(u32::MAX, written)?;
        Ok(None)
    }

    /// Takes the lines `keep` and `back` that come next, up to a line's number: the
    /// program prints nothing for them.
    fn take_named(&mut self, limit: u32, written: &mut [Written]) -> Result<(), NotWritten> {
        while let Some(line) = self.sent.named(limit) {
            let moment = self.history.named(&line);
            let moment = moment.ok_or_else(|| NotWritten::Problem(format!("{}: it does not refuse {line}", self.program)))?;
            all(written, |record| record.named(&line, moment))?;
        }
        Ok(())
    }

    /// The next line, without its byte 10.
    fn next_line(&mut self, line: &mut Vec<u8>) -> Result<bool, NotWritten> {
        line.clear();
        let read = self.from.read_until(b'\n', line);
        read.map_err(|error| NotWritten::Problem(format!("{}: {error}", self.program)))?;
        let is_ended = line.pop_if(|byte| *byte == b'\n').is_some();
        if !is_ended && !line.is_empty() {
            return Err(self.strange(line));
        }
        Ok(is_ended)
    }

    /// A line of another form is none of the program's.
    fn check(&self, line: &[u8], bits: usize) -> Result<(), NotWritten> {
        let is_right = line.len() == bits && line.iter().all(|byte| b"01".contains(byte));
        if is_right { Ok(()) } else { Err(self.strange(line)) }
    }

    fn strange(&self, line: &[u8]) -> NotWritten {
        let line = String::from_utf8_lossy(&line[..line.len().min(80)]).into_owned();
        NotWritten::Problem(format!("{}: it prints {line:?}, which is no line of the program trace", self.program))
    }

    fn stopped(self) -> Stopped {
        self.sent.stopped(self.history.names())
    }

    fn all_answered(&mut self) -> Result<(), String> {
        if self.sent.is_all_taken() { Ok(()) } else { Err(format!("{}: it ended before the trace did", self.program)) }
    }
}

/// The numbers of a line `refused A B C`.
fn refusal(line: &[u8]) -> Option<Answer> {
    let numbers = std::str::from_utf8(line).ok()?.strip_prefix("refused ")?;
    let numbers: Vec<u32> = numbers.split(' ').map(str::parse).collect::<Result<_, _>>().ok()?;
    numbers.try_into().ok()
}

/// The program ended as it should, and so did the trace.
fn ended_well(program: &str, child: &mut Child, feeder: JoinHandle<Result<(), String>>) -> Result<(), String> {
    let status = child.wait().map_err(|error| format!("{program}: {error}"))?;
    if !status.success() {
        return Err(format!("{program}: it ended with {status}"));
    }
    feeder.join().unwrap_or_else(|_| Err("the trace could not be sent".to_string()))
}

fn all(written: &mut [Written], work: impl Fn(&mut dyn Record) -> Io<()>) -> Result<(), NotWritten> {
    written.iter_mut().try_for_each(|written| written.with(&work))
}

fn quietly(not_written: NotWritten) -> Result<(), String> {
    match not_written {
        NotWritten::Gone => Ok(()),
        NotWritten::Problem(problem) => Err(problem),
    }
}
