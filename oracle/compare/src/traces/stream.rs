//! Whether a trace program answers each line before the next one is there: a line is
//! written, its answer is waited for, then comes the next. Keeps and backs have no
//! answer and are written with the line behind them, all of it in pieces. What 14 or 15
//! refuses is refused while the trace is open.

use super::cases::right;
use super::clashes;
use super::limits::bytes;
use super::names::{half_with_names, near_15, right_store};
use super::run::{refusal, taken, write, Program};
use image::Random;
use std::io::{BufRead, BufReader};
use std::process::Child;
use std::sync::mpsc::{channel, Receiver};
use std::time::Duration;

/// An answer that takes longer does not come.
const MOST_TIME: Duration = Duration::from_secs(10);

/// So long after a piece the next one is written, so that it is read by itself.
const BETWEEN_PIECES: Duration = Duration::from_millis(1);

/// Feeds so many netlists and their traces line by line; how many lines were
/// answered in time, or what went wrong.
pub fn stream(program: &Program, seed: u64, netlists: u64) -> Result<u64, String> {
    let mut answered = 0;
    for number in 0..netlists {
        let random = &mut Random::of_case(seed, number);
        let (words, lines) = match number % 5 {
            0 | 2 => right(random, true),
            1 => right(random, false),
            3 => clashes::right(random),
            _ => right_store(random),
        };
        let lines = if number % 10 == 4 { near_15(random, lines) } else { half_with_names(random, lines) };
        let trace = ended(lines.concat());
        let input = bytes(&words, &trace);
        let expected = driver::trace(&input);
        if !matches!(refusal(&expected), Some([11 | 12, ..])) {
            let asked = asked(random, &trace, taken(&input, &expected).len());
            let fed = one_by_one(program, &bytes(&words, b""), &asked, &expected);
            answered += fed.map_err(|problem| format!("netlist {number}: {problem}"))?;
        }
    }
    Ok(answered)
}

/// Without what follows the last byte 10: that is refused only where the input ends.
fn ended(mut trace: Vec<u8>) -> Vec<u8> {
    trace.truncate(trace.iter().rposition(|&byte| byte == b'\n').map_or(0, |last| last + 1));
    trace
}

/// For each line of the answer what is written before it, in pieces: a settings line,
/// or the line that is refused behind so many that are taken, and the keeps and backs
/// before it.
fn asked(random: &mut Random, trace: &[u8], taken: usize) -> Vec<Vec<Vec<u8>>> {
    let (mut asked, mut open) = (Vec::new(), Vec::new());
    for (number, line) in trace.split_inclusive(|&byte| byte == b'\n').enumerate() {
        open.extend(line);
        let has_answer = number >= taken || !matches!(line[0], b'k' | b'b');
        if has_answer {
            asked.push(pieces(random, std::mem::take(&mut open)));
        }
    }
    asked
}

/// Cut at some places, most often at none.
fn pieces(random: &mut Random, mut bytes: Vec<u8>) -> Vec<Vec<u8>> {
    let mut pieces = Vec::new();
    for _ in 0..random.pick(&[0, 0, 1, 3]) {
        let behind = bytes.split_off(random.below(bytes.len() + 1));
        pieces.push(std::mem::replace(&mut bytes, behind));
    }
    pieces.push(bytes);
    pieces
}

fn one_by_one(program: &Program, netlist: &[u8], asked: &[Vec<Vec<u8>>], expected: &[u8]) -> Result<u64, String> {
    let mut process = program.start()?;
    let answers = answers(&mut process);
    let mut pipe = process.stdin.take().expect("a pipe");
    let mut feed = |bytes: &[u8]| write(&mut pipe, bytes).map_err(|error| program.problem(error));
    let mut run = || {
        feed(netlist)?;
        let mut answered = 0;
        for (pieces, expected) in asked.iter().zip(expected.split_inclusive(|&byte| byte == b'\n')) {
            feed(&pieces[0])?;
            for piece in &pieces[1..] {
                std::thread::sleep(BETWEEN_PIECES);
                feed(piece)?;
            }
            match answers.recv_timeout(MOST_TIME) {
                Ok(answer) if answer == expected => answered += 1,
                Ok(answer) => return Err(format!("answer {answered}: expected {expected:?}, got {answer:?}")),
                Err(_) => return Err(format!("answer {answered} does not come before the next line is there")),
            }
        }
        Ok(answered)
    };
    let result = run();
    drop(pipe);
    if result.is_err() {
        let _ = process.kill();
    }
    process.wait().map_err(|error| program.problem(error))?;
    result
}

/// Lines of the output as they come.
fn answers(process: &mut Child) -> Receiver<Vec<u8>> {
    let (sender, receiver) = channel();
    let mut output = BufReader::new(process.stdout.take().expect("a pipe"));
    std::thread::spawn(move || loop {
        let mut line = Vec::new();
        match output.read_until(b'\n', &mut line) {
            Ok(1..) if sender.send(line).is_ok() => {}
            _ => return,
        }
    });
    receiver
}
