//! Makes the replay list, or describes one.

use compare::args::parse_number;
use compare::replay::{make, read, write, Entry};
use compare::scratch::Lent;
use compare::ACCEPTED;
use driver::{lower, lower_unchanged};
use image::command;
use reference::netlist_words;
use std::process::ExitCode;

const USAGE: &str = "usage: make-replay SEED COUNT -o FILE
       make-replay describe FILE";

fn main() -> ExitCode {
    command::main("make-replay", USAGE, |words| driver::with_big_stack(|| execute(words)))
}

fn execute(words: &[&str]) -> Result<String, String> {
    match words {
        ["describe", file] => {
            let bytes = command::read(file)?;
            let entries = read(&bytes).map_err(|error| format!("{file}: {error}"))?;
            Ok(describe(&entries, bytes.len()))
        }
        [seed, count, "-o", file] => {
            let seed = parse_number("SEED", seed)?;
            let count = parse_number("COUNT", count)?;
            let count = u32::try_from(count).map_err(|_| format!("COUNT {count} is too large"))?;
            let entries = make(seed, count as usize)?;
            let bytes = write(&entries);
            command::write(file, &bytes)?;
            Ok(describe(&entries, bytes.len()))
        }
        _ => Err(command::unknown("make-replay")),
    }
}

/// Counts by the call's answer, how many buffers are longer than they must be or
/// short, how often the rows of Or and Xor decide, and the largest sizes.
fn describe(entries: &[Entry], bytes: usize) -> String {
    let count = |number: u32| entries.iter().filter(|entry| entry.answer[0] == number).count();
    let largest = |size: fn(&Entry) -> usize| entries.iter().map(size).max().unwrap_or(0);
    let mut text = format!("{} entries, {bytes} bytes\naccepted: {}\n", entries.len(), count(0));
    for number in 1..=10 {
        text += &format!("refused {number}: {}\n", count(number));
    }
    let lowered: Vec<&Entry> = entries.iter().filter(|entry| entry.checks == ACCEPTED).collect();
    let longer = lowered.iter().filter(|entry| entry.limits.netlist_words > netlist_words(entry.limits.n, entry.limits.p)).count();
    let by_rows = lowered.iter().filter(|entry| lower(&entry.image, false) != lower_unchanged(&entry.image, false)).count();
    let mut scratch = Lent::default();
    entries.iter().for_each(|entry| scratch.count(&entry.image, &entry.limits, entry.checks));
    text += &format!("passed by the checks: {}, netlist buffers longer than they must be: {longer}\n", lowered.len());
    text += &format!("{scratch}\n");
    text += &format!("without the rows of Or and Xor the answer is another: {by_rows}\n");
    text += &format!("largest image: {} bytes\n", largest(|entry| entry.image.len()));
    text += &format!("largest netlist buffer: {} words\n", largest(|entry| entry.limits.netlist_words));
    text += &format!("largest scratch: {} words\n", largest(|entry| entry.limits.scratch_words));
    text
}
