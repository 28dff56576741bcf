//! Makes the stored runs of the listing program: the corpus in the order of its
//! names, then the inputs at the program's limits. `stdin` has the number of
//! inputs, then of each its length and its bytes (numbers are 32 bits, low byte
//! first); `stdout` the oracle's listing of each.

use compare::inputs::at_the_limits;
use compare::listings::answer;
use image::{command, corpus};
use std::path::Path;
use std::process::ExitCode;

const USAGE: &str = "usage: make-listings CORPUS -o FOLDER";

fn main() -> ExitCode {
    command::main("make-listings", USAGE, |words| match words {
        [corpus, "-o", folder] => driver::with_big_stack(|| make(Path::new(corpus), folder)),
        _ => Err(command::unknown("make-listings")),
    })
}

fn make(corpus: &Path, folder: &str) -> Result<String, String> {
    let texts = corpus::texts(corpus)?.into_iter();
    let inputs: Vec<Vec<u8>> = texts.map(|text| text.image).chain(at_the_limits().into_iter().map(|(_, input)| input)).collect();
    let listings: Vec<String> = inputs.iter().map(|input| driver::listing(input, &reference::check)).collect();
    let mut stdin = (inputs.len() as u32).to_le_bytes().to_vec();
    for input in &inputs {
        stdin.extend((input.len() as u32).to_le_bytes());
        stdin.extend(input);
    }
    command::write(&format!("{folder}/stdin"), &stdin)?;
    command::write(&format!("{folder}/stdout"), listings.concat().as_bytes())?;
    Ok(describe(&listings))
}

/// Counts by answer.
fn describe(listings: &[String]) -> String {
    let count = |number: u32| listings.iter().filter(|text| answer(text)[0] == number).count();
    let mut text = format!("{} inputs\naccepted: {}\n", listings.len(), count(0));
    for number in 1..=10 {
        text += &format!("refused {number}: {}\n", count(number));
    }
    text
}
