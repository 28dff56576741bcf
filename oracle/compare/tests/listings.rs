//! The comparison of listings, tried on the oracle itself: without a fault it
//! passes and meets every answer, and each fault is found.

use compare::inputs::at_the_limits;
use compare::listings::{answer, run, Lister};
use compare::plan::Plan;
use compare::scratch::Scratch;

/// A fault put into what the oracle lists.
#[derive(Clone, Copy, Debug)]
enum Fault {
    Nothing,
    /// A longer input is judged whole.
    ReadsAll,
    /// A byte less is read.
    ReadsLess,
    /// A netlist that just fits is refused.
    EarlyRefusal,
    /// The former sum of scratch words is asked for.
    FormerSum,
    /// A refusal's places are exchanged.
    PlacesExchanged,
    /// A second port's bits are named like the first's.
    NoSecondPort,
    /// The last line has no end.
    NoLineEnd,
    /// The text is cut at 65,536 bytes.
    Cut,
    /// The program fails.
    Fails,
}

struct Oracle(Fault);

impl Lister for Oracle {
    fn list(&self, input: &[u8]) -> Result<Vec<u8>, String> {
        const MOST_BYTES: usize = 32_768;
        let list = |input: &[u8]| driver::listing(input, &reference::check);
        let mut text = list(input);
        match self.0 {
            Fault::Nothing => {}
            Fault::ReadsAll if input.len() > MOST_BYTES => text = "refused 3 1 0\n".to_string(),
            Fault::ReadsAll => {}
            Fault::ReadsLess => text = list(&input[..input.len().min(MOST_BYTES - 1)]),
            Fault::EarlyRefusal if text.starts_with("nets 1024 ") => text = "refused 9 0 0\n".to_string(),
            Fault::EarlyRefusal => {}
            Fault::FormerSum if former_scratch(input) > 8_192 => text = "refused 5 0 0\n".to_string(),
            Fault::FormerSum => {}
            Fault::PlacesExchanged => {
                let [number, first, second] = answer(&text);
                if number != 0 {
                    text = format!("refused {number} {second} {first}\n");
                }
            }
            Fault::NoSecondPort => text = text.replace("_b[", "["),
            Fault::NoLineEnd => text.truncate(text.len() - 1),
            Fault::Cut => text.truncate(65_536),
            Fault::Fails => return Err("it fails".to_string()),
        }
        Ok(text.into_bytes())
    }
}

/// The former sum; 0 for what is refused before it.
fn former_scratch(input: &[u8]) -> usize {
    Scratch::of(input, 1_024).map_or(0, |scratch| scratch.former)
}

const PLAN: Plan = Plan { seed: 1, first: 0, count: 600 };

#[test]
fn the_oracle_passes_and_every_answer_occurs() {
    driver::with_big_stack(|| {
        let listed = run(&Oracle(Fault::Nothing), &PLAN).unwrap_or_else(|failure| panic!("{failure}"));
        for number in [0, 3, 4, 5, 6, 7, 8, 9, 10] {
            assert!(listed.tally.outcomes[number] > 0, "no input is answered by {number}");
        }
        assert!(listed.longest > 65_536, "{}", listed.longest);
    });
}

#[test]
fn each_fault_is_found() {
    let faults = [
        Fault::ReadsAll,
        Fault::ReadsLess,
        Fault::EarlyRefusal,
        Fault::FormerSum,
        Fault::PlacesExchanged,
        Fault::NoSecondPort,
        Fault::NoLineEnd,
        Fault::Cut,
        Fault::Fails,
    ];
    driver::with_big_stack(|| {
        for fault in faults {
            assert!(run(&Oracle(fault), &PLAN).is_err(), "{fault:?} is not found");
        }
    });
}

/// Each limit is met exactly and passed by the least there is.
#[test]
fn the_inputs_are_at_the_limits() {
    driver::with_big_stack(|| {
        let answers: Vec<(&str, u32)> = at_the_limits()
            .into_iter()
            .map(|(name, input)| (name, answer(&driver::listing(&input, &reference::check))[0]))
            .collect();
        let expected = [
            ("no bytes", 3),
            ("as many nets as there may be", 0),
            ("a net more", 9),
            ("as many list words as there may be", 0),
            ("a list word more", 10),
            ("the whole scratch", 0),
            ("a word of scratch more", 5),
            ("the image ends with the bytes that are read", 0),
            ("a byte of the image is not read", 3),
            ("a byte behind the bytes that are read", 0),
            ("many bytes behind the bytes that are read", 0),
            ("names of 64 bytes", 0),
        ];
        assert_eq!(answers, expected);
    });
}
