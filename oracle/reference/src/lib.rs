//! A reading of refusals 1 to 5 (docs/RULES.md), made from the sentences of the
//! rules alone, which stand in quotes. `reading` is another. Also one of refusal 11,
//! that of a netlist taken back in (`netlist_answer`).
//!
//! This is the witness for the definitions of the port: not quick, only plain.
//! Each rule is a short function named after its sentence, true where the
//! sentence holds. The place of a refusal is found by going through the fields
//! or records in order and stopping at the first where a rule does not hold.

mod header;
mod layout;
mod netlist;
mod records;

use layout::Module;

pub use netlist::{netlist_answer, netlist_node, netlist_record};

/// A refusal: number and two places. `FINE` where nothing is refused.
pub type Answer = [u32; 3];

pub const FINE: Answer = [0, 0, 0];

/// "Checks run 1, 2, 3, 4, 5": the first refusal, or `FINE`.
pub fn check(image: &[u8], n: u32, p: u32, netlist_words: usize, scratch_words: usize) -> Answer {
    if !limits_are_in_range(n, p) {
        return [1, 0, 0];
    }
    if netlist_words < self::netlist_words(n, p) {
        return [2, 0, 0];
    }
    let module = match read(image) {
        Ok(module) => module,
        Err(answer) => return answer,
    };
    if scratch_words < scratch_words_of(&module, n) {
        return [5, 0, 0];
    }
    FINE
}

/// "1: net limit N outside 1 to 65,535 or list limit P outside 0 to 65,535."
fn limits_are_in_range(n: u32, p: u32) -> bool {
    (1..=65_535).contains(&n) && p <= 65_535
}

/// "2: netlist buffer below 16 + 6N + P words."
pub fn netlist_words(n: u32, p: u32) -> usize {
    16 + 6 * n as usize + p as usize
}

/// "5: scratch below" so many words: "4 × signal bits + expression bits + 8 ×
/// expressions + 4N + 64" (request Q-10). `None` for an image that is refused by
/// 3 or 4.
pub fn scratch_words(image: &[u8], n: u32) -> Option<usize> {
    let module = read(image).ok()?;
    Some(scratch_words_of(&module, n))
}

fn scratch_words_of(module: &Module, n: u32) -> usize {
    4 * module.signal_bits() + module.expression_bits() + 8 * module.expressions() + 4 * n as usize + 64
}

/// The image read as a module, or its refusal 3 or 4.
fn read(image: &[u8]) -> Result<Module<'_>, Answer> {
    if let Some(field) = header::first_wrong_field(image) {
        return Err([3, field, 0]);
    }
    let module = Module::new(image);
    match records::first_wrong_record(&module) {
        Some((section, record)) => Err([4, section, record]),
        None => Ok(module),
    }
}
