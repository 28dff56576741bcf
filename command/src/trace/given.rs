//! The netlist that a run is given: a module's, lowered, or one that was stored.

use super::ports::Ports;
use super::{LIST_WORDS, NETS};
use crate::arguments::Wish;
use crate::lowering::{Outcome, lower};
use crate::refusal::{in_words, record_name};
use crate::{ACCEPTED, Answer, input};

/// A netlist as the program takes it.
#[derive(Debug)]
pub struct Given {
    /// Up to the last list word used, where so many are there.
    pub words: Vec<u32>,
    /// The module's image, where it is known: it has the names.
    pub image: Option<Vec<u8>>,
    /// None, where the netlist is a wrong one.
    pub ports: Option<Ports>,
}

/// A module that is refused: its answer, and that in words.
#[derive(Debug)]
pub struct Refused(pub Answer, pub String);

/// The netlist of the module or netlist in a file; `names` is a file with the
/// module of a stored netlist.
///
/// # Errors
///
/// Says in one line what is wrong with a file.
pub fn given_in(file: &str, names: Option<&str>) -> Result<Result<Given, Refused>, String> {
    let bytes = input::bytes_in(file)?;
    if input::is_module(file, &bytes) {
        if names.is_some() {
            return Err(format!("{file} is a module and has its own names: --names goes with a netlist"));
        }
        return Ok(of_module(input::image_of(file, bytes)?));
    }
    let words = input::words_of(file, &bytes)?;
    let image = names.map(input::image_in).transpose()?;
    if image.as_ref().is_some_and(|image| image::Image::decode(image).is_none()) {
        return Err(format!("{}: no module that can be read", names.unwrap_or_default()));
    }
    let given = Given::new(words, image);
    match names.and_then(|names| Some((names, given.other_port()?))) {
        Some((names, other)) => Err(format!("{names} is another module than that of {file}: {other}")),
        None => Ok(Ok(given)),
    }
}

/// Lowers a module with the limits that the program takes.
pub fn of_module(image: Vec<u8>) -> Result<Given, Refused> {
    let limited_by = ["the most in a trace"; 2];
    let wish = Wish { nets: NETS, words: LIST_WORDS, limited_by, ..Wish::of("") };
    let Outcome { answer, words, room } = lower(&image, &wish);
    if answer != ACCEPTED {
        return Err(Refused(answer, in_words(answer, &image, &wish, &room)));
    }
    Ok(Given::new(words, Some(image)))
}

impl Given {
    /// Cuts a netlist at its last list word used.
    pub fn new(mut words: Vec<u32>, image: Option<Vec<u8>>) -> Given {
        words.truncate(usize::try_from(end(&words)).unwrap_or(usize::MAX));
        let name = |signal: u32| image.as_ref().and_then(|image| record_name(image, 0, signal));
        let is_right = port::netlist_check(&words) == ACCEPTED;
        let ports = is_right.then(|| Ports::of(&words, |signal| name(signal).unwrap_or(format!("s{signal}"))));
        Given { words, image, ports }
    }

    /// What a register (section 4) or memory (5) is called.
    pub fn name_of(&self, sort: &str, section: u32, number: u32) -> String {
        let name = self.image.as_ref().and_then(|image| record_name(image, section, number));
        name.map_or(format!("{sort} {number}"), |name| format!("{sort} {name}"))
    }

    /// A port that the module of the names has not.
    fn other_port(&self) -> Option<String> {
        let module = image::Image::decode(self.image.as_ref()?)?;
        let ports = self.ports.as_ref()?;
        let sorts = [(&ports.inputs, "input", 1), (&ports.outputs, "output", 2)];
        sorts.into_iter().find_map(|(ports, sort, direction)| {
            let has = |signal: u32, width: usize| {
                let record = module.signals.get(signal as usize);
                record.is_some_and(|record| record[2..4] == [width as u32, direction])
            };
            let other = ports.iter().find(|port| !has(port.signal, port.width))?;
            Some(format!("its signal {} is no {sort} of width {}", other.signal, other.width))
        })
    }
}

/// The words up to the last list word used, by the header.
fn end(words: &[u32]) -> u64 {
    let word = |at: usize| u64::from(words.get(at).copied().unwrap_or(0));
    (word(3) + word(4)).max(16)
}
