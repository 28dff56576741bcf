//! The words of the command line.

use crate::MOST;

pub const HELP: &str = include_str!("../help.txt");

/// What is asked for.
#[derive(Clone, Debug, PartialEq, Eq)]
pub enum Request {
    Help,
    Lower(Wish),
    /// A file with a stored netlist to check.
    CheckNetlist(String),
}

/// A file to lower, and how.
#[derive(Clone, Debug, PartialEq, Eq)]
pub struct Wish {
    pub file: String,
    /// The file is a module image of edition 1.
    pub from_edition_1: bool,
    pub nets: u32,
    pub words: u32,
    /// Where the two limits come from.
    pub limited_by: [&'static str; 2],
    pub image_out: Option<String>,
    pub words_out: Option<String>,
    /// Words of the buffers, where they are not as many as needed.
    pub netlist: Option<u32>,
    pub scratch: Option<u32>,
}

impl Wish {
    /// A file, with the largest limits and buffers as long as needed.
    pub fn of(file: &str) -> Wish {
        Wish {
            file: file.to_string(),
            from_edition_1: false,
            nets: MOST,
            words: MOST,
            limited_by: ["--nets", "--words"],
            image_out: None,
            words_out: None,
            netlist: None,
            scratch: None,
        }
    }
}

/// Reads the words behind the command's name.
///
/// # Errors
///
/// Says what is wrong with them.
pub fn request(words: &[String]) -> Result<Request, String> {
    if words.iter().any(|word| word == "--help" || word == "-h") {
        return Ok(Request::Help);
    }
    let mut wish = Wish::of("");
    let mut check_netlist = false;
    let mut files = Vec::new();
    let mut words = words.iter();
    while let Some(word) = words.next() {
        let mut value = || words.next().cloned().ok_or(format!("{word} needs a value"));
        match word.as_str() {
            "--nets" => wish.nets = number(word, &value()?)?,
            "--words" => wish.words = number(word, &value()?)?,
            "--netlist" => wish.netlist = Some(room(word, &value()?)?),
            "--scratch" => wish.scratch = Some(room(word, &value()?)?),
            "--check-netlist" => check_netlist = true,
            "--from-edition-1" => wish.from_edition_1 = true,
            "--image-out" => wish.image_out = Some(value()?),
            "--words-out" => wish.words_out = Some(value()?),
            option if option.starts_with("--") => return Err(format!("unknown option {option}")),
            file => files.push(file.to_string()),
        }
    }
    if check_netlist && wish != Wish::of("") {
        return Err("--check-netlist takes a file and no other option".to_string());
    }
    match <[String; 1]>::try_from(files) {
        Ok([file]) if check_netlist => Ok(Request::CheckNetlist(file)),
        Ok([file]) => Ok(Request::Lower(Wish { file, ..wish })),
        Err(files) if files.is_empty() => Err("no file is named".to_string()),
        Err(files) => {
            let done = if check_netlist { "checked" } else { "lowered" };
            Err(format!("one file is {done}, not {}: {}", files.len(), files.join(", ")))
        }
    }
}

fn number(option: &str, text: &str) -> Result<u32, String> {
    text.parse().map_err(|_| format!("{option} needs a number below 4294967296, not {text:?}"))
}

/// Words of a buffer: more than any call needs, and no more than a machine has.
fn room(option: &str, text: &str) -> Result<u32, String> {
    const MOST_ROOM: u32 = 1 << 24;
    match number(option, text)? {
        words if words <= MOST_ROOM => Ok(words),
        words => Err(format!("{option} is at most {MOST_ROOM} words, not {words}")),
    }
}
