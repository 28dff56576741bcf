//! The words of the command line of `trace`.

pub const HELP: &str = include_str!("../../help-trace.txt");

/// What is asked for.
#[derive(Clone, Debug, PartialEq, Eq)]
pub enum Request {
    Help,
    Run(Wish),
}

/// A module or netlist to run, over which trace, and what is written.
#[derive(Clone, Debug, PartialEq, Eq)]
pub struct Wish {
    pub file: String,
    pub trace: Source,
    /// A module that has the names of a netlist's signals.
    pub names: Option<String>,
    pub table: bool,
    pub output: Option<String>,
    pub trace_out: Option<String>,
    pub vcd: Option<String>,
    pub svg: Option<String>,
}

/// Where the lines come from.
#[derive(Clone, Debug, PartialEq, Eq)]
pub enum Source {
    Lines(String),
    Vcd(FromVcd),
}

/// A VCD, and how it is read.
#[derive(Clone, Debug, PartialEq, Eq)]
pub struct FromVcd {
    pub file: String,
    /// The scope whose variables are the inputs, as `top.part`; any, where none is named.
    pub scope: Option<String>,
    /// Unknown bits are read as 0.
    pub unknown_is_0: bool,
}

/// The options that have a value.
const OPTIONS: [&str; 8] = ["--names", "--output", "--trace-out", "--vcd", "--svg", "--from-vcd", "--scope", "--unknown"];

/// Options as they were given.
#[derive(Default)]
struct Given {
    files: Vec<String>,
    table: bool,
    values: [Option<String>; OPTIONS.len()],
}

/// Reads the words behind the command's name.
///
/// # Errors
///
/// Says what is wrong with them.
pub fn request(words: &[String]) -> Result<Request, String> {
    if words.iter().any(|word| word == "--help" || word == "-h") {
        return Ok(Request::Help);
    }
    let mut given = Given::default();
    let mut words = words.iter();
    while let Some(word) = words.next() {
        if let Some(option) = OPTIONS.iter().position(|option| option == word) {
            let value = words.next().cloned().ok_or(format!("{word} needs a value"))?;
            given.values[option] = Some(value);
        } else if word == "--table" {
            given.table = true;
        } else if word.starts_with("--") {
            return Err(format!("unknown option {word}"));
        } else {
            given.files.push(word.clone());
        }
    }
    given.wish().map(Request::Run)
}

impl Given {
    fn wish(self) -> Result<Wish, String> {
        let [names, output, trace_out, vcd, svg, from_vcd, scope, unknown] = self.values;
        let (file, trace) = files(self.files, from_vcd)?;
        let is_vcd = trace.1;
        if !is_vcd && (scope.is_some() || unknown.is_some()) {
            return Err("--scope and --unknown go with a trace that is a VCD".to_string());
        }
        if let Some(value) = unknown.as_ref().filter(|value| *value != "0") {
            return Err(format!("--unknown is 0, not {value:?}"));
        }
        if file == "-" && trace.0 == "-" {
            return Err("standard input cannot be both the module and the trace".to_string());
        }
        let trace = match trace {
            (file, true) => Source::Vcd(FromVcd { file, scope, unknown_is_0: unknown.is_some() }),
            (file, false) => Source::Lines(file),
        };
        Ok(Wish { file, trace, names, table: self.table, output, trace_out, vcd, svg })
    }
}

/// The module or netlist, the trace, and whether that is a VCD.
fn files(files: Vec<String>, from_vcd: Option<String>) -> Result<(String, (String, bool)), String> {
    let count = files.len();
    let mut files = files.into_iter();
    match (files.next(), files.next(), from_vcd) {
        (None, ..) => Err("no module and no netlist is named".to_string()),
        (_, None, None) => Err("no trace is named".to_string()),
        (Some(file), None, Some(vcd)) => Ok((file, (vcd, true))),
        (Some(file), Some(trace), None) if count == 2 => {
            let is_vcd = trace.ends_with(".vcd");
            Ok((file, (trace, is_vcd)))
        }
        (.., Some(vcd)) => Err(format!("the trace is the VCD {vcd}, so one file is named beside it, not {count}")),
        _ => Err(format!("a module or netlist and a trace are named, not {count} files")),
    }
}
