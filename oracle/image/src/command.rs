//! What command lines share: words in, a text or a file out, one line on trouble.

use std::io::Write;
use std::process::ExitCode;

/// Runs a command with the process's words and prints the text it answers; a
/// problem is told in one line.
pub fn main(program: &str, help: &str, command: impl FnOnce(&[&str]) -> Result<String, String>) -> ExitCode {
    let words: Vec<String> = std::env::args().skip(1).collect();
    let words: Vec<&str> = words.iter().map(String::as_str).collect();
    let answer = match words[..] {
        ["--help" | "-h"] => Ok(format!("{}\n", help.trim_end())),
        _ => command(&words),
    };
    match answer.and_then(|text| print(&text)) {
        Ok(()) => ExitCode::SUCCESS,
        Err(problem) => {
            eprintln!("{program}: {problem}");
            ExitCode::FAILURE
        }
    }
}

fn print(text: &str) -> Result<(), String> {
    let written = std::io::stdout().write_all(text.as_bytes());
    written.map_err(|error| format!("standard output: {error}"))
}

/// The answer to words that fit no command.
pub fn unknown(program: &str) -> String {
    format!("unknown arguments; see {program} --help")
}

/// The bytes of a file; `-` is standard input.
pub fn read(path: &str) -> Result<Vec<u8>, String> {
    crate::input::read(path).map_err(|error| format!("{path}: {error}"))
}

/// Writes a file; nothing is left to print.
pub fn write(path: &str, bytes: &[u8]) -> Result<String, String> {
    let written = std::fs::write(path, bytes);
    written.map_err(|error| format!("{path}: {error}"))?;
    Ok(String::new())
}
