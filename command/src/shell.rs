//! What the commands do around their work: a deep stack, files, printing, and
//! how they end.

use crate::{ACCEPTED, Answer};
use std::io::{ErrorKind, Write};
use std::panic::resume_unwind;
use std::process::ExitCode;
use std::thread;

const REFUSED: u8 = 1;
const NO_GOOD: u8 = 2;

/// More than the deepest image needs (`STRUO_STACK_KB` in include/struo.h): texts may nest deeper.
const STACK_BYTES: usize = 512 << 20;

/// The status a command ends with; a problem is told.
pub fn status(command: &str, ended: Result<Answer, String>) -> ExitCode {
    match ended {
        Ok(ACCEPTED) => ExitCode::SUCCESS,
        Ok(_) => ExitCode::from(REFUSED),
        Err(problem) => {
            eprintln!("{command}: {problem}");
            ExitCode::from(NO_GOOD)
        }
    }
}

pub fn on_deep_stack<T: Send>(work: impl FnOnce() -> T + Send) -> T {
    thread::scope(|scope| {
        let thread = thread::Builder::new().stack_size(STACK_BYTES).spawn_scoped(scope, work);
        thread.expect("a thread can be started").join().unwrap_or_else(|payload| resume_unwind(payload))
    })
}

/// # Errors
///
/// Says in one line why the file cannot be written.
pub fn write(file: &str, bytes: &[u8]) -> Result<(), String> {
    std::fs::write(file, bytes).map_err(|error| format!("{file}: {error}"))
}

/// Words in a file's form: four bytes each, low first.
pub fn bytes_of(words: &[u32]) -> Vec<u8> {
    words.iter().flat_map(|word| word.to_le_bytes()).collect()
}

/// Prints; a reader that has gone away has seen enough.
///
/// # Errors
///
/// Says in one line why standard output cannot be written.
pub fn print(text: &str) -> Result<(), String> {
    match std::io::stdout().write_all(text.as_bytes()) {
        Err(error) if error.kind() != ErrorKind::BrokenPipe => Err(format!("standard output: {error}")),
        _ => Ok(()),
    }
}
