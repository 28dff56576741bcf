//! The oracle's trace program: standard input to standard output, the lines that are
//! there answered before more are read.

use driver::TraceProgram;
use std::io::{Read, Write};

fn main() -> std::io::Result<()> {
    let (mut input, mut output) = (std::io::stdin().lock(), std::io::stdout().lock());
    let mut bytes = vec![0; 1 << 16];
    let mut program = TraceProgram::default();
    while !program.is_refused() {
        let mut text = Vec::new();
        let read = input.read(&mut bytes)?;
        match read {
            0 => program.end(&mut text),
            _ => program.take(&bytes[..read], &mut text),
        }
        output.write_all(&text)?;
        output.flush()?;
        if read == 0 {
            break;
        }
    }
    Ok(())
}
