//! Reads a module image from a file, checks it, lowers it, and prints both answers and how much the netlist has of each sort.
//!
//!     lower IMAGE [NETS WORDS]
//!
//! Ends with 0 if the image is accepted, 1 if it is refused, 2 if there is nothing to lower.

// This program does not call all of it.
#[allow(dead_code)]
mod struo;

use std::process::ExitCode;

fn main() -> ExitCode {
    match run(&std::env::args().skip(1).collect::<Vec<_>>()) {
        Ok(struo::ACCEPTED) => ExitCode::SUCCESS,
        Ok(_) => ExitCode::from(1),
        Err(problem) => {
            eprintln!("lower: {problem}");
            ExitCode::from(2)
        }
    }
}

fn run(words: &[String]) -> Result<struo::Answer, String> {
    let (path, n, p) = match words {
        [path] => (path, 65_535, 65_535),
        [path, n, p] => (path, limit(n)?, limit(p)?),
        _ => return Err("usage: lower IMAGE [NETS WORDS]".to_string()),
    };
    let image = std::fs::read(path).map_err(|error| format!("{path}: {error}"))?;
    // Limits that are too large are refused whatever the buffers.
    let (room_n, room_p) = (if n <= 65_535 { n } else { 0 }, if p <= 65_535 { p } else { 0 });
    let mut netlist = vec![0; struo::netlist_words(room_n, room_p)];
    let mut scratch = vec![0; struo::most_scratch_words(room_n)];
    print_answer("check", struo::check(&image, n, p, netlist.len(), scratch.len()));
    let answer = struo::lower(&image, n, p, &mut netlist, &mut scratch);
    print_answer("lower", answer);
    if answer == struo::ACCEPTED {
        print_counts(&netlist);
    }
    Ok(answer)
}

fn limit(text: &str) -> Result<u32, String> {
    text.parse().map_err(|_| "limits: two numbers of 32 bits are needed".to_string())
}

fn print_answer(call: &str, [number, first, second]: struo::Answer) {
    println!("{call} {number} {first} {second}");
}

/// The counts in the netlist image's header.
fn print_counts(netlist: &[u32]) {
    let counts =
        [("nets", 1), ("list words", 3), ("ports", 5), ("registers", 6), ("memories", 7), ("arithmetic", 8), ("comparisons", 9)];
    for (name, word) in counts {
        println!("{name} {}", netlist[word]);
    }
}
