//! Lowers a module image, stores its netlist in a file, opens the file again, checks what it holds, and prints its nodes and records one by
//! one.
//!
//!     reopen IMAGE STORED [NETS WORDS]
//!     reopen STORED                       opens a netlist that was stored before
//!
//! A stored netlist is its words up to the last list word used, four bytes each, low first. A node is printed as its net and its six words,
//! a record as the list word at which it begins and its words. Ends with 0 if the netlist is accepted, 1 if the image or the netlist is
//! refused, 2 if there is nothing to open.

// This program does not call all of it.
#[allow(dead_code)]
mod struo;

use std::io::{BufWriter, Write};
use std::process::ExitCode;

const LIST_USED: usize = 3;
const LIST_AT: usize = 4;

fn main() -> ExitCode {
    let mut out = BufWriter::new(std::io::stdout().lock());
    let ended = run(&std::env::args().skip(1).collect::<Vec<_>>(), &mut out);
    match ended.and_then(|answer| out.flush().map(|()| answer).map_err(|error| error.to_string())) {
        Ok(struo::ACCEPTED) => ExitCode::SUCCESS,
        Ok(_) => ExitCode::from(1),
        Err(problem) => {
            eprintln!("reopen: {problem}");
            ExitCode::from(2)
        }
    }
}

fn run(words: &[String], out: &mut impl Write) -> Result<struo::Answer, String> {
    let (image, stored, n, p) = match words {
        [stored] => return open(stored, out),
        [image, stored] => (image, stored, 65_535, 65_535),
        [image, stored, n, p] => (image, stored, limit(n)?, limit(p)?),
        _ => return Err("usage: reopen IMAGE STORED [NETS WORDS], or reopen STORED".to_string()),
    };
    let (answer, netlist) = lower(&bytes(image)?, n, p);
    print_answer("lower", answer, out)?;
    if answer != struo::ACCEPTED {
        return Ok(answer);
    }
    store(stored, &netlist)?;
    open(stored, out)
}

fn limit(text: &str) -> Result<u32, String> {
    text.parse().map_err(|_| "limits: two numbers of 32 bits are needed".to_string())
}

fn bytes(path: &str) -> Result<Vec<u8>, String> {
    std::fs::read(path).map_err(|error| format!("{path}: {error}"))
}

fn lower(image: &[u8], n: u32, p: u32) -> (struo::Answer, Vec<u32>) {
    // Limits that are too large are refused whatever the buffers.
    let (room_n, room_p) = (if n <= 65_535 { n } else { 0 }, if p <= 65_535 { p } else { 0 });
    let mut netlist = vec![0; struo::netlist_words(room_n, room_p)];
    let mut scratch = vec![0; struo::most_scratch_words(room_n)];
    let answer = struo::lower(image, n, p, &mut netlist, &mut scratch);
    (answer, netlist)
}

/// Writes the words of an accepted netlist.
fn store(path: &str, netlist: &[u32]) -> Result<(), String> {
    let end = (netlist[LIST_AT] + netlist[LIST_USED]) as usize;
    let bytes: Vec<u8> = netlist[..end].iter().flat_map(|word| word.to_le_bytes()).collect();
    std::fs::write(path, bytes).map_err(|error| format!("{path}: {error}"))
}

/// Checks a stored netlist, and prints what it holds.
fn open(path: &str, out: &mut impl Write) -> Result<struo::Answer, String> {
    let bytes = bytes(path)?;
    if bytes.len() % 4 != 0 {
        return Err(format!("{path}: no whole words"));
    }
    let netlist: Vec<u32> = bytes.chunks(4).map(|word| u32::from_le_bytes([word[0], word[1], word[2], word[3]])).collect();
    let answer = struo::netlist_check(&netlist);
    print_answer("netlist", answer, out)?;
    if answer == struo::ACCEPTED {
        print_nodes(&netlist, out)?;
        print_records(&netlist, out)?;
    }
    Ok(answer)
}

/// Net 0, 1, .. until one is not there.
fn print_nodes(netlist: &[u32], out: &mut impl Write) -> Result<(), String> {
    let nodes = (0..).map_while(|net| Some((net, struo::netlist_node(netlist, net)?)));
    for (net, node) in nodes {
        print_words("node", net, &node, out)?;
    }
    Ok(())
}

/// List word 0, then where the next record begins, until there is none.
fn print_records(netlist: &[u32], out: &mut impl Write) -> Result<(), String> {
    let mut at = 0;
    while let Some([_, length, next]) = struo::netlist_record(netlist, at) {
        let from = (netlist[LIST_AT] + at) as usize;
        print_words("record", at, &netlist[from..from + length as usize], out)?;
        at = next;
    }
    Ok(())
}

fn print_answer(call: &str, [number, first, second]: struo::Answer, out: &mut impl Write) -> Result<(), String> {
    writeln!(out, "{call} {number} {first} {second}").map_err(|error| error.to_string())
}

fn print_words(what: &str, number: u32, words: &[u32], out: &mut impl Write) -> Result<(), String> {
    let words: String = words.iter().map(|word| format!(" {word}")).collect();
    writeln!(out, "{what} {number}{words}").map_err(|error| error.to_string())
}
