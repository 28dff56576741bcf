//! The stack that `struo_lower` takes on images that nest deep: each is lowered
//! in a thread with a given stack, in a child process, since running out of
//! stack ends the process. oracle/stack-bound has the most that any can take.

use calls::Library;
use compare::args::parse_number;
use compare::subject::Subject;
use std::io::{Read, Write};
use std::process::{Command, Stdio};
use std::{fs, thread};

const USAGE: &str = "bench-stack [IMAGE..]
    For each of these images, or else of the deepest chains: whether 8 MB are
    enough, and the least stack that is, to 16 KB.";

/// A signal's width, the inversions between two of its bits, and the muxes
/// before it, each the condition of the next.
#[derive(Clone, Copy)]
struct Chain(u32, u32, u32);

const CHAINS: [Chain; 7] = [
    Chain(32, 1000, 0),
    Chain(128, 250, 0),
    Chain(16, 2000, 0),
    Chain(512, 60, 0),
    Chain(1, 2000, 0),
    Chain(512, 59, 1450),
    Chain(1, 0, 2040),
];
const UNIT: usize = 16 << 10;
const USUAL: usize = 8 << 20;
const MOST: usize = 512 << 20;

fn main() {
    let words: Vec<String> = std::env::args().skip(1).collect();
    match words.iter().map(String::as_str).collect::<Vec<_>>()[..] {
        [] => report(CHAINS.map(chain).to_vec()),
        ["child", bytes] => child(number(bytes)),
        ref files if files.iter().all(|file| !file.starts_with('-')) => report(files.iter().map(|file| stored(file)).collect()),
        _ => println!("{USAGE}"),
    }
}

fn number(word: &str) -> usize {
    parse_number("child", word).unwrap_or_else(|text| panic!("{text}")) as usize
}

fn chain(Chain(width, length, conditions): Chain) -> (String, Vec<u8>) {
    (format!("{width} x {length} + {conditions}"), image::deepest_behind(width, length, conditions).encode())
}

fn stored(file: &str) -> (String, Vec<u8>) {
    (file.to_string(), fs::read(file).unwrap_or_else(|error| panic!("{file}: {error}")))
}

fn report(images: Vec<(String, Vec<u8>)>) {
    println!("{:<22} {:>8} {:>10} {:>14}", "image", "bytes", "8 MB", "least stack KB");
    for (name, image) in images {
        let usual = if passes(&image, USUAL) { "passes" } else { "overflows" };
        let least = least_stack(&image).map_or("none".to_string(), |stack| (stack >> 10).to_string());
        println!("{name:<22} {:>8} {usual:>10} {least:>14}", image.len());
    }
}

/// The least multiple of 16 KB that serves; more than what serves does too.
fn least_stack(image: &[u8]) -> Option<usize> {
    if !passes(image, MOST) {
        return None;
    }
    let (mut low, mut high) = (0, MOST / UNIT);
    while low + 1 < high {
        let middle = (low + high) / 2;
        if passes(image, middle * UNIT) {
            high = middle;
        } else {
            low = middle;
        }
    }
    Some(high * UNIT)
}

/// Whether a child process lowers the image in a thread with so many bytes.
fn passes(image: &[u8], stack: usize) -> bool {
    let program = std::env::current_exe().expect("this program has a path");
    let mut command = Command::new(program);
    command.args(["child", &stack.to_string()]).stdin(Stdio::piped()).stdout(Stdio::null()).stderr(Stdio::null());
    let mut child = command.spawn().expect("a child process");
    child.stdin.take().expect("its input").write_all(image).expect("it reads the image");
    child.wait().expect("a child process").success()
}

/// Lowers the image on standard input, which passes the checks.
fn child(stack: usize) {
    const LIMIT: u32 = 4096;
    let mut image = Vec::new();
    std::io::stdin().read_to_end(&mut image).expect("an image");
    let mut netlist = vec![0; reference::netlist_words(LIMIT, LIMIT)];
    let mut scratch = vec![0; reference::scratch_words(&image, LIMIT).expect("a checked image")];
    let lowering = move || Library.lower(&image, LIMIT, LIMIT, &mut netlist, &mut scratch);
    let thread = thread::Builder::new().stack_size(stack).spawn(lowering).expect("a thread can be started");
    let [answer, ..] = thread.join().expect("no panic");
    assert!(answer == 0 || answer > 5, "an image that is lowered");
}
