//! The command as people meet it: listings, each refusal in words, stored
//! netlists, help, bad input, and its ends.

mod common;

use common::text;
use std::path::PathBuf;
use std::process::{Command, Output};

/// The example of docs/RULES.md, listing, byte for byte.
const LISTING: &str = "nets 3 list 8\n0 input a\n1 not 0\n2 output y 1\nport a 0\nport y 2\n";

fn corpus(name: &str) -> String {
    let path = PathBuf::from(env!("CARGO_MANIFEST_DIR")).join("../corpus").join(name);
    path.to_str().expect("a path of text").to_string()
}

/// A file of this test's own, gone with it.
struct Temporary(PathBuf);

impl Temporary {
    fn new(name: &str) -> Temporary {
        Temporary(std::env::temp_dir().join(format!("lower-{}-{name}", std::process::id())))
    }

    fn path(&self) -> &str {
        self.0.to_str().expect("a path of text")
    }
}

impl Drop for Temporary {
    fn drop(&mut self) {
        let _ = std::fs::remove_file(&self.0);
    }
}

fn run(words: &[&str], stdin: &[u8]) -> Output {
    common::run(Command::new(env!("CARGO_BIN_EXE_lower")).args(words), stdin)
}

/// The command on a text prints `printed` and ends with `status`.
fn expect(source: &str, options: &[&str], status: i32, printed: &str) {
    let words = [&["-"], options].concat();
    let output = run(&words, source.as_bytes());
    assert_eq!(text(&output.stdout), printed, "{source} {options:?}");
    assert_eq!(output.status.code(), Some(status), "{source} {options:?}");
}

const INVERTER: &str = "input a 1\noutput y 1\nexpr n = not a\nassign y = n\n";

#[test]
fn the_example_of_the_rules() {
    expect(INVERTER, &[], 0, LISTING);
    let output = run(&[&corpus("listing.txt")], b"");
    assert_eq!((text(&output.stdout), output.status.code()), (LISTING, Some(0)));
}

#[test]
fn a_narrowed_adder() {
    let output = run(&[&corpus("k02.txt")], b"");
    let printed = text(&output.stdout);
    assert!(printed.starts_with("nets 22 list 44\n0 input a[0]\n1 input a[1]\n"), "{printed}");
    // One cell of width 5, without carry: operation Add, then both operands and its outputs.
    let cells: Vec<&str> = printed.lines().filter(|line| line.starts_with("arithmetic ")).collect();
    assert_eq!(cells, ["arithmetic 0 5 4294967295 0 1 2 3 8 4 5 6 7 8 9 10 11 12 13"]);
    assert_eq!(output.status.code(), Some(0));
}

#[test]
fn refusals_of_the_caller() {
    expect(INVERTER, &["--nets", "0"], 1, "refused 1 0 0: the net limit 0 is outside 1 to 65535\n");
    let both = "refused 1 0 0: the net limit 65536 is outside 1 to 65535; the list limit 70000 is outside 0 to 65535\n";
    expect(INVERTER, &["--nets", "65536", "--words", "70000"], 1, both);
    let netlist = "refused 2 0 0: the netlist buffer has 41 words; 16 + 6 * 3 + 8 = 42 are needed\n";
    expect(INVERTER, &["--nets", "3", "--words", "8", "--netlist", "41"], 1, netlist);
    let scratch = "refused 5 0 0: the scratch has 101 words; 4 * 2 + 2 + 8 * 2 + 4 * 3 + 64 = 102 are needed\n";
    expect(INVERTER, &["--nets", "3", "--words", "8", "--scratch", "101"], 1, scratch);
    let exact = ["--nets", "3", "--words", "8", "--netlist", "42", "--scratch", "102"];
    expect(INVERTER, &exact, 0, LISTING);
}

#[test]
fn refusals_of_the_header() {
    let with = |line: &str| format!("{INVERTER}{line}\n");
    let edition = "refused 3 0 0: header field 0 (edition) is 7: \"Edition 2 of the module image\"\n";
    expect(&with("header 0 7"), &[], 1, edition);
    let before = "refused 3 0 0: header field 0 (edition) is 1, which ./lower --from-edition-1 takes: \"Edition 1 is no longer read\"\n";
    expect(&with("edition 1"), &[], 1, before);
    let length = "refused 3 1 0: header field 1 (total bytes) is 154, the image has 155 bytes: \
                  \"the slice is not the total length\"\n";
    expect(&with("append \"x\""), &[], 1, length);
    let count = "refused 3 4 0: header field 4 (count of expressions) is 2049, at most 2048: \"a count above its most\"\n";
    expect(&with("header 4 2049"), &[], 1, count);
    let offset = "refused 3 5 0: header field 5 (offset of expressions) is 64, it should be 96: \
                  \"Sections follow the header in this order, without gaps\"\n";
    expect(&with("header 5 64"), &[], 1, offset);
    let names = "refused 3 14 0: header field 14 (count of names) is 3, at most 16384: \
                 \"names that do not end at the total, 14\"\n";
    expect(&with("header 14 3"), &[], 1, names);
    let short = "refused 3 0 0: the image has 10 bytes and no whole header: \"under 64 bytes, 0\"\n";
    expect(&with("truncate 10"), &[], 1, short);
}

#[test]
fn refusals_of_records() {
    let operand = "refused 4 1 1: expression 1: \"Operands have lower numbers\"\n  expr e1 : 8 = not @1\n";
    expect("input a 8\nexpr r = signal a\nraw expr e = 2 8 0 1 0\n", &[], 1, operand);
    let name = "refused 4 0 1: signal 1 (a): \"none equal within signals, registers or memories\"\n  wire s1 1 name \"a\"\n";
    expect("input a 1\nwire b 1 name \"a\"\n", &[], 1, name);
    let unprintable = "refused 4 0 0: signal 0: \"Names: 1 to 64 bytes of 33 to 126\"\n  wire s0 1 name \"\\x1b\"\n";
    expect("wire b 1 name \"\\x1b\"\n", &[], 1, unprintable);
    let driven = "refused 4 3 0: assignment 0 (a): \"no bit has two drivers; inputs have one already\"\n  assign a = e0\n";
    expect("input a 1\nassign a = signal a\n", &[], 1, driven);
    let next = "refused 4 4 0: register 0 (r): \"Next, reset value and target agree\"\n  \
                register r target q next e0 clock c rising\n";
    expect("input c 1\nwire q 2\nregister r target q next c clock c\n", &[], 1, next);
    let data = "refused 4 5 0: memory 0 (m): \"all read and write data of a memory have one width\"\n";
    let memory = "input c 1\nwire q 2\nmemory m depth 4 port raddr c rdata q waddr c wdata c wenable c clock c\n";
    let output = run(&["-"], memory.as_bytes());
    assert!(text(&output.stdout).starts_with(data), "{}", text(&output.stdout));
    assert_eq!(output.status.code(), Some(1));
    let width = "refused 4 5 0: memory 0 (m): \"A width that differs from the read data's is refused under 4\"\n  \
                 memory m depth 4 width 2 style auto port raddr e0 rdata q waddr e1 wdata e2 wenable c high clock c rising\n";
    let memory = "input c 1\nwire q 1\nmemory m depth 4 width 2 port raddr c rdata q waddr c wdata c wenable c clock c\n";
    expect(memory, &[], 1, width);
}

/// Images that edition 1's assembler wrote, and the texts they come from.
#[test]
fn images_of_edition_1() {
    let stored = PathBuf::from(env!("CARGO_MANIFEST_DIR")).join("../oracle/image/tests/edition-1");
    let mut images = 0;
    for entry in std::fs::read_dir(stored).expect("stored images") {
        let path = entry.expect("an entry").path();
        if path.extension().is_none_or(|extension| extension != "img") {
            continue;
        }
        let name = path.file_stem().expect("a name").to_str().expect("text");
        let (file, made, assembled) = (path.to_str().expect("text"), Temporary::new(name), Temporary::new(&format!("{name}-text")));
        let refused = run(&[file], b"");
        assert!(text(&refused.stdout).starts_with("refused 3 0 0: "), "{name}");
        let taken = run(&["--from-edition-1", file, "--image-out", made.path()], b"");
        let written = run(&[&corpus(&format!("{name}.txt")), "--image-out", assembled.path()], b"");
        assert_eq!(taken.stdout, written.stdout, "{name}");
        assert_eq!(taken.status.code(), written.status.code(), "{name}");
        let bytes = |file: &Temporary| std::fs::read(file.path()).expect("an image");
        assert_eq!(bytes(&made), bytes(&assembled), "{name}");
        images += 1;
    }
    assert!(images >= 6, "only {images}");
}

#[test]
fn only_images_of_edition_1_are_taken_from_it() {
    let output = run(&["--from-edition-1", "-"], INVERTER.as_bytes());
    assert_eq!(text(&output.stderr), "lower: -: no module image of edition 1\n");
    assert_eq!(output.status.code(), Some(2));
}

#[test]
fn refusals_of_the_designer() {
    let undriven = "refused 6 1 1: bit 1 of signal y is needed and has no driver\n";
    expect("input a 1\noutput y 2\nassign y[0] = a\n", &[], 1, undriven);
    let output = run(&[&corpus("k09.txt")], b"");
    assert_eq!(text(&output.stdout), "refused 7 1 0: combinational loop through bit 0 of signal s\n");
    let reset = "refused 8 0 1: bit 1 of the reset value of register r is no constant\n";
    let register = "input c 1\noutput q 2\nregister r target q next (concat c c) clock c reset c value (concat c 1'b1)\n";
    expect(register, &[], 1, reset);
}

#[test]
fn refusals_by_a_limit() {
    let nets = "refused 9 0 0: more than 2 nets (--nets) would be made; 3 are needed\n";
    expect(INVERTER, &["--nets", "2"], 1, nets);
    let words = "refused 10 0 0: more than 7 list words (--words) would be made; 8 are needed\n";
    expect(INVERTER, &["--words", "7"], 1, words);
    let never = "refused 9 0 0: more than 1 nets (--nets) would be made\n";
    expect("input a 1\ninput b 1\noutput y 1\n", &["--nets", "1"], 1, never);
}

/// Neither struo's sources nor what drives or compares them.
#[test]
fn packages_that_are_linked() {
    let names: Vec<&str> = include_str!("../Cargo.lock").lines().filter_map(|line| line.strip_prefix("name = ")).collect();
    assert_eq!(names, ["\"command\"", "\"image\"", "\"port\"", "\"reading\""]);
}

#[test]
fn help() {
    for words in [&["--help"][..], &["-h"], &["file", "--help"]] {
        let output = run(words, b"");
        assert!(text(&output.stdout).starts_with("usage: ./lower FILE "), "{words:?}");
        assert_eq!((text(&output.stderr), output.status.code()), ("", Some(0)), "{words:?}");
    }
}

/// The script prints it where there is no library to link.
#[test]
fn help_of_the_script() {
    let script = concat!(env!("CARGO_MANIFEST_DIR"), "/../lower");
    let output = Command::new(script).args(["file", "-h"]).env("STRUO_LIBRARY", "/nowhere").output().expect("the script runs");
    assert_eq!((text(&output.stdout), text(&output.stderr)), (command::arguments::HELP, ""));
    assert!(output.status.success());
}

/// One line on standard error, nothing on standard output, end 2.
#[test]
fn bad_input() {
    let cases: [(&[&str], &[u8], &str); 16] = [
        (&[], b"", "lower: no file is named; see ./lower --help\n"),
        (&["a", "b"], b"", "lower: one file is lowered, not 2: a, b; see ./lower --help\n"),
        (&["-", "--nets"], b"", "lower: --nets needs a value; see ./lower --help\n"),
        (&["-", "--nets", "-1"], b"", "lower: --nets needs a number below 4294967296, not \"-1\"; see ./lower --help\n"),
        (&["-", "--words", "4294967296"], b"", "lower: --words needs a number below 4294967296, not \"4294967296\"; see ./lower --help\n"),
        (&["-", "--scratch", "99999999"], b"", "lower: --scratch is at most 16777216 words, not 99999999; see ./lower --help\n"),
        (&["-", "--wide"], b"", "lower: unknown option --wide; see ./lower --help\n"),
        (&["-"], b"input a 1\nwire\n", "lower: -: line 2: "),
        (&["-"], b"\xff\xfe", "lower: -: neither an image nor a text\n"),
        (&["/nowhere/at all.txt"], b"", "lower: /nowhere/at all.txt: "),
        (&["-", "--image-out", "/nowhere/i.img"], b"input a 1\n", "lower: /nowhere/i.img: "),
        (&["--check-netlist"], b"", "lower: no file is named; see ./lower --help\n"),
        (&["--check-netlist", "a", "b"], b"", "lower: one file is checked, not 2: a, b; see ./lower --help\n"),
        (&["--check-netlist", "-", "--nets", "3"], b"", "lower: --check-netlist takes a file and no other option; see ./lower --help\n"),
        (&["--check-netlist", "-"], &[1; 65], "lower: -: 65 bytes are no whole words of four bytes\n"),
        (&["--check-netlist", "/nowhere/at all"], b"", "lower: /nowhere/at all: "),
    ];
    for (words, stdin, line) in cases {
        let output = run(words, stdin);
        let told = text(&output.stderr);
        assert!(told.starts_with(line) && told.lines().count() == 1, "{words:?}: {told}");
        assert_eq!((text(&output.stdout), output.status.code()), ("", Some(2)), "{words:?}");
    }
}

#[test]
fn files_that_are_written() {
    let (image, words) = (Temporary::new("a.img"), Temporary::new("a.words"));
    let options = ["--nets", "4", "--words", "9", "--image-out", image.path(), "--words-out", words.path()];
    expect(INVERTER, &options, 0, LISTING);
    assert_eq!(std::fs::read(&image.0).expect("an image"), image::assemble(INVERTER).expect("a text"));
    let written = std::fs::read(&words.0).expect("words");
    assert_eq!(written.len(), 4 * (16 + 6 * 4 + 9));
    assert_eq!(written[..12], [1, 0, 0, 0, 3, 0, 0, 0, 16, 0, 0, 0]);
    // The image is lowered as the text was.
    let output = run(&[image.path()], b"");
    assert_eq!((text(&output.stdout), output.status.code()), (LISTING, Some(0)));
}

#[test]
fn a_refusal_writes_no_words() {
    let words = Temporary::new("b.words");
    expect(INVERTER, &["--nets", "0", "--words-out", words.path()], 1, "refused 1 0 0: the net limit 0 is outside 1 to 65535\n");
    assert!(!words.0.exists());
}

/// The words that `--words-out` writes for a text with these options, as bytes.
fn stored(source: &str, options: &[&str], name: &str) -> Vec<u8> {
    let words = Temporary::new(name);
    let output = run(&[&["-", "--words-out", words.path()], options].concat(), source.as_bytes());
    assert_eq!(output.status.code(), Some(0), "{source}");
    std::fs::read(words.path()).expect("words")
}

/// The stored netlist is answered by this line and end.
fn expect_of_netlist(bytes: &[u8], status: i32, printed: &str) {
    let output = run(&["--check-netlist", "-"], bytes);
    assert_eq!((text(&output.stdout), text(&output.stderr)), (printed, ""));
    assert_eq!(output.status.code(), Some(status), "{printed}");
}

const STORED_INVERTER: &str =
    "accepted: 3 nets, 8 list words; 2 ports, 0 register bits, 0 memories, 0 arithmetic cells, 0 comparison cells\n";

#[test]
fn a_stored_netlist() {
    let words = Temporary::new("stored.words");
    expect(INVERTER, &["--words-out", words.path()], 0, LISTING);
    for options in [["--check-netlist", words.path()], [words.path(), "--check-netlist"]] {
        let output = run(&options, b"");
        assert_eq!((text(&output.stdout), output.status.code()), (STORED_INVERTER, Some(0)));
    }
    // The list ends at word 42; neither the words behind it nor their number matter.
    let mut bytes = stored(INVERTER, &["--nets", "3", "--words", "9"], "inverter.words");
    assert_eq!(bytes.len(), 4 * 43);
    for behind in [&[0xff; 4][..], &[], &[0xa5; 400]] {
        bytes.truncate(4 * 42);
        bytes.extend(behind);
        expect_of_netlist(&bytes, 0, STORED_INVERTER);
    }
}

#[test]
fn damaged_netlists() {
    let bytes = stored(INVERTER, &["--nets", "3", "--words", "8"], "damaged.words");
    let with = |word: usize, value: u32| {
        let mut bytes = bytes.clone();
        bytes[4 * word..4 * word + 4].copy_from_slice(&value.to_le_bytes());
        bytes
    };
    let offset = "refused 11 4 0: header word 4 (where the list begins) is 17, it must be 16 + 6N with N from 1 to 65535\n";
    expect_of_netlist(&with(4, 17), 1, offset);
    expect_of_netlist(&with(25, 1), 1, "refused 11 25 0: node 1 (Not): its first input is net 1, which is not below it\n");
    let listed = "refused 11 37 0: record 0 (port of signal 0): bit 0 is net 2, \
                  which has signal 1, bit 0, and must have signal 0, bit 0\n";
    expect_of_netlist(&with(37, 2), 1, listed);
    expect_of_netlist(&with(3, 4), 1, "refused 11 28 0: node 2 (Output, signal 1, bit 0) stands in no record\n");
    expect_of_netlist(&with(5, 3), 1, "refused 11 5 0: header word 5 counts 3 records of sort 0 (port), and the list has 2\n");
    let short = "refused 11 40 0: there are 40 words, and the header asks for 42: \
                 the list begins at word 34, and 8 of its words are used\n";
    expect_of_netlist(&bytes[..160], 1, short);
    expect_of_netlist(b"", 1, "refused 11 0 0: there are 0 words, and the header alone has 16\n");
}

/// The worked image of docs/FORMATS.md: its netlist, accepted and damaged, is told as the tables there have it.
#[test]
fn the_worked_netlist_of_the_formats() {
    let formats = include_str!("../../docs/FORMATS.md");
    let source = formats.split("## Worked image").nth(1).and_then(|section| section.split("```\n").nth(1)).expect("a text");
    let bytes = stored(source, &["--nets", "8", "--words", "33"], "worked.words");
    let with = |word: usize, value: u8| {
        let mut bytes = bytes.clone();
        bytes[4 * word] = value;
        bytes
    };
    let rows = [
        ("word 43 is 5", with(43, 5)),
        ("word 78 is 1", with(78, 1)),
        ("word 79 is 4", with(79, 4)),
        ("word 3 is 29: the last record is not read", with(3, 29)),
        ("word 5 is 4", with(5, 4)),
        ("the first 96 words only", bytes[..4 * 96].to_vec()),
        ("words behind the 97th, any", [&bytes[..], &[1, 2, 3, 4]].concat()),
    ];
    for (change, bytes) in rows {
        let output = run(&["--check-netlist", "-"], &bytes);
        let printed = text(&output.stdout).trim_end();
        let (answer, words) = match printed.strip_prefix("refused ").and_then(|rest| rest.split_once(": ")) {
            Some((answer, words)) => (answer, words),
            None => ("0 0 0", printed),
        };
        let row = format!("\n| {change} | {answer} | {words} |\n");
        assert!(formats.contains(&row), "{row}");
    }
}

/// What is lowered from the corpus is taken back in, with the limits as they may be and as small as can be.
#[test]
fn netlists_of_the_corpus() {
    let texts = std::fs::read_dir(corpus(".")).expect("the corpus");
    let paths = texts.map(|entry| entry.expect("an entry").path()).filter(|path| path.extension().is_some_and(|extension| extension == "txt"));
    let mut accepted = 0;
    for path in paths {
        let (name, words) = (path.file_stem().expect("a name").to_str().expect("text"), Temporary::new("corpus.words"));
        let file = path.to_str().expect("text");
        let lowered = run(&[file, "--words-out", words.path()], b"");
        if lowered.status.code() != Some(0) {
            continue;
        }
        let first = text(&lowered.stdout).lines().next().expect("a line").to_string();
        let numbers: Vec<&str> = first.split(' ').collect();
        let [_, nets, _, list] = numbers[..] else { panic!("{name}: {first}") };
        let least = if nets == "0" { "1" } else { nets };
        let exact = Temporary::new("exact.words");
        run(&[file, "--nets", least, "--words", list, "--words-out", exact.path()], b"");
        for stored in [&words, &exact] {
            let checked = run(&["--check-netlist", stored.path()], b"");
            let printed = text(&checked.stdout);
            assert!(printed.starts_with(&format!("accepted: {nets} net")), "{name}: {printed}");
            assert_eq!(checked.status.code(), Some(0), "{name}");
        }
        accepted += 1;
    }
    assert!(accepted >= 100, "only {accepted}");
}

#[test]
fn bytes_of_any_sort_are_answered() {
    for length in [1, 63, 64, 65, 4_096] {
        let output = run(&["-"], &vec![0; length]);
        assert!(text(&output.stdout).starts_with("refused 3 0 0: "), "{length}");
        assert_eq!(output.status.code(), Some(1));
    }
}
