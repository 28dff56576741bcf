//! Every text of the corpus assembles and comes out as its `# expect` lines
//! say, by the reference checks and by struo's own lowering with the rows of
//! request Q-5, and as its `# struo` lines say by the unchanged lowering.

use driver::Answer;
use image::corpus::{self, Text};
use image::{netlist_words, Image};
use std::collections::BTreeMap;

/// Limits and buffers of one call.
#[derive(Clone, Copy)]
struct Call {
    n: u32,
    p: u32,
    buffers: Option<(usize, usize)>,
    rust: Rust,
}

/// With the rows of Or and Xor, or unchanged.
#[derive(Clone, Copy, PartialEq)]
enum Rust {
    WithRows,
    Unchanged,
}

#[test]
fn every_case_comes_out_as_expected() {
    let mut wrong = Vec::new();
    let mut lines = 0;
    for Text { name, text, image } in texts() {
        let expectations = expectations(&text);
        assert!(!expectations.is_empty(), "{name} expects nothing");
        for (call, expected) in expectations {
            lines += 1;
            if let Err(found) = judge(&image, call, &expected) {
                wrong.push(format!(
                    "{name}, limits {} {}: expected {expected}, found {found}",
                    call.n, call.p
                ));
            }
        }
    }
    assert!(wrong.is_empty(), "\n{}", wrong.join("\n"));
    assert!(lines > 100, "only {lines} expectations");
}

fn texts() -> Vec<Text> {
    corpus::texts(&corpus::folder()).unwrap_or_else(|problem| panic!("{problem}"))
}

#[test]
fn the_unchanged_rust_differs_where_a_text_says_so() {
    let mut lines = 0;
    for Text { name, text, image } in texts() {
        for (call, expected) in expectations(&text) {
            if call.rust == Rust::Unchanged {
                lines += 1;
                let with_rows = Call { rust: Rust::WithRows, ..call };
                assert!(judge(&image, with_rows, &expected).is_err(), "{name}: {expected}");
            }
        }
    }
    assert!(lines > 5, "only {lines} differences");
}

/// Each `# expect` and `# struo` line with the limits and buffers before it.
fn expectations(text: &str) -> Vec<(Call, String)> {
    let mut call = Call {
        n: 1024,
        p: 2048,
        buffers: None,
        rust: Rust::WithRows,
    };
    let mut found = Vec::new();
    for line in text.lines() {
        let words: Vec<&str> = line.split_whitespace().collect();
        match words[..] {
            ["#", "limits", n, p] => {
                call = Call {
                    n: number(n),
                    p: number(p),
                    buffers: None,
                    ..call
                }
            }
            ["#", "buffers", netlist, scratch] => {
                call.buffers = Some((number(netlist) as usize, number(scratch) as usize));
            }
            ["#", "expect", ..] => found.push((call, words[2..].join(" "))),
            ["#", "struo", "accepted" | "refused", ..] => {
                let unchanged = Call { rust: Rust::Unchanged, ..call };
                found.push((unchanged, words[2..].join(" ")));
            }
            _ => {}
        }
    }
    found
}

fn number(text: &str) -> u32 {
    text.parse()
        .unwrap_or_else(|_| panic!("'{text}' is not a number"))
}

/// What comes out instead, where it is not what was expected.
fn judge(bytes: &[u8], call: Call, expected: &str) -> Result<(), String> {
    let found = outcome(bytes, call);
    let fits = expected
        .split(' ')
        .all(|word| found.split(' ').any(|other| other == word));
    let same = expected.starts_with("accepted") == found.starts_with("accepted");
    let refusal = expected.starts_with("accepted") || expected == found;
    if fits && same && refusal {
        Ok(())
    } else {
        Err(found)
    }
}

fn outcome(bytes: &[u8], call: Call) -> String {
    let scratch = reference::scratch_words(bytes, call.n).unwrap_or(0);
    let (netlist, scratch) = call
        .buffers
        .unwrap_or((netlist_words(call.n, call.p), scratch));
    let check = reference::check(bytes, call.n, call.p, netlist, scratch);
    if check != [0, 0, 0] {
        return refused(check);
    }
    let answer = match call.rust {
        Rust::WithRows => driver::lower_limited(bytes, call.n, call.p, false),
        Rust::Unchanged => driver::lower_unchanged(bytes, false),
    };
    match answer {
        Answer::Refused(answer) => refused(answer),
        Answer::Crash(message) => panic!("{message}"),
        Answer::Netlist { nodes, records } => accepted(bytes, call, &nodes, &records),
    }
}

fn refused([number, first, second]: [u32; 3]) -> String {
    format!("refused {number} {first} {second}")
}

/// Counts of nets, list words and records, the cells' widths, the number of
/// cells with a carry, and each output's value where all inputs are 0.
fn accepted(bytes: &[u8], call: Call, nodes: &[[u32; 6]], records: &[Vec<u32>]) -> String {
    let list: usize = records.iter().map(Vec::len).sum();
    let mut text = format!("accepted nets={} list={list}", nodes.len());
    let sorts = ["ports", "registers", "memories", "arithmetic", "comparison"];
    for (sort, name) in sorts.into_iter().enumerate() {
        let count = records
            .iter()
            .filter(|record| record[0] as usize == sort)
            .count();
        text += &format!(" {name}={count}");
    }
    let cells: Vec<&Vec<u32>> = records.iter().filter(|record| record[0] == 3).collect();
    let widths: Vec<String> = cells.iter().map(|cell| cell[2].to_string()).collect();
    let carries = cells.iter().filter(|cell| cell[3] != image::ABSENT).count();
    text += &format!(" widths={} carries={carries}", widths.join(","));
    for (name, value) in values(bytes, call, nodes, records) {
        text += &format!(" {name}={value}");
    }
    text
}

/// The outputs' values in the netlist and in the module, which must agree.
fn values(
    bytes: &[u8],
    call: Call,
    nodes: &[[u32; 6]],
    records: &[Vec<u32>],
) -> BTreeMap<String, u128> {
    let module = driver::ModuleSim::new(bytes).expect("a module");
    let setting = module
        .inputs()
        .map(|(signal, width)| (signal, vec![false; width as usize]))
        .collect();
    let settings: [driver::Setting; 1] = [setting];
    let answer = Answer::Netlist {
        nodes: nodes.to_vec(),
        records: records.to_vec(),
    };
    let netlist = driver::NetlistSim::new(&driver::words(&answer, call.n, call.p));
    let first = module.zero_contents();
    let (Ok(runs), Ok(others)) = (
        module.run(&first, &settings),
        netlist.run(&first, &settings),
    ) else {
        return BTreeMap::new();
    };
    assert_eq!(runs, others, "module and netlist differ");
    let image = Image::decode(bytes).expect("an image");
    let outputs = runs.observations[0].outputs.iter();
    outputs
        .map(|(signal, bits)| {
            let name = image.name_of(&image.signals[*signal as usize]).expect("a name");
            (name.to_string(), value(bits))
        })
        .collect()
}

fn value(bits: &[bool]) -> u128 {
    bits.iter()
        .take(128)
        .rev()
        .fold(0, |value, bit| 2 * value + u128::from(*bit))
}
