//! Keeps and backs (request Q-8) by name: what a back must bring back, how many names
//! are held, what 15 refuses and what 13, lines about as long as the longest keep.

use super::clashes;
use super::limits::{bytes, inverter, of_memories, without_inputs, without_outputs, Named};
use super::names::{store, BADLY_FORMED};

/// All of them; those that are badly formed come last, each with its line as its name.
pub fn named() -> Vec<Named> {
    [states(), settings(), held_names(), refused(), lengths(), other_netlists(), clashes::after_backs(), badly_formed()].concat()
}

/// The netlist of three inputs and these lines, parted by commas.
fn stored(lines: &str) -> Vec<u8> {
    stored_with(3, lines)
}

fn stored_with(inputs: u32, lines: &str) -> Vec<u8> {
    let lines: String = lines.split(", ").map(|line| format!("{line}\n")).collect();
    bytes(&store(inputs).words(), lines.as_bytes())
}

/// Each part of the state is another before the back than at the keep, and shows.
fn states() -> Vec<Named> {
    vec![
        ("a keep", stored("010, keep a, 110, 000")),
        ("a keep at the end", stored("010, 110, keep a")),
        ("a back at the end", stored("010, keep a, 110, back a")),
        ("a keep and a back at once", stored("010, 110, keep a, back a, 000, 100")),
        ("a back to before a register was loaded", stored("010, keep a, 110, back a, 010, 000")),
        ("a back to before a register was cleared", stored("010, 110, keep a, 000, 100, back a, 110")),
        ("a back to before a word was written", stored("011, keep a, 111, 010, 110, back a, 010, 110")),
        ("a back to before a word was written over", stored("011, 111, keep a, 001, 101, 000, 100, back a, 000, 100")),
        ("a back to before a word was read", stored("011, 111, 010, keep a, 110, back a, 010, 110")),
        ("a back to read data that were 1", stored("011, 111, 000, 100, keep a, 001, 101, 000, 100, back a, 100")),
    ]
}

fn settings() -> Vec<Named> {
    vec![
        ("a back to a low clock", stored("010, keep a, 110, back a, 110, 010")),
        ("a back to a high clock", stored("110, keep a, 010, back a, 110, 010")),
        ("a back to a low clock, with an edge between", stored("010, 110, 010, keep a, 100, back a, 000, 100")),
        ("a back to other data", stored("010, keep a, 000, back a, 100")),
        ("a back to another enable", stored("011, keep a, 010, back a, 110, 010, 110")),
        ("a back to a low clock, and its own line again", stored("010, keep a, 110, back a, 010, 110")),
    ]
}

fn held_names() -> Vec<Named> {
    const FOUR: &str = "010, keep a, 110, keep b, 000, keep c, 100, keep d";
    let four = |rest: &str| stored(&format!("{FOUR}, {rest}"));
    vec![
        ("three endings", stored("010, keep a, 110, back a, 000, 110, back a, 100, 000")),
        ("four names", four("back a, 110, back b, 110, back c, 110, back d, 110")),
        ("four names, the last first", four("back d, 110, back c, 110, back b, 110, back a, 110")),
        ("a name kept again", stored("010, keep a, 110, keep a, 000, 100, back a, 110")),
        ("a name kept again and again", stored("010, keep a, 110, keep a, 000, keep a, 100, keep a, 010, back a, 110")),
        ("four names, one kept again", four("010, keep b, 110, back b, 110, back c, 110")),
        ("a keep after a back", stored("010, keep a, 110, back a, 000, keep b, 110, back b, 100, back a, 100")),
        ("a name kept again after its back", stored("010, keep a, 110, back a, 000, keep a, 110, back a, 100")),
        ("names of eight letters, the last one another", stored("010, keep abcdefgh, 110, keep abcdefgi, 000, back abcdefgh, 110")),
        ("names of eight letters, the first one another", stored("010, keep abcdefgh, 110, keep bbcdefgh, 000, back abcdefgh, 110")),
        ("names that begin alike", stored("010, keep a, 110, keep ab, 000, back a, 110, back ab, 110")),
        ("names keep and back", stored("010, keep keep, 110, keep back, 000, back keep, 110, back back, 110")),
        ("a fifth name", four("keep e")),
        ("a fifth name after a back", four("back a, 110, keep e, 000")),
        ("a fifth name after one was kept again", four("keep a, keep d, keep abcdefgh")),
    ]
}

fn refused() -> Vec<Named> {
    let open = |lines: &str| {
        let mut input = stored(lines);
        input.pop();
        input
    };
    vec![
        ("a keep before the first line", stored("keep a, 010")),
        ("a back before the first line", stored("back a, 010")),
        ("a back to a name not kept", stored("010, back a, 110")),
        ("a back to a name of which one is the beginning", stored("010, keep a, back ab")),
        ("a back to the beginning of a name", stored("010, keep ab, back a")),
        ("a back to seven of eight letters", stored("010, keep abcdefgh, back abcdefg")),
        ("keeps and backs are counted", stored("010, keep a, back a, back a, 2")),
        ("a keep without its end", open("010, keep a")),
        ("a back without its end", open("010, keep a, back a")),
        ("a back without its end, to a name not kept", open("010, back a")),
        ("a fifth name without its end", open("010, keep a, keep b, keep c, keep d, keep e")),
        ("a keep without its end, before the first line", open("keep a")),
    ]
}

/// Settings lines and the longest keep, with as many letters as it has and about.
fn lengths() -> Vec<Named> {
    let with_keep = |inputs: u32| {
        let [low, high] = ["0", "1"].map(|rest| rest.repeat(inputs as usize - 2));
        stored_with(inputs, &format!("01{low}, keep abcdefgh, 11{low}, 00{high}, back abcdefgh, 10{high}"))
    };
    let ends_with = |last: &str| [stored("010, keep a"), last.into()].concat();
    vec![
        ("twelve inputs and the longest keep", with_keep(12)),
        ("thirteen inputs and the longest keep", with_keep(13)),
        ("fourteen inputs and the longest keep", with_keep(14)),
        ("twelve inputs and thirteen letters", stored_with(12, "010000000000, 0100000000000")),
        ("fourteen inputs and thirteen letters", stored_with(14, "01000000000000, 0100000000000")),
        ("fourteen inputs and nine letters of a name", stored_with(14, "01000000000000, keep abcdefghi")),
        ("three inputs and thirteen letters", ends_with("0100000000000\n")),
        ("thirteen letters without an end", ends_with("0100000000000")),
        ("fourteen letters without an end", ends_with("01000000000000")),
        ("the longest keep without its end", ends_with("keep abcdefgh")),
        ("nine letters of a name without an end", ends_with("back abcdefghi")),
    ]
}

fn other_netlists() -> Vec<Named> {
    const FOUR: &[u8] = b"0\n1\nkeep a\n0\n1\nkeep b\n0\nkeep c\n1\nkeep d\n0\nback a\n0\n1\nback c\n1\n0\nback d\n0\n1\nkeep a\nback a\n0\n";
    vec![
        ("one input, a keep and a back", bytes(&inverter().words(), b"0\nkeep abcdefgh\n1\nback abcdefgh\n0\n")),
        ("no inputs, a keep and a back", without_inputs(b"\nkeep a\n\nback a\n\n")),
        ("no inputs, a keep at the front", without_inputs(b"keep a\n\n")),
        ("no inputs, nine letters of a name", without_inputs(b"\nkeep abcdefghi\n")),
        ("no outputs, a keep and a back", without_outputs(b"00\nkeep a\n11\nback a\n01\n")),
        ("65,536 words of one bit, four names", of_memories(1, &[(65_536, 1)], FOUR)),
        ("128 words of 512 bits, four names", of_memories(1, &[(128, 512)], FOUR)),
        ("sixteen memories of 4,096 bits, four names", of_memories(1, &[(4_096, 1); 16], FOUR)),
    ]
}

fn badly_formed() -> Vec<Named> {
    BADLY_FORMED.concat().into_iter().map(|line| (line, stored(&format!("010, keep a, {line}, 110")))).collect()
}
