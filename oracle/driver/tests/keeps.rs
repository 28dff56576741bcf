//! The trace program's keeps and backs (request Q-8), on cases worked out by hand.

use driver::{TraceProgram, trace};
use image::ABSENT;
use image::netlist_parts::*;

/// Inputs clk, d, we, and idle ones up to so many. At a rising clock a register takes
/// d, read data the word 0 of a memory, and where we is 1 that word becomes d. Outputs
/// register and read data.
fn input_of(inputs: u32, trace: &str) -> Vec<u8> {
    let mut nodes: Vec<NodeWords> = (0..inputs).map(|bit| input(0, bit)).collect();
    let [zero, stored, read, first] = [0, 1, 2, 3].map(|place| inputs + place);
    nodes.extend([constant(0), register_output(0, 0), memory_output(0, 0), output(1, 0, stored), output(1, 1, read)]);
    let mut register = register(0, 0, stored);
    register[4] = 1;
    let memory = [2, 0, 2, 0, 1, 1, 1, 1, 1, 1, zero, read, zero, 1, ABSENT, 0, 2, 0, 0, 0];
    let port: Vec<u32> = [0, 0, inputs].into_iter().chain(0..inputs).collect();
    let words = netlist(1_024, &nodes, &[&port, &register[..], &memory, &[0, 1, 2, first, first + 1]]);
    words.iter().flat_map(|word| word.to_le_bytes()).chain(trace.bytes()).collect()
}

/// What is printed, lines joined by spaces; the lines of the trace are parted by commas.
fn run_with(inputs: u32, trace_lines: &str) -> String {
    let lines: String = trace_lines.split(", ").map(|line| format!("{line}\n")).collect();
    String::from_utf8(trace(&input_of(inputs, &lines))).unwrap().trim_end().replace('\n', " ")
}

fn run(trace_lines: &str) -> String {
    run_with(3, trace_lines)
}

#[test]
fn registers_read_data_and_words_come_back() {
    // d is loaded, and is 0 again after the back.
    assert_eq!(run("010, keep a, 110, back a, 010, 000"), "00 10 00 00");
    // The word is written in the second line, read in the fourth; after the back it is 0.
    assert_eq!(run("011, keep a, 111, 010, 110, back a, 010, 110"), "00 10 10 11 00 10");
    // Kept after it was written, it is read after another word was written over it.
    assert_eq!(run("011, 111, keep a, 001, 101, 000, 100, back a, 000, 100"), "00 10 10 01 01 00 10 01");
    // Read data that were 1 come back without a step.
    assert_eq!(run("011, 111, 000, 100, keep a, 001, 101, 000, 100, back a, 100"), "00 10 10 01 01 01 01 00 01");
}

#[test]
fn a_step_after_a_back_begins_at_the_kept_setting() {
    // The clock was 0 at the keep, so a 1 is an edge, though it was 1 before the back.
    assert_eq!(run("010, keep a, 110, back a, 110"), "00 10 10");
    // It was 1 at the keep, so a 1 is none, though it was 0 before the back.
    assert_eq!(run("110, keep a, 010, back a, 110"), "00 00 00");
    // The data are those of the kept setting too.
    assert_eq!(run("010, keep a, 000, back a, 100"), "00 00 10");
    assert_eq!(run("000, keep a, 010, back a, 110"), "00 00 00");
}

#[test]
fn a_name_holds_its_last_keep_and_a_back_changes_no_name() {
    assert_eq!(run("010, keep a, 110, keep a, 000, 100, back a, 110"), "00 10 10 00 10");
    // Three endings from one moment.
    assert_eq!(run("010, keep a, 110, back a, 100, back a, 000, 110"), "00 10 10 00 00");
    // A keep after a back holds the run that came back and what followed.
    assert_eq!(run("010, keep a, 110, keep b, back a, 000, keep c, back b, 110, back c, 100"), "00 10 00 10 00");
    assert_eq!(run("010, keep a, keep b, keep c, keep d, 110, back d, keep d, keep a, back a, 010"), "00 10 00");
}

#[test]
fn what_15_refuses() {
    for (lines, expected) in [
        ("keep a", "refused 15 0 0"),
        ("back a", "refused 15 0 0"),
        ("000, back a", "00 refused 15 1 0"),
        ("000, keep ab, back a", "00 refused 15 2 0"),
        ("000, keep a, back ab", "00 refused 15 2 0"),
        ("000, keep a, keep b, keep c, keep d, keep e", "00 refused 15 5 0"),
        ("000, keep a, keep b, keep c, keep d, back a, keep e", "00 refused 15 6 0"),
        ("000, keep a, keep b, keep c, keep d, keep a, keep d, back e", "00 refused 15 7 0"),
    ] {
        assert_eq!(run(lines), expected, "{lines}");
    }
}

#[test]
fn any_other_line_is_judged_by_13() {
    for line in ["keep", "keep ", "keep  a", "keep a ", " keep a", "keep A", "keep a1", "keep a\r", "keepa", "keep\ta", "keep `", "keep {"] {
        for line in [line.to_string(), line.replace("keep", "back")] {
            assert_eq!(run(&format!("000, keep a, {line}, 000")), "00 refused 13 2 0", "{line}");
            assert_eq!(run(&line), "refused 13 0 0", "{line}");
        }
    }
}

#[test]
fn names_have_up_to_eight_letters_whatever_the_inputs() {
    for inputs in [3, 12, 13, 14, 20] {
        let setting = "0".repeat(inputs as usize);
        assert_eq!(run_with(inputs, &format!("{setting}, keep abcdefgh, {setting}, back abcdefgh, {setting}")), "00 00 00");
        assert_eq!(run_with(inputs, &format!("{setting}, keep abcdefghi, {setting}")), "00 refused 13 1 0");
        assert_eq!(run_with(inputs, &format!("{setting}, keep abcdefgh, back abcdefg")), "00 refused 15 2 0");
        assert_eq!(run_with(inputs, &format!("{setting}, {setting}0")), "00 refused 13 1 0");
    }
}

/// The line's end is judged first, and all lines are counted.
#[test]
fn lines_without_their_end() {
    for last in ["keep a", "back a", "back b", "keep", "0000000000000", "00000000000000", "keep abcdefghi", "back "] {
        let text = trace(&input_of(3, &format!("000\nkeep a\n100\nback a\n{last}")));
        assert_eq!(String::from_utf8(text).unwrap(), "00\n00\nrefused 13 4 0\n", "{last}");
    }
    assert_eq!(trace(&input_of(3, "keep a")), b"refused 13 0 0\n");
}

/// In whatever parts the bytes come, the text is the same.
#[test]
fn parts_of_a_trace() {
    let whole = input_of(3, "010\nkeep abcdefgh\n110\nback abcdefgh\n000\nkeep a\nback b\n");
    for size in 1..40 {
        let (mut program, mut text) = (TraceProgram::default(), Vec::new());
        whole.chunks(size).for_each(|part| program.take(part, &mut text));
        program.end(&mut text);
        assert_eq!(String::from_utf8(text).unwrap(), "00\n10\n00\nrefused 15 6 0\n");
    }
}
