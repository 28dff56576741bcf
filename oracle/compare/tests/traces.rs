//! The comparison of traces, tried on the oracle itself: two trace programs of
//! different shape and another simulator agree, every outcome is met, each rule read
//! wrongly is found; the inputs at the limits are where they should be.

use compare::netlists;
use compare::plan::Plan;
use compare::traces::cases::right;
use compare::traces::clashes;
use compare::traces::limits::{at_the_limits, bytes};
use compare::traces::names::{self, Ending, BADLY_FORMED};
use compare::traces::run::{run, Tracer};
use compare::traces::selftest::self_test;
use compare::traces::stored::{controller, read, stdout};
use compare::traces::variants::Variant;
use driver::{NetlistSim, Observation, Setting};
use image::netlist::Netlist;
use image::Random;

const PLAN: Plan = Plan { seed: 1, first: 0, count: 3_000 };

#[test]
fn both_programs_agree_and_every_outcome_is_met() {
    driver::with_big_stack(|| {
        let tally = run(&Variant(None), &PLAN).unwrap_or_else(|failure| panic!("{failure}"));
        println!("{tally}");
        for outcome in ["run to the end", "refused 11", "refused 12", "refused 13", "refused 14", "refused 15"] {
            assert!(tally.outcomes[outcome] > PLAN.count / 20, "{outcome}: {tally}");
        }
        assert!(tally.moving > tally.lines / 3, "{tally}");
        assert!(tally.backs > PLAN.count && tally.keeps > PLAN.count && tally.differing > PLAN.count / 20, "{tally}");
    });
}

#[test]
fn each_rule_read_wrongly_is_found() {
    driver::with_big_stack(|| assert!(self_test(&PLAN)));
}

/// A program that fails, or prints a byte too few, is found at once.
#[test]
fn what_does_not_print_the_text_is_found() {
    struct Fails;
    impl Tracer for Fails {
        fn trace(&self, _: &[u8]) -> Result<Vec<u8>, String> {
            Err("it fails".to_string())
        }
    }
    struct Cuts;
    impl Tracer for Cuts {
        fn trace(&self, input: &[u8]) -> Result<Vec<u8>, String> {
            let mut text = driver::trace(input);
            text.pop();
            Ok(text)
        }
    }
    driver::with_big_stack(|| {
        assert_eq!(run(&Fails, &PLAN).err().map(|failure| failure.number), Some(0));
        assert_eq!(run(&Cuts, &PLAN).err().map(|failure| failure.number), Some(0));
    });
}

/// The reader of netlists asks for no more than refusal 11.
#[test]
fn what_11_lets_pass_is_read() {
    driver::with_big_stack(|| {
        let slices = (0..6_000).map(|number| netlists::cases::case(&mut Random::of_case(4, number), number).slice);
        let mut accepted = slices.filter(|slice| reference::netlist_answer(slice) == reference::FINE).peekable();
        assert!(accepted.peek().is_some());
        accepted.for_each(|slice| assert_eq!(Netlist::decode(&slice).err(), None, "{slice:?}"));
    });
}

/// What the oracle's trace program prints.
fn printed(words: &[u32], trace: &[u8]) -> String {
    String::from_utf8(driver::trace(&bytes(words, trace))).unwrap()
}

/// A netlist and a right trace: lowered, by hand, or one whose contents show.
fn some_right(random: &mut Random, number: u64) -> (Vec<u32>, Vec<Vec<u8>>) {
    match number % 5 {
        0 => right(random, true),
        1 | 2 => right(random, false),
        3 => names::right_store(random),
        _ => clashes::right(random),
    }
}

/// The settings of a trace's lines, by signal.
fn settings(netlist: &Netlist, lines: &[Vec<u8>]) -> Vec<Setting> {
    let setting = |line: &Vec<u8>| {
        let mut letters = line.iter();
        let inputs = netlist.ports.iter().filter(|port| port.input);
        inputs.map(|port| (port.signal, port.nets.iter().map(|_| letters.next() == Some(&b'1')).collect())).collect()
    };
    lines.iter().map(setting).collect()
}

/// The output bits in the order of a trace.
fn output_line(netlist: &Netlist, seen: &Observation) -> String {
    let outputs = netlist.ports.iter().filter(|port| !port.input);
    let bits = outputs.flat_map(|port| &seen.outputs[&port.signal]);
    bits.map(|&bit| if bit { '1' } else { '0' }).chain(['\n']).collect()
}

#[test]
fn the_netlist_simulator_shows_the_same_outputs() {
    let (mut compared, mut refused) = (0, 0);
    driver::with_big_stack(|| {
        for number in 0..1_000 {
            let (words, lines) = some_right(&mut Random::of_case(3, number), number);
            let text = printed(&words, &lines.concat());
            let netlist = Netlist::decode(&words).unwrap();
            let sim = NetlistSim::new(&words);
            let Ok(seen) = sim.run(&sim.zero_contents(), &settings(&netlist, &lines)) else { continue };
            if text.starts_with("refused") {
                continue;
            }
            let shown = seen.observations.len();
            compared += shown;
            let mut expected: String = seen.observations.iter().map(|seen| output_line(&netlist, seen)).collect();
            if let Some(memory) = seen.clash {
                refused += 1;
                expected += &format!("refused 14 {shown} {memory}\n");
            }
            assert_eq!(text, expected, "case {number}");
        }
    });
    println!("{compared} lines, {refused} write clashes");
    assert!(compared > 10_000 && refused > 100, "{compared} {refused}");
}

/// "After a back, the settings lines up to the next back print the output bits that they
/// would have printed had they followed the keep."
#[test]
fn each_ending_prints_what_it_prints_as_a_plain_trace() {
    let (mut backs, mut refused) = (0, 0);
    driver::with_big_stack(|| {
        for number in 0..1_000 {
            let random = &mut Random::of_case(5, number);
            let (words, lines) = some_right(random, number);
            let lines = names::with_names(random, lines);
            let text = printed(&words, &lines.concat());
            if text.starts_with("refused") {
                continue;
            }
            let endings = names::endings(&lines);
            let run = |ending: &Ending| {
                let lines: String = ending.lines.iter().map(|line| format!("{line}\n")).collect();
                printed(&words, lines.as_bytes())
            };
            let texts: Vec<String> = endings.iter().map(run).collect();
            assert_eq!(text, names::joined(&endings, &texts), "case {number}");
            backs += endings.len() - 1;
            refused += usize::from(text.contains("refused 14 "));
        }
    });
    println!("{backs} backs, {refused} write clashes");
    assert!(backs > 2_000 && refused > 50, "{backs} {refused}");
}

/// What each input at a limit ends with: its last line.
#[test]
fn the_inputs_are_at_the_limits() {
    let refused: Vec<(&str, String)> = at_the_limits()
        .into_iter()
        .filter_map(|(name, input)| {
            let text = String::from_utf8(driver::trace(&input)).unwrap();
            let last = text.lines().last().unwrap_or("").to_string();
            last.strip_prefix("refused ").map(|place| (name, place.to_string()))
        })
        .collect();
    let badly_formed = BADLY_FORMED.concat().into_iter().map(|line| (line, "13 2 0"));
    let expected: Vec<(&str, String)> = LIMITS.into_iter().chain(badly_formed).map(|(name, place)| (name, place.to_string())).collect();
    assert_eq!(refused, expected);
    assert_eq!(at_the_limits().len(), 238);
}

/// Those that are refused, without the lines that are badly formed keeps and backs; all
/// others run to the end.
const LIMITS: [(&str, &str); 122] = [
    ("no bytes", "11 0 0"),
    ("a cut word", "11 0 0"),
    ("a word", "11 1 0"),
    ("a wrong word", "11 0 0"),
    ("five header words with another N", "11 5 0"),
    ("fifteen header words with another N", "11 15 0"),
    ("sixteen header words", "11 16 0"),
    ("sixteen header words and a cut word", "11 16 0"),
    ("sixteen header words, N 1,023", "12 0 0"),
    ("sixteen header words, N 1,025", "12 0 0"),
    ("header word 15 is wrong, and N", "11 15 0"),
    ("a record count is wrong, and N", "12 0 0"),
    ("sixteen header words, 2,048 list words", "11 16 0"),
    ("sixteen header words, 2,049 list words", "12 0 0"),
    ("sixteen header words, 65,535 list words", "12 0 0"),
    ("sixteen header words, 65,536 list words", "11 3 0"),
    ("1,025 nets", "11 4 0"),
    ("N 1,023", "12 0 0"),
    ("N 1,025", "12 0 0"),
    ("N 3", "12 0 0"),
    ("a list word more", "12 0 0"),
    ("a clock is a constant", "12 0 0"),
    ("a clock is a gate", "12 0 0"),
    ("a clock is a register output", "12 0 0"),
    ("a clock is a memory output", "12 0 0"),
    ("a clock is a sum", "12 0 0"),
    ("a clock is a comparison", "12 0 0"),
    ("a clock is an output node on an input", "12 0 0"),
    ("a memory's clock is a constant", "12 0 0"),
    ("a memory's clock is a gate", "12 0 0"),
    ("a memory's clock is a register output", "12 0 0"),
    ("a memory's clock is a memory output", "12 0 0"),
    ("a memory's clock is a sum", "12 0 0"),
    ("a memory's clock is a comparison", "12 0 0"),
    ("a memory's clock is an output node on an input", "12 0 0"),
    ("a second port's clock is a gate", "12 0 0"),
    ("an asynchronous reset is a constant", "12 0 0"),
    ("an asynchronous reset is a gate", "12 0 0"),
    ("an asynchronous reset is a register output", "12 0 0"),
    ("an asynchronous reset is a memory output", "12 0 0"),
    ("an asynchronous reset is a sum", "12 0 0"),
    ("an asynchronous reset is a comparison", "12 0 0"),
    ("an asynchronous reset is an output node on an input", "12 0 0"),
    ("an asynchronous reset is an output node", "12 0 0"),
    ("65,536 words of one bit, and a word", "12 0 0"),
    ("a word, and 65,536 words of one bit", "12 0 0"),
    ("129 words of 512 bits", "12 0 0"),
    ("two memories, a word more", "12 0 0"),
    ("65,536 words of 500 bits", "12 0 0"),
    ("sixteen memories, a word more", "12 0 0"),
    ("a byte of the netlist is missing", "11 6167 0"),
    ("a word of the netlist is missing", "11 6167 0"),
    ("two words are missing, and the trace stands in their place", "11 6164 0"),
    ("a word is missing, and the trace is too short", "11 6167 0"),
    ("two words are missing, and the trace has one and a cut one", "11 6167 0"),
    ("a whole buffer with its zeros", "13 0 0"),
    ("a clock that is no input, and a wrong count", "11 6 0"),
    ("words follow that look like a record", "13 0 0"),
    ("no byte 10 at the end", "13 2 0"),
    ("one letter", "13 0 0"),
    ("an empty line", "13 1 0"),
    ("an empty line at the end", "13 2 0"),
    ("a line too long", "13 2 0"),
    ("a letter 2", "13 2 0"),
    ("byte 0", "13 1 0"),
    ("byte 255", "13 0 0"),
    ("a space", "13 0 0"),
    ("byte 13 and byte 10", "13 0 0"),
    ("byte 13 alone", "13 0 0"),
    ("a long line", "13 0 0"),
    ("no inputs, a letter", "13 1 0"),
    ("no inputs, a letter without byte 10", "13 2 0"),
    ("no outputs, too short", "13 1 0"),
    ("a clash", "14 1 5"),
    ("a clash of equal words", "14 1 5"),
    ("a clash, the enables off after it", "14 1 5"),
    ("a clash, the addresses apart after it", "14 1 5"),
    ("a clash with enables that are low", "14 2 0"),
    ("a clash at the last word", "14 1 15"),
    ("a clash of addresses of 1 and 32 bits", "14 1 15"),
    ("a clash on two clocks", "14 4 5"),
    ("a clash on a rising and a falling clock", "14 4 5"),
    ("a clash on a falling clock", "14 2 5"),
    ("a clash in three memories, the lowest last", "14 1 2"),
    ("a clash in three memories, the lowest between", "14 1 0"),
    ("a clash in the higher memory", "14 1 7"),
    ("a clash in the lower memory, whose record is last", "14 1 2"),
    ("a clash after the first line alone", "14 2 5"),
    ("a wrong end of a line with a clash", "13 1 0"),
    ("a wrong letter in a line with a clash", "13 1 0"),
    ("a line with a clash, too long", "13 1 0"),
    ("a line with a clash, too short", "13 1 0"),
    ("a clash before a wrong line", "14 1 5"),
    ("a clash before an open line", "14 1 5"),
    ("a fifth name", "15 8 0"),
    ("a fifth name after a back", "15 10 0"),
    ("a fifth name after one was kept again", "15 10 0"),
    ("a keep before the first line", "15 0 0"),
    ("a back before the first line", "15 0 0"),
    ("a back to a name not kept", "15 1 0"),
    ("a back to a name of which one is the beginning", "15 2 0"),
    ("a back to the beginning of a name", "15 2 0"),
    ("a back to seven of eight letters", "15 2 0"),
    ("keeps and backs are counted", "13 4 0"),
    ("a keep without its end", "13 1 0"),
    ("a back without its end", "13 2 0"),
    ("a back without its end, to a name not kept", "13 1 0"),
    ("a fifth name without its end", "13 5 0"),
    ("a keep without its end, before the first line", "13 0 0"),
    ("twelve inputs and thirteen letters", "13 1 0"),
    ("fourteen inputs and thirteen letters", "13 1 0"),
    ("fourteen inputs and nine letters of a name", "13 1 0"),
    ("three inputs and thirteen letters", "13 2 0"),
    ("thirteen letters without an end", "13 2 0"),
    ("fourteen letters without an end", "13 2 0"),
    ("the longest keep without its end", "13 2 0"),
    ("nine letters of a name without an end", "13 2 0"),
    ("no inputs, a keep at the front", "15 0 0"),
    ("no inputs, nine letters of a name", "13 1 0"),
    ("a clash after a back", "14 4 5"),
    ("a clash after a back, with lines between", "14 6 5"),
    ("a back and the line of a clash without its end", "13 3 0"),
];

fn file(folder: &str, name: &str) -> Vec<u8> {
    let path = std::path::Path::new(env!("CARGO_MANIFEST_DIR")).join("../../crates").join(folder).join(name);
    std::fs::read(&path).unwrap_or_else(|error| panic!("{}: {error}", path.display()))
}

#[test]
fn the_stored_runs_hold_the_oracles_texts() {
    let inputs = read(&file("trace_runs", "stdin")).unwrap();
    assert!(inputs.len() > 300, "{}", inputs.len());
    let texts = file("trace_runs", "stdout");
    assert!(stdout(&inputs) == texts, "other texts than stored");
    for number in ["14", "15"] {
        assert!(String::from_utf8_lossy(&texts).contains(&format!("\nrefused {number} ")), "no refusal {number}");
    }
}

#[test]
fn the_stored_controller_is_the_corpus_text_lowered() {
    let image = image::assemble(include_str!("../../../corpus/controller.txt")).expect("a text of the corpus");
    let input = driver::with_big_stack(|| controller(&image)).expect("an image that is accepted");
    assert!(input == file("trace", "stdin"), "another input than stored");
    assert!(driver::trace(&input) == file("trace", "stdout"), "another text than stored");
}
