//! The trace program where both ports of a memory write one word (request Q-6), on
//! cases worked out by hand.

use driver::trace;
use image::ABSENT;
use image::netlist_parts::*;

/// Input bits in the order of a line: two clocks, then of each port write enable, data
/// and three address bits, then a reset.
const CLOCKS: [u32; 2] = [0, 1];
const PORTS: [u32; 2] = [2, 7];
const RESET: u32 = 12;
const INPUTS: u32 = 13;

/// A memory of words of one bit. Of each port the width of its addresses, its clock
/// and edge, and the level of its write enable.
#[derive(Clone, Copy)]
struct Rig {
    number: u32,
    depth: u32,
    widths: [u32; 2],
    clocks: [[u32; 2]; 2],
    levels: [u32; 2],
}

const PLAIN: Rig = Rig { number: 5, depth: 3, widths: [2, 2], clocks: [[CLOCKS[0], 0]; 2], levels: [0, 0] };

impl Rig {
    /// The record, with this net as the first of the read data.
    fn record(&self, read: u32, ports: usize) -> Vec<u32> {
        let mut record = vec![2, self.number, self.depth, 0, 1, ports as u32];
        for (port, first) in PORTS.into_iter().enumerate().take(ports) {
            let width = self.widths[port];
            let address: Vec<u32> = (first + 2..first + 2 + width).collect();
            record.extend([width, 1, width, 1]);
            record.extend(&address);
            record.push(read + port as u32);
            record.extend(&address);
            record.extend([first + 1, ABSENT, 0, first, self.levels[port]]);
            record.extend(self.clocks[port]);
        }
        record
    }

    /// What is printed, lines joined by spaces: the read data of both ports.
    fn run(&self, settings: &str) -> String {
        run(&[*self], 2, settings)
    }
}

/// Memories with so many ports, their records in this order; outputs are all read data.
/// A register with an asynchronous reset stands by.
fn netlist_of(rigs: &[Rig], ports: usize) -> Vec<u32> {
    let mut nodes: Vec<NodeWords> = (0..INPUTS).map(|bit| input(0, bit)).collect();
    nodes.push(register_output(0, 0));
    let mut stored = register(0, 0, INPUTS);
    (stored[9], stored[11], stored[12]) = (RESET, 1, 1);
    let mut records = vec![[0, 0, INPUTS].into_iter().chain(0..INPUTS).collect(), stored.to_vec()];
    for rig in rigs {
        records.push(rig.record(nodes.len() as u32, ports));
        nodes.extend((0..ports as u32).map(|bit| memory_output(rig.number, bit)));
    }
    let read = INPUTS + 1..nodes.len() as u32;
    let first = nodes.len() as u32;
    nodes.extend(read.enumerate().map(|(bit, net)| output(1, bit as u32, net)));
    records.push([0, 1, nodes.len() as u32 - first].into_iter().chain(first..nodes.len() as u32).collect());
    netlist(1_024, &nodes, &records)
}

fn printed(words: &[u32], trace_bytes: &str) -> String {
    let input: Vec<u8> = words.iter().flat_map(|word| word.to_le_bytes()).chain(trace_bytes.bytes()).collect();
    String::from_utf8(trace(&input)).unwrap()
}

/// A setting is written `CC_EDAAA_EDAAA`: clocks, and of each port enable, data and
/// address, bit 0 first; the reset is 0 where it is left out.
fn line(setting: &str) -> String {
    format!("{:0<13}", setting.replace('_', ""))
}

fn run(rigs: &[Rig], ports: usize, settings: &str) -> String {
    let lines: String = settings.split_whitespace().map(|setting| line(setting) + "\n").collect();
    printed(&netlist_of(rigs, ports), &lines).trim_end().replace('\n', " ")
}

#[test]
fn both_ports_write_one_word() {
    for address in ["000", "100", "010"] {
        for data in ["10_11", "11_10", "10_10", "11_11"] {
            let (one, two) = data.split_once('_').unwrap();
            let written = format!("{one}{address}_{two}{address}");
            let seen = PLAIN.run(&format!("00_{written} 10_{written} 00_{written}"));
            assert_eq!(seen, "00 refused 14 1 5", "{written}");
        }
    }
    assert_eq!(PLAIN.run("00_11100_11010 10_11100_11010 00_00100_00010 10_00100_00010"), "00 00 00 11");
}

#[test]
fn lines_before_the_clash_stay_printed() {
    let settings = "00_11100_00000 10_11100_00000 00_00100_00100 10_00100_00100 00_10100_10100 10_10100_10100 00_00000_00000";
    assert_eq!(PLAIN.run(settings), "00 00 00 11 11 refused 14 5 5");
}

#[test]
fn an_enable_is_read_before_the_step() {
    for off in ["01100_11100", "11100_01100", "01100_01100"] {
        assert_eq!(PLAIN.run(&format!("00_{off} 10_11100_11100")), "00 00", "{off}");
    }
    assert_eq!(PLAIN.run("00_11100_11100 10_01100_01100"), "00 refused 14 1 5");
    let low = Rig { levels: [1, 0], ..PLAIN };
    assert_eq!(low.run("00_11100_11100 10_11100_11100"), "00 00");
    assert_eq!(low.run("00_01100_11100 10_11100_11100"), "00 refused 14 1 5");
    let both_low = Rig { levels: [1, 1], ..PLAIN };
    assert_eq!(both_low.run("00_01100_01100 10_11100_11100"), "00 refused 14 1 5");
}

#[test]
fn an_address_is_read_before_the_step() {
    assert_eq!(PLAIN.run("00_11100_11010 10_11100_11100"), "00 00");
    assert_eq!(PLAIN.run("00_11100_11100 10_11100_11010"), "00 refused 14 1 5");
}

#[test]
fn past_the_depth_there_is_no_clash() {
    let both = |depth: u32, address: &str| {
        let written = format!("11{address}_11{address}");
        Rig { depth, widths: [3, 3], ..PLAIN }.run(&format!("00_{written} 10_{written}"))
    };
    assert_eq!(both(3, "110"), "00 00");
    assert_eq!(both(4, "110"), "00 refused 14 1 5");
    assert_eq!(both(3, "001"), "00 00");
    assert_eq!(both(1, "100"), "00 00");
    assert_eq!(both(1, "000"), "00 refused 14 1 5");
    assert_eq!(both(7, "111"), "00 00");
    assert_eq!(both(8, "111"), "00 refused 14 1 5");
}

#[test]
fn addresses_of_different_widths_are_compared_as_numbers() {
    let rig = Rig { depth: 8, widths: [1, 3], ..PLAIN };
    let other = Rig { widths: [3, 1], ..rig };
    for (narrow, wide, clashes) in [("1", "100", true), ("0", "000", true), ("1", "110", false), ("1", "101", false), ("0", "001", false), ("0", "100", false)] {
        let expected = if clashes { "00 refused 14 1 5" } else { "00 00" };
        // The narrow address is followed by bits that are not its own.
        let (one, two) = (format!("11{narrow}11"), format!("11{wide}"));
        assert_eq!(rig.run(&format!("00_{one}_{two} 10_{one}_{two}")), expected, "{narrow} {wide}");
        assert_eq!(other.run(&format!("00_{two}_{one} 10_{two}_{one}")), expected, "{wide} {narrow}");
    }
}

/// Settings with both ports writing word 1, the clocks as given.
fn ticking(clocks: &str) -> String {
    clocks.split_whitespace().map(|clocks| format!("{clocks}_11100_11100 ")).collect()
}

#[test]
fn each_port_must_make_its_own_edge() {
    let two = |edges: [u32; 2]| Rig { clocks: [[CLOCKS[0], edges[0]], [CLOCKS[1], edges[1]]], ..PLAIN };
    assert_eq!(two([0, 0]).run(&ticking("00 10 11 01 11")), "00 00 01 01 11");
    assert_eq!(two([0, 0]).run(&ticking("00 11")), "00 refused 14 1 5");
    assert_eq!(two([0, 0]).run(&ticking("11 00 01 10 00 11")), "00 00 00 10 10 refused 14 5 5");
    assert_eq!(two([0, 1]).run(&ticking("01 11 00 11 01 10")), "00 00 01 11 11 refused 14 5 5");
    assert_eq!(two([1, 1]).run(&ticking("10 01 00")), "00 00 01");
    assert_eq!(two([1, 1]).run(&ticking("11 00")), "00 refused 14 1 5");
    // One clock with both edges.
    let opposite = Rig { clocks: [[CLOCKS[0], 0], [CLOCKS[0], 1]], ..PLAIN };
    assert_eq!(opposite.run(&ticking("00 10 00 10")), "00 00 01 11");
    let falling = Rig { clocks: [[CLOCKS[0], 1]; 2], ..PLAIN };
    assert_eq!(falling.run(&ticking("00 10 00")), "00 00 refused 14 2 5");
}

#[test]
fn of_several_memories_the_lowest_is_named() {
    let rig = |number: u32| Rig { number, ..PLAIN };
    let written = ticking("00 10");
    for numbers in [[7, 2, 9], [2, 7, 9], [9, 7, 2], [15, 2, 3]] {
        assert_eq!(run(&numbers.map(rig), 2, &written), "000000 refused 14 1 2", "{numbers:?}");
    }
    assert_eq!(run(&[15, 0].map(rig), 2, &written), "0000 refused 14 1 0");
    // The lowest has words that are not reached, or another clock.
    let small = Rig { number: 2, depth: 1, ..PLAIN };
    assert_eq!(run(&[rig(15), small, rig(7)], 2, &written), "000000 refused 14 1 7");
    let later = Rig { number: 2, clocks: [[CLOCKS[1], 0]; 2], ..PLAIN };
    assert_eq!(run(&[later, rig(9)], 2, &written), "0000 refused 14 1 9");
    assert_eq!(run(&[rig(9), later], 2, &ticking("00 01")), "0000 refused 14 1 2");
}

#[test]
fn the_first_line_makes_no_step() {
    assert_eq!(PLAIN.run(&ticking("10")), "00");
    assert_eq!(PLAIN.run(&ticking("10 10 00 10")), "00 00 00 refused 14 3 5");
    let low = Rig { levels: [1, 1], ..PLAIN };
    assert_eq!(low.run("10_01000_01000"), "00");
}

#[test]
fn one_port_never_clashes() {
    assert_eq!(run(&[PLAIN], 1, &ticking("00 10 00 10")), "0 0 0 1");
}

#[test]
fn a_reset_in_the_same_step_does_not_matter() {
    let both = "11100_11100";
    assert_eq!(PLAIN.run(&format!("00_{both} 10_{both}_1")), "00 refused 14 1 5");
    assert_eq!(PLAIN.run(&format!("00_{both}_1 10_{both}_1")), "00 refused 14 1 5");
}

#[test]
fn a_wrong_line_is_refused_by_13_first() {
    let [first, clash] = ["00_11100_11100", "10_11100_11100"].map(line);
    let text = |second: &str| printed(&netlist_of(&[PLAIN], 2), &format!("{first}\n{second}"));
    assert_eq!(text(&format!("{clash}\n")), "00\nrefused 14 1 5\n");
    for wrong in [clash.clone(), format!("{clash}0\n"), format!("{clash}0"), format!("{}\n", &clash[1..]), clash.replace("0\n", "2\n"), format!("{clash}\r\n")] {
        assert_eq!(text(&wrong), "00\nrefused 13 1 0\n", "{wrong:?}");
    }
    // What follows the clash is not looked at.
    for after in ["x", "\n", "0", &format!("{first}\n{clash}\n")] {
        assert_eq!(text(&format!("{clash}\n{after}")), "00\nrefused 14 1 5\n", "{after:?}");
    }
}
