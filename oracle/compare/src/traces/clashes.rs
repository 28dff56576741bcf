//! Write clashes (request Q-6) and what is just beside one: netlists whose memories
//! write what stands on inputs, mostly by two ports, and traces for them.

use super::limits::{bytes, Named};
use super::lines::line;
use super::machine::N;
use super::names::half_with_names;
use super::run::refusal;
use crate::netlists::draft::Draft;
use image::netlist_parts::{input, memory_output, output, NodeWords};
use image::{Random, ABSENT};
use std::ops::Range;

/// Inputs that are clocks; they stand first in a line.
const CLOCKS: usize = 3;

#[derive(Clone, Copy)]
struct Port {
    /// Width of both addresses.
    address: u32,
    clock: u32,
    edge: u32,
    /// Of the write enable.
    level: u32,
}

#[derive(Clone)]
struct Memory {
    number: u32,
    depth: u32,
    width: u32,
    ports: Vec<Port>,
}

/// What a port is given for a step: write enable (1 is active), data, address.
type Write = (u32, u64, u64);

/// Memories in the order of their records. Read data are the outputs.
struct Rig(Vec<Memory>);

/// Where a port's inputs stand in a line.
struct Place {
    enable: usize,
    data: Range<usize>,
    address: Range<usize>,
}

impl Rig {
    /// Of all ports, in the order of the records.
    fn places(&self) -> Vec<Place> {
        let mut end = CLOCKS;
        let ports = self.0.iter().flat_map(|memory| memory.ports.iter().map(|port| (memory.width as usize, port.address as usize)));
        let place = |(data, address): (usize, usize)| {
            let enable = end;
            end += 1 + data + address;
            Place { enable, data: enable + 1..enable + 1 + data, address: enable + 1 + data..end }
        };
        ports.map(place).collect()
    }

    fn inputs(&self) -> usize {
        self.places().last().map_or(CLOCKS, |place| place.address.end)
    }

    fn draft(&self) -> Draft {
        let inputs = self.inputs() as u32;
        let mut nodes: Vec<NodeWords> = (0..inputs).map(|bit| input(0, bit)).collect();
        let mut records = vec![[0, 0, inputs].into_iter().chain(0..inputs).collect::<Vec<u32>>()];
        let places = self.places();
        let mut places = places.iter();
        for memory in &self.0 {
            let mut record = vec![2, memory.number, memory.depth, 0, 1, memory.ports.len() as u32];
            for (number, port) in (0..).zip(&memory.ports) {
                let place = places.next().expect("a place for each port");
                let nets = |range: &Range<usize>| range.clone().map(|net| net as u32);
                let read = nodes.len() as u32;
                nodes.extend((number * memory.width..(number + 1) * memory.width).map(|bit| memory_output(memory.number, bit)));
                record.extend([port.address, memory.width, port.address, memory.width]);
                record.extend(nets(&place.address).chain(read..read + memory.width));
                record.extend(nets(&place.address).chain(nets(&place.data)));
                record.extend([ABSENT, 0, place.enable as u32, port.level, port.clock, port.edge]);
            }
            records.push(record);
        }
        let (first, width) = (nodes.len() as u32, nodes.len() as u32 - inputs);
        nodes.extend((0..width).map(|bit| output(1, bit, inputs + bit)));
        if width > 0 {
            records.push([0, 1, width].into_iter().chain(first..first + width).collect());
        }
        Draft { n: N, nodes, records }
    }

    /// The setting with these clocks, and for each port what it writes.
    fn setting(&self, clocks: [bool; CLOCKS], writes: &[Write]) -> Vec<bool> {
        let mut setting = clocks.to_vec();
        setting.resize(self.inputs(), false);
        let ports = self.0.iter().flat_map(|memory| &memory.ports);
        for ((place, port), &(enable, data, address)) in self.places().into_iter().zip(ports).zip(writes) {
            setting[place.enable] = enable != port.level;
            for (range, word) in [(place.data, data), (place.address, address)] {
                setting[range].iter_mut().enumerate().for_each(|(bit, to)| *to = word >> bit & 1 == 1);
            }
        }
        setting
    }
}

// ---- random ones ----

/// A netlist and a trace with what is near a clash; some traces end at it, or are wrong
/// there.
pub fn near_clash(random: &mut Random) -> Vec<u8> {
    let (words, lines) = right(random);
    let mut lines = half_with_names(random, lines);
    match refusal(&driver::trace(&bytes(&words, &lines.concat()))) {
        Some([14, at, _]) if random.chance(25) => change_near(random, &mut lines, at as usize),
        _ => {}
    }
    bytes(&words, &lines.concat())
}

/// Ends the lines with this one, or makes it wrong.
fn change_near(random: &mut Random, lines: &mut Vec<Vec<u8>>, at: usize) {
    match random.below(5) {
        0 => lines.truncate(at + 1),
        1 => {
            lines.truncate(at + 1);
            lines[at].pop();
        }
        2 => drop(lines[at].remove(0)),
        3 => lines[at].insert(0, b'0'),
        _ => {
            let letter = random.below(lines[at].len() - 1);
            lines[at][letter] = random.pick(b"2 /\r\0");
        }
    }
}

/// A netlist, its records in any order, and a right trace.
pub fn right(random: &mut Random) -> (Vec<u32>, Vec<Vec<u8>>) {
    let rig = random_rig(random);
    let mut draft = rig.draft();
    random.shuffle(&mut draft.records);
    let mut clocks = [(); CLOCKS].map(|()| random.flag());
    let count = random.range(1, 40);
    let lines = (0..count).map(|_| {
        let writes: Vec<Write> = rig.0.iter().flat_map(|memory| writes(random, memory)).collect();
        let setting = rig.setting(clocks, &writes);
        clocks.iter_mut().for_each(|clock| *clock ^= random.chance(60));
        line(&setting)
    });
    let lines = lines.collect();
    (draft.words(), lines)
}

fn random_rig(random: &mut Random) -> Rig {
    let mut numbers: Vec<u32> = (0..16).collect();
    random.shuffle(&mut numbers);
    numbers.truncate(random.pick(&[1, 1, 2, 2, 3, 5]));
    Rig(numbers.into_iter().map(|number| random_memory(random, number)).collect())
}

/// Two ports most often, and most often on one clock and of one width.
fn random_memory(random: &mut Random, number: u32) -> Memory {
    let mut port = || Port {
        address: random.pick(&[1, 2, 2, 3, 3, 4, 32]),
        clock: random.below(CLOCKS) as u32,
        edge: random.range(0, 1),
        level: random.range(0, 1),
    };
    let (first, mut second) = (port(), port());
    if random.chance(65) {
        (second.clock, second.edge) = (first.clock, first.edge);
    }
    if random.flag() {
        second.address = first.address;
    }
    let ports = if random.chance(92) { vec![first, second] } else { vec![first] };
    Memory { number, depth: random.pick(&[1, 2, 3, 4, 5, 6, 7, 8, 13]), width: random.pick(&[1, 1, 2, 5]), ports }
}

/// What the ports of a memory write: to one word but seldom both, to one address past
/// the depth, to addresses that differ in one bit, or anywhere.
fn writes(random: &mut Random, memory: &Memory) -> Vec<Write> {
    let depth = u64::from(memory.depth);
    let widest = memory.ports.iter().map(|port| port.address).max().expect("a port");
    let any = |random: &mut Random| random.next() >> (64 - widest.min(4));
    let (addresses, both) = match random.below(100) {
        0..35 => ([random.below(memory.depth as usize) as u64; 2], 15),
        35..50 => ([depth + random.below(4) as u64; 2], 90),
        50..75 => {
            let address = random.below(memory.depth as usize) as u64;
            ([address, address ^ 1 << random.below(widest as usize)], 90)
        }
        _ => ([any(random), any(random)], 60),
    };
    let enables = if random.chance(both) { [1, 1] } else { random.pick(&[[0, 1], [1, 0], [0, 0]]) };
    let mut data = [random.next(), random.next()];
    if random.flag() {
        data[1] = data[0];
    }
    if random.flag() {
        return (0..memory.ports.len()).map(|port| (enables[1 - port], data[port], addresses[1 - port])).collect();
    }
    (0..memory.ports.len()).map(|port| (enables[port], data[port], addresses[port])).collect()
}

// ---- by name ----

const RISING: Port = Port { address: 2, clock: 0, edge: 0, level: 0 };
const FALLING: Port = Port { edge: 1, ..RISING };

fn memory(number: u32, depth: u32, ports: [Port; 2]) -> Memory {
    Memory { number, depth, width: 1, ports: ports.to_vec() }
}

fn wide(address: u32) -> Port {
    Port { address, ..RISING }
}

/// Input bytes: the memories, and lines with clocks in letters and what the ports write.
fn of(memories: &[Memory], lines: &[(&str, &[Write])]) -> Vec<u8> {
    let rig = Rig(memories.to_vec());
    let lit = |clocks: &str| [0, 1, 2].map(|clock| clocks.as_bytes().get(clock) == Some(&b'1'));
    let lines: Vec<Vec<u8>> = lines.iter().map(|(clocks, writes)| line(&rig.setting(lit(clocks), writes))).collect();
    bytes(&rig.draft().words(), &lines.concat())
}

/// The same writes while the clocks go through these letters.
fn ticked(memories: &[Memory], clocks: &[&str], writes: &[Write]) -> Vec<u8> {
    let lines: Vec<(&str, &[Write])> = clocks.iter().map(|clocks| (*clocks, writes)).collect();
    of(memories, &lines)
}

/// All of them; those whose name begins with "a clash" are refused by 14.
pub fn named() -> Vec<Named> {
    [writes_of_one_memory(), addresses(), clocks(), several_memories(), lines_with_a_clash()].concat()
}

const BOTH: [Write; 2] = [(1, 1, 1), (1, 0, 1)];

fn plain() -> [Memory; 1] {
    [memory(5, 3, [RISING; 2])]
}

fn writes_of_one_memory() -> Vec<Named> {
    let step = |before: [Write; 2], after: [Write; 2]| of(&plain(), &[("0", &before), ("1", &after), ("0", &after), ("1", &[(0, 0, 1); 2])]);
    let one = Memory { ports: vec![RISING], ..memory(5, 3, [RISING; 2]) };
    let apart = [(1, 1, 1), (1, 0, 2)];
    let off = [(0, 1, 1), (0, 0, 1)];
    vec![
        ("a clash", step(BOTH, BOTH)),
        ("a clash of equal words", step([(1, 1, 1); 2], [(1, 1, 1); 2])),
        ("a clash, the enables off after it", step(BOTH, off)),
        ("a clash, the addresses apart after it", step(BOTH, apart)),
        ("one word, the first enable off", step([(0, 1, 1), (1, 0, 1)], off)),
        ("one word, the second enable off", step([(1, 1, 1), (0, 0, 1)], off)),
        ("one word, the enables off before", of(&plain(), &[("0", &off), ("1", &BOTH)])),
        ("one word, the addresses apart before", of(&plain(), &[("0", &apart), ("1", &BOTH)])),
        ("one word, by one port", ticked(&[one], &["0", "1", "0", "1"], &BOTH[..1])),
        ("a clash with enables that are low", ticked(&[memory(0, 2, [Port { level: 1, ..RISING }; 2])], &["1", "0", "1"], &BOTH)),
    ]
}

fn addresses() -> Vec<Named> {
    let at = |depth: u32, widths: [u32; 2], addresses: [u64; 2]| {
        ticked(&[memory(15, depth, widths.map(wide))], &["0", "1", "0", "1"], &[(1, 1, addresses[0]), (1, 0, addresses[1])])
    };
    const TOP: u64 = 1 << 31;
    vec![
        ("a clash at the last word", at(3, [2, 2], [2, 2])),
        ("one address just past the depth", at(3, [2, 2], [3, 3])),
        ("one address far past the depth", at(3, [32, 32], [TOP + 1, TOP + 1])),
        ("a clash of addresses of 1 and 32 bits", at(3, [1, 32], [1, 1])),
        ("addresses of 1 and 32 bits, apart in the last", at(3, [1, 32], [1, TOP + 1])),
        ("addresses of 2 bits and 1, apart in the last", at(4, [2, 1], [3, 1])),
        ("addresses of 1 bit and 2, apart in the last", at(4, [1, 2], [0, 2])),
    ]
}

fn clocks() -> Vec<Named> {
    let second = Port { clock: 1, ..RISING };
    let run = |ports: [Port; 2], clocks: &[&str]| ticked(&[memory(5, 3, ports)], clocks, &BOTH);
    vec![
        ("a clash on two clocks", run([RISING, second], &["00", "10", "01", "00", "11"])),
        ("a clash on a rising and a falling clock", run([RISING, Port { edge: 1, ..second }], &["00", "11", "00", "01", "10"])),
        ("two clocks, one after the other", run([RISING, second], &["00", "10", "11", "01", "10", "11"])),
        ("one clock, both edges", run([RISING, FALLING], &["0", "1", "0", "1", "0"])),
        ("a clash on a falling clock", run([FALLING; 2], &["0", "1", "0"])),
    ]
}

fn several_memories() -> Vec<Named> {
    let both = |number: u32| memory(number, 3, [RISING; 2]);
    let run = |memories: &[Memory]| ticked(memories, &["0", "1"], &BOTH.repeat(memories.len()));
    vec![
        ("a clash in three memories, the lowest last", run(&[both(9), both(7), both(2)])),
        ("a clash in three memories, the lowest between", run(&[both(15), both(0), both(3)])),
        ("a clash in the higher memory", run(&[memory(2, 1, [RISING; 2]), both(7)])),
        ("a clash in the lower memory, whose record is last", run(&[memory(7, 1, [RISING; 2]), both(2)])),
    ]
}

fn lines_with_a_clash() -> Vec<Named> {
    let clash = ticked(&plain(), &["0", "1"], &BOTH);
    let (end, bits) = (clash.len(), Rig(plain().to_vec()).inputs());
    let without_end = clash[..end - 1].to_vec();
    let with_letter = [&clash[..end - 2], b"2\n"].concat();
    vec![
        ("one word, at the first line", ticked(&plain(), &["1"], &BOTH)),
        ("a clash after the first line alone", ticked(&plain(), &["1", "0", "1"], &BOTH)),
        ("a wrong end of a line with a clash", without_end),
        ("a wrong letter in a line with a clash", with_letter),
        ("a line with a clash, too long", [&clash[..end - 1], b"0\n"].concat()),
        ("a line with a clash, too short", [&clash[..end - 2], b"\n"].concat()),
        ("a clash before a wrong line", [&clash[..], b"x\n"].concat()),
        ("a clash before an open line", [&clash[..], &vec![b'0'; bits]].concat()),
    ]
}

/// Clashes and steps without one that follow a back (request Q-8): the kept setting
/// and the words decide.
pub fn after_backs() -> Vec<Named> {
    let rig = Rig(plain().to_vec());
    let low = |writes: &[Write]| line(&rig.setting([false; CLOCKS], writes));
    let high = |writes: &[Write]| line(&rig.setting([true; CLOCKS], writes));
    let (keep, back) = (b"keep a\n".to_vec(), b"back a\n".to_vec());
    let off = [(0, 1, 1), (0, 0, 1)];
    let first = [(1, 1, 1), (0, 0, 1)];
    let run = |lines: &[&Vec<u8>]| bytes(&rig.draft().words(), &lines.iter().flat_map(|line| line.iter().copied()).collect::<Vec<u8>>());
    vec![
        ("a clash after a back", run(&[&low(&BOTH), &keep, &low(&off), &back, &high(&off)])),
        ("a clash after a back, with lines between", run(&[&low(&off), &keep, &high(&first), &back, &high(&off), &low(&BOTH), &high(&BOTH)])),
        ("a back from what would clash", run(&[&low(&off), &keep, &low(&BOTH), &back, &high(&BOTH)])),
        ("a back past an edge", run(&[&high(&BOTH), &keep, &low(&BOTH), &back, &high(&BOTH)])),
        ("a back and the line of a clash without its end", run(&[&low(&BOTH), &keep, &back, &high(&BOTH)[..rig.inputs()].to_vec()])),
    ]
}

#[cfg(test)]
mod tests {
    use super::{bytes, right};
    use crate::traces::run::outcome;
    use image::Random;
    use std::collections::BTreeMap;

    #[test]
    fn a_part_of_them_clash_and_nothing_else_is_refused() {
        let mut outcomes: BTreeMap<String, u32> = BTreeMap::new();
        for number in 0..400 {
            let (words, lines) = right(&mut Random::of_case(1, number));
            *outcomes.entry(outcome(&driver::trace(&bytes(&words, &lines.concat())))).or_default() += 1;
        }
        assert_eq!(outcomes.keys().collect::<Vec<_>>(), ["refused 14", "run to the end"]);
        assert!(outcomes.values().all(|&count| count > 120), "{outcomes:?}");
    }
}
