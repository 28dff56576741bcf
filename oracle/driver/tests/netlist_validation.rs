//! The rows of docs/DIFFERENCES.md, section 13: for each rule of request Q-2 and each
//! of struo's `Netlist::validate` the smallest netlist, the answer under 11, and
//! what struo says of the same netlist where its types can hold it.

use driver::Rebuilt;
use image::netlist_parts::{
    arithmetic_output, comparison_output, constant, exact, input, memory, memory_output, netlist, not,
    output, register, register_output,
};

const A: u32 = u32::MAX;

/// What struo says.
#[derive(Clone, Copy, Debug)]
enum Struo {
    Accepts,
    /// `Netlist::validate` begins its error so.
    Refuses(&'static str),
    /// Its types have no place for it.
    CannotHold,
    /// It is held without the field that is wrong, and accepted.
    HasNoField,
}

use Struo::{Accepts, CannotHold, HasNoField, Refuses};

/// Holds both answers: the place of 11 (`None` for acceptance), and struo's.
fn row(name: &str, words: &[u32], place: Option<u32>, struo: Struo) {
    let answer = reference::netlist_answer(words);
    assert_eq!(answer, place.map_or([0; 3], |place| [11, place, 0]), "{name}: {words:?}");
    let said = Rebuilt::new(words).map(|netlist| netlist.validate());
    let is_said = match (struo, &said) {
        (Accepts | HasNoField, Ok(Ok(()))) | (CannotHold, Err(_)) => true,
        (Refuses(error), Ok(Err(text))) => text.starts_with(error),
        _ => false,
    };
    assert!(is_said, "{name}: {said:?}, not {struo:?}");
}

fn with(words: &[u32], changes: &[(usize, u32)]) -> Vec<u32> {
    let mut words = words.to_vec();
    changes.iter().for_each(|&(at, value)| words[at] = value);
    words
}

fn input_alone() -> Vec<u32> {
    exact(&[input(0, 0)], &[&[0, 0, 1, 0]])
}

fn register_alone() -> Vec<u32> {
    exact(&[register_output(0, 0)], &[&register(0, 0, 0)])
}

fn memory_alone() -> Vec<u32> {
    exact(&[memory_output(0, 0)], &[&memory(0, 1, 0)])
}

fn comparison_alone() -> Vec<u32> {
    exact(&[constant(0), comparison_output(0)], &[&[4, 0, 1, 0, 0, 1]])
}

fn sum_alone() -> Vec<u32> {
    exact(&[constant(0), arithmetic_output(0, 0)], &[&[3, 0, 1, A, 0, 0, 1]])
}

/// A memory with these addresses and data widths, its nets 0 but the read data.
fn memory_of(depth: u32, widths: [u32; 4]) -> Vec<u32> {
    let [read_address, read_data, write_address, write_data] = widths;
    let nodes: Vec<[u32; 6]> = (0..read_data).map(|bit| memory_output(0, bit)).collect();
    let mut record = vec![2, 0, depth, 0, 1, 1, read_address, read_data, write_address, write_data];
    record.extend((0..read_address).map(|_| 0));
    record.extend(0..read_data);
    record.extend((0..write_address + write_data).map(|_| 0));
    record.extend([A, 0, 0, 0, 0, 0]);
    exact(&nodes, &[&record])
}

#[test]
fn what_both_accept() {
    for words in [input_alone(), register_alone(), memory_alone(), comparison_alone(), sum_alone()] {
        row("one record", &words, None, Accepts);
    }
    row("nothing", &netlist::<[u32; 0]>(1, &[], &[]), None, Accepts);
    row("equal gates", &exact(&[constant(0), not(0), not(0), constant(0)], &[]), None, Accepts);
    let reads_later = with(&register(0, 0, 0), &[(4, 1), (5, 0)]);
    row("a register reads a later net", &exact(&[register_output(0, 0), constant(0)], &[&reads_later]), None, Accepts);
    let outputs = [constant(0), output(0, 0, 0), not(1)];
    row("a gate reads an output node", &exact(&outputs, &[&[0, 0, 1, 1]]), None, Accepts);
    row("register bits with a gap", &exact(&[register_output(7, 1)], &[&register(7, 1, 0)]), None, Accepts);
    let carry = exact(&[constant(0), arithmetic_output(0, 0)], &[&[3, 1, 1, 0, 0, 0, 1]]);
    row("a carry with Subtract", &carry, None, Accepts);
    let apart = [constant(0), arithmetic_output(0, 1), constant(0), arithmetic_output(0, 0)];
    row("cell outputs apart", &exact(&apart, &[&[3, 0, 2, A, 0, 0, 0, 0, 3, 1]]), None, Accepts);
}

#[test]
fn what_both_refuse() {
    row("S1 own net", &exact(&[not(0)], &[]), Some(19), Refuses("UndefinedNet"));
    row("S1 output", &exact(&[output(0, 0, 0)], &[&[0, 0, 1, 0]]), Some(19), Refuses("UndefinedNet"));
    row("S2 an input too few", &exact(&[constant(0), [2, A, A, 0, A, A]], &[]), Some(26), Refuses("WrongInputCount"));
    row("S2 one too many", &exact(&[constant(0), [5, A, A, 0, 0, A]], &[]), Some(26), Refuses("WrongInputCount"));
    row("S3 no such net", &with(&register_alone(), &[(26, 1)]), Some(26), Refuses("UndefinedNet"));
    row("S3 absent write enable", &with(&memory_alone(), &[(38, A)]), Some(38), Refuses("UndefinedNet"));
    row("S3 a cell's", &with(&comparison_alone(), &[(31, 2)]), Some(31), Refuses("UndefinedNet"));
    let both = exact(&[input(0, 0), output(0, 1, 0)], &[&[0, 0, 2, 0, 1]]);
    row("S4 a port of both kinds", &both, Some(32), Refuses("InvalidPortBit"));
    row("S4 a port of a gate", &exact(&[constant(0)], &[&[0, 0, 1, 0]]), Some(25), Refuses("InvalidPortBit"));
    row("S5 no register", &exact(&[constant(0)], &[&register(0, 0, 0)]), Some(25), Refuses("InvalidRegisterOutput"));
    row("S5 no memory", &exact(&[constant(0)], &[&memory(0, 1, 0)]), Some(33), Refuses("InvalidMemoryOutput"));
    let sum = exact(&[constant(0), constant(0)], &[&[3, 0, 1, A, 0, 0, 1]]);
    row("S5 no sum", &sum, Some(34), Refuses("InvalidArithmeticOutput"));
    let comparison = exact(&[constant(0), constant(0)], &[&[4, 0, 1, 0, 0, 1]]);
    row("S5 no comparison", &comparison, Some(33), Refuses("InvalidComparisonOutput"));
    row("S6 register left", &exact(&[register_output(0, 0)], &[]), Some(16), Refuses("UnconnectedRegister"));
    row("S6 memory left", &exact(&[memory_output(0, 0)], &[]), Some(16), Refuses("UnconnectedMemory"));
    row("S6 sum left", &exact(&[arithmetic_output(0, 0)], &[]), Some(16), Refuses("UnconnectedArithmetic"));
    row("S6 comparison left", &exact(&[comparison_output(0)], &[]), Some(16), Refuses("UnconnectedComparison"));
    let twice = exact(&[input(0, 0)], &[&[0, 0, 1, 0], &[0, 0, 1, 0]]);
    row("S7 a port twice", &twice, Some(29), Refuses("DuplicatePortName"));
    let twice = exact(&[register_output(0, 0)], &[&register(0, 0, 0), &register(0, 0, 0)]);
    row("S7 a register bit twice", &twice, Some(38), Refuses("DuplicateRegisterName"));
    let twice = exact(&[memory_output(0, 0)], &[&memory(0, 1, 0), &memory(0, 1, 0)]);
    row("S7 a memory twice", &twice, Some(53), Refuses("DuplicateMemoryName"));
    let cell: &[u32] = &[4, 0, 1, 0, 0, 1];
    let twice = exact(&[constant(0), comparison_output(0)], &[cell, cell]);
    row("S7 a comparison twice", &twice, Some(39), Refuses("MultipleDrivers"));
    let equal = exact(&[input(0, 0), input(0, 0)], &[&[0, 0, 1, 0]]);
    row("S8 equal input nodes", &equal, Some(24), Refuses("DuplicatePortName"));
    let equal = exact(&[register_output(0, 0), register_output(0, 0)], &[&register(0, 0, 0)]);
    row("S8 equal register nodes", &equal, Some(24), Refuses("UnconnectedRegister"));
    row("S9 a port of no width", &exact(&[], &[&[0, 0, 0]]), Some(24), Refuses("EmptyPortWidth"));
    row("S9 a cell of no width", &exact(&[], &[&[3, 0, 0, A]]), Some(24), Refuses("ArithmeticWidth"));
    let none = exact(&[constant(0), comparison_output(0)], &[&[4, 0, 0, 1]]);
    row("S9 a comparison of no width", &none, Some(30), Refuses("ComparisonWidth"));
    row("S9 an address of no width", &memory_of(1, [0, 1, 0, 1]), Some(28), Refuses("MemoryAddressWidth"));
    row("S9 words of no width", &memory_of(1, [1, 0, 1, 0]), Some(29), Refuses("MemoryWordWidth"));
    row("S10 data widths", &memory_of(1, [1, 1, 1, 2]), Some(31), Refuses("MemoryWordWidth"));
    row("S11 no depth", &memory_of(0, [1, 1, 1, 1]), Some(24), Refuses("ZeroMemoryDepth"));
}

/// Our order rule: struo asks it of gates and outputs, not of cells.
#[test]
fn the_order_of_cells() {
    let own = exact(&[comparison_output(0)], &[&[4, 0, 1, 0, 0, 0]]);
    row("T1 a comparison of itself", &own, Some(27), Accepts);
    let later = exact(&[comparison_output(0), constant(0)], &[&[4, 0, 1, 1, 1, 0]]);
    row("T1 a comparison of a later net", &later, Some(33), Accepts);
    row("T1 a sum of itself", &exact(&[arithmetic_output(0, 0)], &[&[3, 0, 1, A, 0, 0, 0]]), Some(28), Accepts);
    let carry = exact(&[constant(0), arithmetic_output(0, 0)], &[&[3, 0, 1, 1, 0, 0, 1]]);
    row("T1 a sum with itself as carry", &carry, Some(34), Accepts);
}

#[test]
fn what_struo_accepts_and_we_refuse() {
    row("T2 another signal", &exact(&[input(0, 0)], &[&[0, 1, 1, 0]]), Some(25), Accepts);
    let turned = exact(&[input(0, 0), input(0, 1)], &[&[0, 0, 2, 1, 0]]);
    row("T2 another bit", &turned, Some(31), Accepts);
    row("T2 another register", &exact(&[register_output(0, 0)], &[&register(1, 0, 0)]), Some(25), Accepts);
    row("T2 another memory", &exact(&[memory_output(0, 0)], &[&memory(1, 1, 0)]), Some(33), Accepts);
    let other = exact(&[constant(0), comparison_output(1)], &[&[4, 0, 1, 0, 0, 1]]);
    row("T2 another cell", &other, Some(33), Accepts);
    row("T3 an input left", &exact(&[input(0, 0)], &[] as &[&[u32]]), Some(16), Accepts);
    row("T3 an output left", &exact(&[constant(0), output(0, 0, 0)], &[]), Some(22), Accepts);
    row("T4 a net twice in a port", &exact(&[input(0, 0)], &[&[0, 0, 2, 0, 0]]), Some(26), Accepts);
    let two_ports: Vec<u32> =
        [&[2, 0, 1, 0, 1, 2][..], &[1, 1, 1, 1, 0, 0, 0, 0, A, 0, 0, 0, 0, 0], &[1, 1, 1, 1, 0, 1, 0, 0, A, 0, 0, 0, 0, 0]].concat();
    let equal = exact(&[memory_output(0, 0), memory_output(0, 0)], &[&two_ports]);
    row("T5 equal memory nodes", &equal, Some(24), Accepts);
    let equal = [constant(0), arithmetic_output(0, 0), arithmetic_output(0, 0)];
    let equal = exact(&equal, &[&[3, 0, 2, A, 0, 0, 0, 0, 1, 2]]);
    row("T5 equal nodes of a sum", &equal, Some(30), Accepts);
    row("T6 signal 512", &exact(&[input(512, 0)], &[&[0, 512, 1, 0]]), Some(17), Accepts);
    row("T6 register 256", &exact(&[register_output(256, 0)], &[&register(256, 0, 0)]), Some(17), Accepts);
    row("T6 register bit 1,024", &exact(&[register_output(0, 1_024)], &[&register(0, 1_024, 0)]), Some(18), Accepts);
    row("T6 memory 16", &exact(&[memory_output(16, 0)], &[&memory(16, 1, 0)]), Some(17), Accepts);
    row("T7 latency 0", &with(&memory_alone(), &[(26, 0)]), Some(26), Accepts);
    row("T7 latency 2", &with(&memory_alone(), &[(26, 2)]), Some(26), Accepts);
    row("T8 depth 65,537", &memory_of(65_537, [17, 1, 17, 1]), Some(24), Accepts);
    row("T8 addresses of 33 bits", &memory_of(1, [33, 1, 33, 1]), Some(28), Accepts);
    let mut wide = vec![4, 0, 1_025];
    wide.extend((0..2_050).map(|_| 0));
    wide.push(1);
    row("T8 a comparison of 1,025 bits", &exact(&[constant(0), comparison_output(0)], &[&wide]), Some(30), Accepts);
}

#[test]
fn what_struo_refuses_and_we_accept() {
    let both = exact(&[input(0, 0), output(0, 0, 0)], &[&[0, 0, 1, 0], &[0, 0, 1, 1]]);
    row("T9 one signal in both directions", &both, None, Refuses("DuplicatePortName"));
    row("T10 addresses of different widths", &memory_of(1, [1, 1, 2, 1]), None, Refuses("MemoryAddressWidth"));
    row("T11 a depth past the addresses", &memory_of(3, [1, 1, 1, 1]), None, Refuses("MemoryAddressWidth"));
}

/// What struo's netlist has no field for.
#[test]
fn fields_of_the_image_alone() {
    for (word, value) in [(0, 2), (2, 17), (10, 1), (15, 1), (5, 0), (6, 1)] {
        row("T12 header", &with(&input_alone(), &[(word, value)]), Some(word as u32), HasNoField);
    }
    row("T12 list offset", &netlist::<[u32; 0]>(65_536, &[], &[]), Some(4), HasNoField);
    let unused = with(&netlist::<[u32; 0]>(2, &[constant(0)], &[]), &[(22, 1)]);
    row("T12 unused node words", &unused, Some(22), HasNoField);
    row("T13 a gate's owner", &with(&exact(&[constant(0), not(0)], &[]), &[(23, 0)]), Some(23), HasNoField);
    row("T13 a constant's bit", &with(&exact(&[constant(0)], &[]), &[(18, 0)]), Some(18), HasNoField);
    row("T13 a comparison's bit", &with(&comparison_alone(), &[(24, 1)]), Some(24), HasNoField);
    row("T14 an absent enable's level", &with(&register_alone(), &[(30, 1)]), Some(30), HasNoField);
    row("T14 an absent reset's value", &with(&register_alone(), &[(34, 1)]), Some(34), HasNoField);
    row("T14 an absent read enable's level", &with(&memory_alone(), &[(37, 1)]), Some(37), HasNoField);
}

/// What struo's types cannot hold.
#[test]
fn values_of_the_image_alone() {
    row("T15 kind 12", &with(&input_alone(), &[(16, 12)]), Some(16), CannotHold);
    row("T15 a constant of 2", &exact(&[constant(2)], &[] as &[&[u32]]), Some(17), CannotHold);
    row("T15 edge 2", &with(&register_alone(), &[(28, 2)]), Some(28), CannotHold);
    row("T15 style 3", &with(&memory_alone(), &[(25, 3)]), Some(25), CannotHold);
    row("T15 operation 3", &with(&sum_alone(), &[(29, 3)]), Some(29), CannotHold);
    row("T15 operation 4", &with(&comparison_alone(), &[(29, 4)]), Some(29), CannotHold);
    row("T15 no ports", &exact(&[], &[&[2, 0, 1, 0, 1, 0]]), Some(27), CannotHold);
    row("T15 sort 5", &with(&input_alone(), &[(22, 5)]), Some(22), CannotHold);
    row("T15 a record that does not fit", &with(&input_alone(), &[(24, 2)]), Some(22), CannotHold);
    row("T15 a slice that ends too early", &input_alone()[..21], Some(21), CannotHold);
}

/// What is rebuilt from the words is judged as the netlist that struo itself
/// lowered, but for names, which are numbers here.
#[test]
fn rebuilt_netlists_are_judged_as_lowered_ones() {
    use image::{generate, Size};
    let mut refused = 0;
    driver::with_big_stack(|| {
        for (size, count) in [(Size::Tiny, 600), (Size::Small, 300), (Size::Medium, 20)] {
            for seed in 0..count {
                let image = generate(seed, size).encode();
                let answer = driver::lower(&image, false);
                let driver::Answer::Netlist { nodes, records } = &answer else { continue };
                let list: usize = records.iter().map(Vec::len).sum();
                let words = driver::words(&answer, nodes.len().max(1) as u32, list as u32);
                assert_eq!(reference::netlist_answer(&words), [0; 3], "image {seed}");
                let lowered = driver::Prepared::new(&image).unwrap().lower().outcome.unwrap().validate();
                let rebuilt = Rebuilt::new(&words).unwrap().validate();
                let kind = |error: String| error.split('(').next().unwrap().to_string();
                let [lowered, rebuilt] = [lowered.map_err(|error| kind(format!("{error:?}"))), rebuilt.map_err(kind)];
                refused += u32::from(rebuilt.is_err());
                if !matches!(&lowered, Err(error) if error.starts_with("Duplicate")) {
                    assert_eq!(rebuilt, lowered, "image {seed}");
                }
            }
        }
    });
    assert!(refused > 10, "addresses of other widths are refused by struo: {refused}");
}
