//! Inputs of the listing program at and near its own limits: 1,024 nets, 2,048
//! list words, 8,192 words of scratch, 32,768 bytes.

use crate::expect::netlist_use;
use image::{inverter, Builder, Control, Memory, Port, Random, Register};

/// Inputs at each limit and just beyond it, by name.
pub fn at_the_limits() -> Vec<(&'static str, Vec<u8>)> {
    let whole = with_bytes(32_768);
    vec![
        ("no bytes", Vec::new()),
        ("as many nets as there may be", with_nets(100, 7, 1_024)),
        ("a net more", with_nets(100, 7, 1_025)),
        ("as many list words as there may be", with_list_words(32, 2_048)),
        ("a list word more", with_list_words(32, 2_049)),
        ("the whole scratch", with_scratch(8_192)),
        ("a word of scratch more", with_scratch(8_193)),
        ("the image ends with the bytes that are read", whole.clone()),
        ("a byte of the image is not read", with_bytes(32_769)),
        ("a byte behind the bytes that are read", followed(whole.clone(), 1)),
        ("many bytes behind the bytes that are read", followed(whole, 7_232)),
        ("names of 64 bytes", with_names(64, 60)),
    ]
}

/// An input near one of the limits.
pub fn near_the_limits(random: &mut Random) -> Vec<u8> {
    match random.below(6) {
        0 => with_nets(random.range(60, 110), random.range(6, 7), random.range(1_014, 1_034)),
        1 => with_list_words(random.range(24, 40), random.range(2_030, 2_060)),
        2 => with_scratch(random.range(8_172, 8_212)),
        3 => followed(with_bytes(random.range(32_760, 32_776) as usize), random.below(2) * random.below(30_000)),
        4 => with_names(random.range(1, 64) as usize, random.range(1, 60)),
        _ => with_long_lines(random.range(500, 1_020)),
    }
}

/// A shift of a word by some stages, and an input that makes up the nets.
fn with_nets(width: u32, stages: u32, nets: u32) -> Vec<u8> {
    let shift = |rest: u32| {
        let mut builder = Builder::new();
        let [word, amount] = [("a", width), ("s", stages)].map(|(name, width)| builder.input(name, width));
        builder.input("rest", rest);
        let output = builder.output("y", width);
        let [word, amount] = [word, amount].map(|signal| builder.read(signal));
        let shifted = builder.shift_left(word, amount);
        builder.assign(output, shifted);
        builder.finish().encode()
    };
    let (least, _) = netlist_use(&shift(1)).expect("a right image");
    shift(nets + 1 - least)
}

/// Sums, one of the other, and an input that makes up the list words.
fn with_list_words(width: u32, words: u32) -> Vec<u8> {
    const IN_SUMS: u32 = 1_750;
    let steps = IN_SUMS / (4 + 3 * width);
    let sums = |rest: u32| {
        let mut builder = Builder::new();
        let input = builder.input("a", width);
        builder.input("rest", rest);
        let output = builder.output("y", width);
        let mut word = builder.read(input);
        for _ in 0..steps {
            word = builder.add(word, word);
        }
        builder.assign(output, word);
        builder.finish().encode()
    };
    let (_, least) = netlist_use(&sums(1)).expect("a right image");
    sums(words + 1 - least)
}

/// A word, and its top bits once more, make up the scratch. The former sum
/// has hundreds of words more.
fn with_scratch(words: u32) -> Vec<u8> {
    let tops = |width: u32, bits: u32| {
        let mut builder = Builder::new();
        let input = builder.input("a", width);
        let output = builder.output("y", 1);
        let word = builder.read(input);
        let top = builder.slice(word, width - bits, bits);
        let odd = builder.reduce_xor(top);
        builder.assign(output, odd);
        builder.finish()
    };
    let [least, next] = [1, 2].map(|width| tops(width, 1).scratch_words(1_024) as u32);
    let (rest, of_a_bit) = (words - least, next - least);
    tops(1 + rest / of_a_bit, 1 + rest % of_a_bit).encode()
}

/// The listing's example with list words and name bytes that nothing uses.
fn with_bytes(bytes: usize) -> Vec<u8> {
    const LIST_WORDS: usize = 6_000;
    let mut image = inverter();
    image.list = (0..LIST_WORDS as u32).collect();
    let names = image.names.len();
    let rest = bytes - image.encode().len();
    image.names.resize(names + rest, b'?');
    image.encode()
}

fn followed(mut input: Vec<u8>, bytes: usize) -> Vec<u8> {
    input.extend((0..bytes).map(|at| at as u8));
    input
}

/// An input whose bits have names of 64 bytes: one of 1,008 bits just has room
/// in the scratch.
fn with_long_lines(width: u32) -> Vec<u8> {
    let mut builder = Builder::new();
    builder.input(&"n".repeat(64), width);
    builder.finish().encode()
}

/// A record of each sort, with names of some bytes and words of some width.
fn with_names(bytes: usize, width: u32) -> Vec<u8> {
    let name = |sort: &str| sort.repeat(bytes);
    let mut builder = Builder::new();
    let clock = builder.input(&name("c"), 1);
    let word = builder.input(&name("a"), width);
    let [first, second] = ["d", "e"].map(|sort| builder.wire(&name(sort), width));
    let stored = builder.wire(&name("s"), 1);
    let output = builder.output(&name("y"), width);
    let [address, data, other] = [clock, word, first].map(|signal| builder.read(signal));
    let less = builder.less_signed(data, other);
    builder.register(&name("r"), Register::new(stored, less, clock));
    let enable = Control { signal: clock, low: true };
    let port = |read_data| Port { write_enable: enable, ..image::port(address, read_data, data, clock) };
    builder.memory(&name("m"), Memory { depth: 4, style: 1, first: port(first), second: Some(port(second)) });
    let sum = builder.add(data, other);
    builder.assign(output, sum);
    builder.finish().encode()
}
