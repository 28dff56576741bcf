//! The two simulators against each other on lowered random images, and each on
//! small cases worked out by hand. Values of operators on constants stand in the
//! corpus (k07, k08).

use driver::{
    Answer, Contents, ModuleSim, NetlistSim, NoRun, Observation, Run, Seen, Setting, lower, random_word, with_big_stack, words,
};
use image::{BINARY_OPS, BinaryClass, MOST_LIMIT, Random, Size, assemble, binary_class, bring_near_clash, generate, lower_depths};

const IMAGES: u64 = 12_000;
const SETTINGS: usize = 20;

fn netlist(image: &[u8], observable: bool) -> Option<NetlistSim> {
    let answer = lower(image, observable);
    let accepted = matches!(answer, Answer::Netlist { .. });
    accepted.then(|| NetlistSim::new(&words(&answer, MOST_LIMIT, MOST_LIMIT)))
}

/// A random image whose memories have so few words that they are often met, in two
/// thirds of the images by both ports at once.
fn small_image(seed: u64) -> Vec<u8> {
    let size = if seed.is_multiple_of(2) { Size::Tiny } else { Size::Small };
    let mut image = generate(seed, size);
    lower_depths(&mut image);
    if !seed.is_multiple_of(3) {
        bring_near_clash(&mut image, &mut Random::new(seed));
    }
    image.encode()
}

#[test]
fn module_and_netlist_agree_on_random_images() {
    let (mut compared, mut control_not_input) = (0, 0);
    let (mut changed, mut met) = ([0; 3], Met::default());
    with_big_stack(|| {
        for seed in 0..IMAGES {
            let image = small_image(seed);
            let Some(netlist) = netlist(&image, seed / 2 % 2 == 1) else {
                continue;
            };
            let random = &mut Random::new(seed);
            let module = ModuleSim::new(&image).expect("a readable image");
            let mut first = module.zero_contents();
            first.randomise(random);
            let settings = module.random_settings(SETTINGS, random);
            let runs = match module.runs(&first, &settings) {
                Err(NoRun::ControlNotInput) => {
                    control_not_input += 1;
                    continue;
                }
                runs => runs.unwrap_or_else(|error| panic!("seed {seed}: {error:?}")),
            };
            let counts = changed.iter_mut().zip(changes(&first, &runs));
            counts.for_each(|(count, change)| *count += u32::from(change));
            met.count(&runs);
            for run in runs {
                assert_eq!(netlist.run(&run.first, &run.settings), Ok(run.seen), "seed {seed}");
            }
            compared += 1;
        }
    });
    println!("{compared} compared, contents changing {changed:?}, {control_not_input} left out; {met:?}");
    assert!(compared > 7_000 && changed.iter().all(|&count| count > 900), "{compared}, {changed:?}");
    assert!(met.images > 200 && met.settings == SETTINGS * compared, "{met:?}");
}

/// Write clashes of the images.
#[derive(Debug, Default)]
struct Met {
    settings: usize,
    /// Images with a clash, and their settings before the first.
    images: usize,
    before: usize,
    clashes: usize,
}

impl Met {
    fn count(&mut self, runs: &[Run]) {
        self.settings += runs.iter().map(|run| run.seen.observations.len()).sum::<usize>();
        self.clashes += runs.len() - 1;
        if runs.len() > 1 {
            self.images += 1;
            self.before += runs[0].seen.observations.len();
        }
    }
}

/// Whether register bits, read data and memory words change in the runs.
fn changes(first: &Contents, runs: &[Run]) -> [bool; 3] {
    let seen = || runs.iter().flat_map(|run| &run.seen.observations);
    let any = |differ: fn(&Contents, &Contents) -> bool| seen().any(|seen| differ(&seen.contents, first));
    [
        any(|contents, first| contents.registers != first.registers),
        any(|contents, first| contents.read_data != first.read_data),
        any(|contents, first| contents.memories != first.memories),
    ]
}

/// Random words, some of them equal.
fn operands(random: &mut Random, width: u32) -> Setting {
    let lhs = random_word(width, random);
    let rhs = if random.chance(25) { lhs.clone() } else { random_word(width, random) };
    Setting::from([(0, lhs), (1, rhs)])
}

#[test]
fn module_and_netlist_agree_on_wide_operators() {
    let random = &mut Random::new(7);
    for (number, operator) in (0..).zip(BINARY_OPS) {
        for width in [1, 2, 31, 32, 33, 63, 64, 65, 100, 129] {
            let result = if binary_class(number) == BinaryClass::Compare { 1 } else { width };
            let image = assembled(&format!("input a {width}\ninput b {width}\noutput y {result}\nassign y = {operator} a b\n"));
            let module = ModuleSim::new(&image).expect("a readable image");
            let netlist = netlist(&image, false).expect("accepted");
            let settings: Vec<Setting> = (0..40).map(|_| operands(random, width)).collect();
            let first = module.zero_contents();
            let expected = module.run(&first, &settings);
            assert!(expected.is_ok());
            assert_eq!(netlist.run(&first, &settings), expected, "{operator} at {width}");
        }
    }
}

fn assembled(text: &str) -> Vec<u8> {
    assemble(text).unwrap_or_else(|error| panic!("{error}: {text}"))
}

fn setting(bits: &[(u32, bool)]) -> Setting {
    bits.iter().map(|&(signal, bit)| (signal, vec![bit])).collect()
}

/// What both simulators show.
fn seen(image: &[u8], first: &Contents, settings: &[Setting]) -> Seen {
    let module = ModuleSim::new(image).expect("a readable image");
    let seen = module.run(first, settings).expect("values");
    let netlist = netlist(image, false).expect("accepted");
    assert_eq!(netlist.run(first, settings), Ok(seen.clone()));
    seen
}

/// The same of a run to the end.
fn run(image: &[u8], first: &Contents, settings: &[Setting]) -> Vec<Observation> {
    let seen = seen(image, first, settings);
    assert_eq!((seen.observations.len(), seen.clash), (settings.len(), None));
    seen.observations
}

/// A register that counts by inverting, with a reset of the given mode to 1.
fn toggle(mode: &str) -> Vec<bool> {
    let image = assembled(&format!(
        "input clk 1\ninput rst 1\noutput q 1\nregister r target q next (not q) clock clk reset rst high {mode} value 1'd1\n"
    ));
    let inputs = [(false, true), (false, true), (true, false), (false, false), (true, false), (true, true)];
    let settings = inputs.map(|(clock, reset)| setting(&[(0, clock), (1, reset)]));
    let first = ModuleSim::new(&image).expect("a readable image").zero_contents();
    run(&image, &first, &settings).iter().map(|seen| seen.outputs[&2][0]).collect()
}

#[test]
fn resets_act_by_their_mode() {
    // Start; no edge; edge with reset before it; no edge; edge; no edge, reset.
    assert_eq!(toggle("sync"), [false, false, true, true, false, false]);
    assert_eq!(toggle("async"), [false, true, false, false, true, true]);
}

/// Memories of these depths. Both ports write 1: the first at its rising clk, the second
/// at the given clock, and where `on` is 1.
fn two_ports(depths: &[u32], second: &str) -> Vec<u8> {
    let mut text = "input clk 1\ninput tick 1\ninput on 1\ninput here 2\ninput there 1\nwire one 1\nassign one = 1'd1\n".to_string();
    for (number, depth) in depths.iter().enumerate() {
        text += &format!(
            "output d{number} 1\noutput e{number} 1\n\
             memory m{number} depth {depth} port raddr here rdata d{number} waddr here wdata 1'd1 wenable one clock clk \
             port raddr there rdata e{number} waddr there wdata 1'd1 wenable on clock {second}\n"
        );
    }
    assembled(&text)
}

/// Settings of these inputs, each written as clk, tick, on, here (bit 0 first) and there.
fn settings(text: &str) -> Vec<Setting> {
    let setting = |text: &str| {
        let mut bits = text.bytes().map(|bit| bit == b'1');
        let mut word = |(signal, width): (u32, usize)| (signal, bits.by_ref().take(width).collect());
        Setting::from([(0, 1), (1, 1), (2, 1), (3, 2), (4, 1)].map(&mut word))
    };
    text.split_whitespace().map(setting).collect()
}

/// How many settings are seen, and the memory of the clash.
fn clash_of(image: &[u8], text: &str) -> (usize, Option<u32>) {
    let first = ModuleSim::new(image).expect("a readable image").zero_contents();
    let seen = seen(image, &first, &settings(text));
    (seen.observations.len(), seen.clash)
}

#[test]
fn a_run_ends_before_both_ports_write_one_word() {
    let image = two_ports(&[3], "clk");
    // Word 1 by both, equal; then addresses apart, an enable off, no edge.
    assert_eq!(clash_of(&image, "001101 101101 001101"), (1, Some(0)));
    assert_eq!(clash_of(&image, "001011 101011 000101 100101 101101 001101 101101"), (6, Some(0)));
    // Enable and addresses are those before the step.
    assert_eq!(clash_of(&image, "001101 100010"), (1, Some(0)));
    assert_eq!(clash_of(&image, "000101 101101 001010 101000"), (4, None));
    // The addresses have 2 bits and 1 bit: 3 and 1, 2 and 0, 0 and 0.
    assert_eq!(clash_of(&image, "001111 101111 001010 101010 001000 101000"), (5, Some(0)));
}

#[test]
fn a_word_past_the_depth_is_no_clash() {
    assert_eq!(clash_of(&two_ports(&[1], "clk"), "001101 101101 001101 101101"), (4, None));
    assert_eq!(clash_of(&two_ports(&[1, 2, 2], "clk"), "001101 101101"), (1, Some(1)));
    assert_eq!(clash_of(&two_ports(&[1, 2, 2], "clk"), "001000 101000"), (1, Some(0)));
}

#[test]
fn ports_on_two_clocks_meet_in_one_step_alone() {
    let rising = two_ports(&[2], "tick");
    assert_eq!(clash_of(&rising, "001101 101101 111101 001101 011101 001101 111101"), (6, Some(0)));
    let falling = two_ports(&[2], "tick falling");
    assert_eq!(clash_of(&falling, "001101 111101 001101 011101 101101"), (4, Some(0)));
    assert_eq!(clash_of(&two_ports(&[2], "clk falling"), "001101 101101 001101 101101"), (4, None));
}

#[test]
fn after_a_clash_the_next_run_starts_before_it() {
    let module = ModuleSim::new(&two_ports(&[2], "clk")).expect("a readable image");
    let first = module.zero_contents();
    let runs = module.runs(&first, &settings("001101 101101 001101 101101 001101")).expect("values");
    let lengths: Vec<(usize, usize, Option<u32>)> =
        runs.iter().map(|run| (run.settings.len(), run.seen.observations.len(), run.seen.clash)).collect();
    assert_eq!(lengths, [(5, 1, Some(0)), (4, 2, Some(0)), (2, 2, None)]);
    assert!(runs.iter().all(|run| run.first == first));
}

/// Past the depth nothing is stored, and 0 is read.
#[test]
fn both_ports_write_past_the_depth() {
    let image = assembled(
        "input clk 1\ninput far 1\ninput on 1\nwire one 1\noutput d 1\noutput e 1\nassign one = 1'd1\n\
         memory m depth 1 port raddr far rdata d waddr far wdata 1'd0 wenable one clock clk \
         port raddr far rdata e waddr far wdata 1'd0 wenable on clock clk\n",
    );
    let mut first = ModuleSim::new(&image).expect("a readable image").zero_contents();
    first.memories[0][0] = vec![true];
    let inputs = [(false, false, false), (true, false, false), (false, true, true), (true, true, true)];
    let seen = run(&image, &first, &inputs.map(|(clock, far, on)| setting(&[(0, clock), (1, far), (2, on)])));
    let words: Vec<bool> = seen.iter().map(|seen| seen.contents.memories[0][0][0]).collect();
    assert_eq!(words, [true, false, false, false]);
    for data in [4, 5] {
        let read: Vec<bool> = seen.iter().map(|seen| seen.outputs[&data][0]).collect();
        assert_eq!(read, [false, true, true, false], "the old word");
    }
}

#[test]
fn a_module_bit_on_itself_has_no_value() {
    let module = ModuleSim::new(&assembled("output s 1\nassign s = s\n")).expect("a readable image");
    let run = module.run(&module.zero_contents(), &[Setting::new()]);
    assert_eq!(run, Err(NoRun::Loop { signal: 0, bit: 0 }));
}
