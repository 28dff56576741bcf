//! Small images through Icarus and Yosys, and the witness's own alarms. Each
//! test says so and passes where the tools are not installed.

use driver::{Run, Setting};
use export::bench::{Bench, bench};
use export::tools::{Proof, Workplace, is_installed, prove_equal, simulate};
use export::traces::{first_difference, icarus, traced};
use export::witness::{Counts, Effort, witness};
use export::{Netlist, Style, Verilog, module_verilog, netlist_verilog};
use image::{BINARY_OPS, Builder, Image, Random, UNARY_OPS, assemble};

const EFFORT: Effort = Effort {
    settings: 40,
    proof_seconds: 20,
};

fn installed(tools: &[&str]) -> bool {
    let missing: Vec<&&str> = tools.iter().filter(|tool| !is_installed(tool)).collect();
    if !missing.is_empty() {
        println!("SKIPPED: not installed: {missing:?}");
    }
    missing.is_empty()
}

fn image(text: &str) -> Image {
    let bytes = assemble(text).unwrap_or_else(|error| panic!("{error}"));
    Image::decode(&bytes).expect("a whole image")
}

/// Runs and proves one image; it must not be left out of either.
fn hold(image: &Image) -> Counts {
    let mut counts = Counts::default();
    let result = witness(image, &mut Random::new(7), EFFORT, &mut counts);
    result.unwrap_or_else(|difference| panic!("{difference}"));
    assert_eq!(
        (counts.simulated, counts.proved + counts.proved_opened),
        (1, 1),
        "{counts:?}"
    );
    counts
}

/// One output for each width of a binary operator.
fn binary_image(op: u32, widths: &[(u32, u32)]) -> Image {
    let mut builder = Builder::new();
    for (number, &(left, right)) in widths.iter().enumerate() {
        let [a, b] = [("a", left), ("b", right)]
            .map(|(name, width)| builder.input(&format!("{name}{number}"), width));
        let (a, b) = (builder.read(a), builder.read(b));
        let value = builder.binary(op, a, b);
        let width = builder.width(value);
        let y = builder.output(&format!("y{number}"), width);
        builder.assign(y, value);
    }
    builder.finish()
}

#[test]
fn every_unary_operator() {
    if !installed(&["iverilog", "vvp", "yosys"]) {
        return;
    }
    for op in 0..UNARY_OPS.len() as u32 {
        let mut builder = Builder::new();
        for width in [1, 2, 5, 65] {
            let a = builder.input(&format!("a{width}"), width);
            let a = builder.read(a);
            let value = builder.unary(op, a);
            let y = builder.output(&format!("y{width}"), if op == 0 { width } else { 1 });
            builder.assign(y, value);
        }
        hold(&builder.finish());
    }
}

#[test]
fn every_binary_operator() {
    if !installed(&["iverilog", "vvp", "yosys"]) {
        return;
    }
    for op in 0..BINARY_OPS.len() as u32 {
        let widths: &[(u32, u32)] = match op {
            5 => &[(1, 1), (3, 3), (6, 6)],
            16.. => &[(1, 1), (1, 3), (5, 2), (8, 4), (8, 8), (33, 70)],
            _ => &[(1, 1), (2, 2), (7, 7), (65, 65)],
        };
        hold(&binary_image(op, widths));
    }
}

#[test]
fn wide_products_by_simulation() {
    if !installed(&["iverilog", "vvp", "yosys"]) {
        return;
    }
    let mut counts = Counts::default();
    let image = binary_image(5, &[(33, 33), (64, 64), (130, 130)]); // too wide for a proof
    witness(&image, &mut Random::new(3), EFFORT, &mut counts)
        .unwrap_or_else(|difference| panic!("{difference}"));
    assert_eq!((counts.simulated, counts.proof_left_out), (1, 1));
}

#[test]
fn mux_concat_and_slices() {
    if !installed(&["iverilog", "vvp", "yosys"]) {
        return;
    }
    hold(&image(
        "input c 1\ninput a 4\ninput b 4\noutput y 4\noutput z 9\noutput w 2\n\
         assign y = mux c a b\nassign z = concat a c b\nassign w = (add a b)[2:1]\n",
    ));
}

/// Clocks that are data, resets of both levels, two ports on two clocks.
const CLOCKED: &str = "input c 1\ninput d 1\ninput r 1\ninput x 3\noutput q 3\noutput p 1\noutput m 3\noutput n 3\n\
    register q target q next x clock c falling enable d low reset r high async value 3'd5\n\
    register p target p next c clock c reset r low async value 1'd1\n\
    memory m depth 3 port raddr x[1:0] rdata m renable r waddr q[1:0] wdata x wenable p clock c \
    port raddr q[1:0] rdata n waddr q[1:0] wdata (not x) wenable r low clock d falling\n";

#[test]
fn registers_and_memories() {
    if !installed(&["iverilog", "vvp", "yosys"]) {
        return;
    }
    hold(&image(CLOCKED));
}

/// Two ports that write one word, each on one of these clocks.
fn collision(first: &str, second: &str) -> Image {
    image(&format!(
        "input c 1\ninput d 1\ninput x 3\ninput y 3\noutput m 3\noutput n 3\ninput on 1\n\
         memory m depth 1 port raddr on rdata m waddr 1'd0 wdata x wenable on clock {first} \
         port raddr on rdata n waddr 1'd0 wdata y wenable on clock {second}\n"
    ))
}

#[test]
fn icarus_tells_write_clashes() {
    if !installed(&["iverilog", "vvp", "yosys"]) {
        return;
    }
    for ([first, second], clashes) in [
        (["c", "c"], true),
        (["c", "d"], true),
        (["d", "c"], true),
        (["c falling", "d"], true),
        (["c", "c falling"], false),
    ] {
        let counts = hold(&collision(first, second));
        assert_eq!(counts.clashes > 0, clashes, "{first}, {second}: {counts:?}");
    }
}

/// The Verilog of module and netlist, and the bench of a run from contents that are 0.
fn benched(image: &Image, settings: Vec<Setting>) -> (Run, [Verilog; 2], Bench) {
    let words = driver::words(&driver::lower(&image.encode(), false), 100, 200);
    let sim = driver::ModuleSim::new(&image.encode()).expect("a module");
    let first = sim.zero_contents();
    let seen = sim.run(&first, &settings).expect("a run");
    let run = Run {
        first,
        settings,
        seen,
    };
    let rtl = module_verilog(image, "rtl", Style::Step).expect("a module");
    let netlist = Netlist::decode(&words).expect("a netlist");
    let netlist =
        netlist_verilog(&netlist, Some(image), "netlist", Style::Step).expect("a netlist");
    let bench = bench(image, [&rtl, &netlist], &run);
    (run, [rtl, netlist], bench)
}

/// What Icarus prints.
fn printed(rtl: &str, netlist: &str, bench: &Bench) -> String {
    let place = Workplace::new().expect("a directory");
    simulate(&place, rtl, netlist, bench).unwrap_or_else(|problem| panic!("{problem}"))
}

/// A register beside the settings it sees and what it must hold after each.
fn run_register(text: &str, settings: &[&[(u32, bool)]], held: &[bool]) {
    let settings = settings
        .iter()
        .map(|setting| setting.iter().map(|&(s, value)| (s, vec![value])).collect());
    let (run, [rtl, netlist], bench) = benched(&image(text), settings.collect());
    let contents: Vec<bool> = run
        .seen
        .observations
        .iter()
        .map(|seen| seen.contents.registers[0][0])
        .collect();
    assert_eq!(contents, held);
    assert_eq!(printed(&rtl.text, &netlist.text, &bench), bench.expected);
}

#[test]
fn the_step_rule_by_hand() {
    if !installed(&["iverilog", "vvp"]) {
        return;
    }
    // The data changes with the edge and the value before counts; the clock as
    // data is 0 before its rising edge.
    let text = "input c 1\ninput d 1\noutput q 1\nregister r target q next (or d c) clock c\n";
    let settings: [&[(u32, bool)]; 4] = [
        &[(0, false), (1, true)],
        &[(0, true), (1, false)],
        &[(0, false), (1, false)],
        &[(0, true), (1, true)],
    ];
    run_register(text, &settings, &[false, true, true, false]);
    // The reset is active from the start: it acts at the first step, without an
    // edge of its own; let go in the step of a clock edge, next is taken.
    let text = "input c 1\ninput r 1\noutput q 1\nregister r target q next 1'd0 clock c reset r async value 1'd1\n";
    let settings: [&[(u32, bool)]; 3] = [
        &[(0, false), (1, true)],
        &[(0, false), (1, true)],
        &[(0, true), (1, false)],
    ];
    run_register(text, &settings, &[false, true, false]);
}

#[test]
fn icarus_shows_a_wrong_netlist() {
    if !installed(&["iverilog", "vvp"]) {
        return;
    }
    let settings = vec![Setting::from([(0, vec![true, false])])];
    let (_, [rtl, netlist], bench) = benched(
        &image("input a 2\noutput y 2\nassign y = not a\n"),
        settings,
    );
    assert_eq!(bench.expected, "module output 1 10\nnetlist output 1 10\n");
    assert_eq!(printed(&rtl.text, &netlist.text, &bench), bench.expected);
    let wrong = netlist.text.replace('~', "");
    assert_eq!(
        printed(&rtl.text, &wrong, &bench),
        "module output 1 10\nnetlist output 1 01\n"
    );
}

#[test]
fn icarus_shows_a_netlist_that_clashes_otherwise() {
    if !installed(&["iverilog", "vvp"]) {
        return;
    }
    let bits = |clock: bool| {
        let one = |signal: u32, bit: bool| (signal, vec![bit; if (2..4).contains(&signal) { 3 } else { 1 }]);
        Setting::from([one(0, clock), one(1, clock), one(2, true), one(3, true), one(6, true)])
    };
    let (run, [rtl, netlist], bench) = benched(&collision("c", "d"), vec![bits(false), bits(true), bits(false)]);
    assert_eq!((run.seen.observations.len(), run.seen.clash), (1, Some(0)));
    assert!(bench.expected.ends_with("module clash 0\nnetlist clash 0\n"));
    assert_eq!(printed(&rtl.text, &netlist.text, &bench), bench.expected);
    let silent = netlist.text.replace("2'b11", "2'b10");
    let missing = bench.expected.replace("netlist clash 0\n", "");
    assert_eq!(printed(&rtl.text, &silent, &bench), missing);
}

/// Netlists made by hand among them: register bits with gaps, memories in any order,
/// carries of every operation, clocks that are bits of a port.
#[test]
fn traces_by_icarus() {
    if !installed(&["iverilog", "vvp"]) {
        return;
    }
    let traced = driver::with_big_stack(|| traced(5, 0, 40));
    let theirs = icarus(&traced).unwrap_or_else(|problem| panic!("{problem}"));
    for (traced, theirs) in traced.iter().zip(&theirs) {
        assert_eq!(
            first_difference(&traced.text, theirs),
            None,
            "{}",
            traced.number
        );
    }
    assert!(first_difference(&traced[1].text, &traced[0].text).is_some());
}

#[test]
fn yosys_tells_equal_from_different() {
    if !installed(&["yosys"]) {
        return;
    }
    let place = Workplace::new().expect("a directory");
    let module = |name: &str, value: &str| {
        format!(
            "module {name} (input [3:0] a, input [3:0] b, output [3:0] y);\n  assign y = {value};\nendmodule\n"
        )
    };
    let sum = module("rtl", "a + b");
    assert_eq!(
        prove_equal(&place, &sum, &module("netlist", "b - ~a - 4'd1"), 20),
        Ok(Proof::Equal)
    );
    assert!(prove_equal(&place, &sum, &module("netlist", "a | b"), 20).is_err());
}
