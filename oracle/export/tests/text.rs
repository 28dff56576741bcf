//! The texts that are written for small images.

use export::trace_bench::{Run, trace_bench};
use export::{Netlist, Style, dot::dot, module_verilog, netlist_verilog};
use image::netlist_parts::{exact, input, memory_output, output, register, register_output};
use image::{Image, assemble};

const LIMIT: u32 = 1_024;

/// The listing's example in docs/RULES.md.
const LISTING: &str = "input a 1\noutput y 1\nassign y = not a\n";

fn image(text: &str) -> Image {
    let bytes = assemble(text).unwrap_or_else(|error| panic!("{error}"));
    Image::decode(&bytes).expect("a whole image")
}

fn words(image: &Image) -> Vec<u32> {
    driver::words(&driver::lower(&image.encode(), false), LIMIT, LIMIT)
}

fn netlist(image: &Image) -> Netlist {
    Netlist::decode(&words(image)).expect("a netlist")
}

fn module_text(text: &str, style: Style) -> String {
    module_verilog(&image(text), "rtl", style)
        .expect("a module")
        .text
}

fn netlist_text(text: &str, style: Style) -> String {
    let image = image(text);
    netlist_verilog(&netlist(&image), Some(&image), "netlist", style)
        .expect("a netlist")
        .text
}

#[test]
fn module_of_the_listing_example() {
    let expected = "module rtl (\n  input wire \\a ,\n  output wire \\y \n);\n  wire e0 = \\a ;\n  wire e1 = ~e0;\n  \
                    assign \\y  = e1;\nendmodule\n";
    assert_eq!(module_text(LISTING, Style::Plain), expected);
    assert_eq!(module_text(LISTING, Style::Step), expected);
}

#[test]
fn netlist_of_the_listing_example() {
    let expected = "module netlist (\n  input wire \\a ,\n  output wire \\y \n);\n  wire n0, n1, n2;\n  \
                    assign n0 = \\a ;\n  assign n1 = ~n0;\n  assign n2 = n1;\n  assign \\y  = {n2};\nendmodule\n";
    assert_eq!(netlist_text(LISTING, Style::Plain), expected);
}

#[test]
fn netlist_without_an_image_has_numbers_for_names() {
    let text = netlist_verilog(&netlist(&image(LISTING)), None, "netlist", Style::Plain)
        .expect("a netlist")
        .text;
    assert!(
        text.contains("input wire s0,") && text.contains("assign s1 = {n2};"),
        "{text}"
    );
}

#[test]
fn picture_of_the_listing_example() {
    let image = image(LISTING);
    let text = dot(&netlist(&image), Some(&image)).expect("a picture");
    for line in [
        "s0 [label=\"{a|{<b0> 0}}\"",
        "n1 [label=\"not\\n1\"",
        "s0:b0:e -> n1;",
        "n1 -> s1:b0:w;",
    ] {
        assert!(text.contains(line), "{line} is not in\n{text}");
    }
}

const REGISTER: &str = "input clk 1\ninput en 1\ninput rst 1\ninput d 2\noutput q 2\n\
    register r target q next d clock clk falling enable en low reset rst high async value 2'd1\n";

#[test]
fn a_register_with_all_controls() {
    let text = module_text(REGISTER, Style::Plain);
    let block = "  always @(negedge \\clk  or posedge \\rst )\n    if (\\rst ) \\q  <= e1;\n    \
                 else if (!\\en ) \\q  <= e0;\n";
    assert!(text.contains(block), "{text}");
    let text = netlist_text(REGISTER, Style::Step);
    let block = "  always @(negedge events[0] or posedge events[1])\n    if (events[1]) \\r [0] <= 1'b1;\n    \
                 else if (!n1) \\r [0] <= n3;\n";
    assert!(text.contains(block), "{text}");
}

/// Each port is a block of its own; with events the ports note what they store.
#[test]
fn a_memory_with_two_ports() {
    let source = "input clk 1\ninput en 1\ninput a 2\noutput p 1\noutput q 1\n\
        memory m depth 3 port raddr a rdata p waddr a wdata en wenable en clock clk \
        port raddr en rdata q waddr en wdata clk wenable en low clock clk falling\n";
    let blocks = |clock: &str, notes: [&str; 2]| {
        let [first, last] = notes;
        format!(
            "  always @(posedge {clock}) begin\n    m0_read_a <= m0_read_address_a < 32'd3 ? \\m [m0_read_address_a] : 1'd0;\n    \
             if (n1 && m0_write_address_a < 32'd3) begin \\m [m0_write_address_a] <= {{n1}};{first} end\n  end\n  \
             always @(negedge {clock}) begin\n    m0_read_b <= m0_read_address_b < 32'd3 ? \\m [m0_read_address_b] : 1'd0;\n    \
             if (!n1 && m0_write_address_b < 32'd3) begin \\m [m0_write_address_b] <= {{n0}};{last} end\n  end\n"
        )
    };
    let text = netlist_text(source, Style::Plain);
    let expected = format!("  reg \\m  [0:2];\n{}endmodule", blocks("n0", ["", ""]));
    assert!(text.contains(&expected), "{text}");
    let notes = [" stored[0] = 1; stored_at_a = m0_write_address_a;", " stored[1] = 1; stored_at_b = m0_write_address_b;"];
    let watch = "  reg [1:0] stored;\n  reg [31:0] stored_at_a, stored_at_b;\n  wire clash = stored == 2'b11 && stored_at_a == stored_at_b;\n";
    let text = netlist_text(source, Style::Step);
    let expected = format!("  reg \\m  [0:2];\n{watch}{}endmodule", blocks("events[0]", notes));
    assert!(text.contains(&expected), "{text}");
}

/// The lowest number is asked first, whatever the order of the records.
#[test]
fn the_bench_of_a_trace_ends_with_a_clash() {
    let mut nodes = vec![input(0, 0)];
    let mut records = vec![vec![0, 0, 1, 0]];
    for number in [7, 2] {
        let port = |read: u32| [1, 1, 1, 1, 0, read, 0, 0, u32::MAX, 0, 0, 1, 0, 0];
        let read = nodes.len() as u32;
        nodes.extend([memory_output(number, 0), memory_output(number, 1)]);
        records.push([&[2, number, 3, 0, 1, 2][..], &port(read), &port(read + 1)].concat());
    }
    let records: Vec<&[u32]> = records.iter().map(Vec::as_slice).collect();
    let netlist = Netlist::decode(&exact(&nodes, &records)).expect("a netlist");
    let lines = ["0".to_string(), "1".to_string()];
    let bench = trace_bench(&[Run { netlist: &netlist, lines: &lines }]).expect("a bench");
    let part = "      #1;\n    if (dut.clash_) begin $display(\"0 refused 14 %0d 2\", line); disable run; end\n    \
                if (dut.clash) begin $display(\"0 refused 14 %0d 7\", line); disable run; end\n      in = next;\n";
    let text = &bench.files[0].1;
    assert!(text.contains(part), "{part} is not in\n{text}");
    assert!(text.contains("    dut.stored = 0;\n    dut.stored_ = 0;\n      #1;\n"), "{text}");
}

#[test]
fn step_style_asks_for_input_clocks() {
    let text =
        "input a 1\noutput q 1\nwire c 1\nassign c = not a\nregister r target q next a clock c\n";
    let image = image(text);
    assert!(module_verilog(&image, "rtl", Style::Step).is_err());
    assert!(netlist_verilog(&netlist(&image), Some(&image), "netlist", Style::Step).is_err());
    assert!(module_text(text, Style::Plain).contains("always @(posedge \\c )"));
}

#[test]
fn assignments_that_nothing_needs_are_comments() {
    // The loop on w[1] is read nowhere; w[0] is.
    let text = "input a 1\noutput y 1\nwire w 2\nassign w[0] = a\nassign w[1] = not w[1]\nassign y = (signal w)[0]\n";
    let text = module_text(text, Style::Plain);
    assert!(
        text.contains("  assign \\w [0] = ") && text.contains("  // not needed: assign \\w [1] = "),
        "{text}"
    );
}

#[test]
fn words_that_are_no_netlist_are_refused() {
    let image = image(
        "input a 2\ninput b 2\noutput y 2\noutput z 1\nassign y = add a b\nassign z = ltu a b\n",
    );
    let good = words(&image);
    assert!(Netlist::decode(&good).is_ok());
    let refused = |place: usize, value: u32| {
        let mut words = good.clone();
        words[place] = value;
        Netlist::decode(&words)
            .err()
            .unwrap_or_else(|| panic!("word {place} = {value} passed"))
    };
    let list = good[4] as usize;
    assert!(refused(0, 2).contains("edition"));
    assert!(refused(4, list as u32 + 1).contains("list offset"));
    assert!(refused(3, u32::MAX).contains("list words"));
    assert!(refused(5, 9).contains("header counts"));
    assert!(refused(16, 12).contains("kind 12"));
    assert!(refused(16 + 2, 1).contains("net 0"), "bit of an input");
    assert!(refused(list, 7).contains("sort 7"));
    assert!(refused(list + 3, 999).contains("net 999"));
    assert!(Netlist::decode(&good[..10]).is_err());
    assert!(Netlist::from_bytes(&[1, 2, 3]).is_err());
    // Any single word made wild is refused or still gives a netlist; nothing panics.
    for place in 0..list + good[3] as usize {
        let mut words = good.clone();
        words[place] = 0x8000_0001;
        let _ = Netlist::decode(&words)
            .map(|netlist| netlist_verilog(&netlist, None, "netlist", Style::Plain).is_ok());
    }
}

#[test]
fn an_image_of_another_netlist_is_refused() {
    let other = image("input a 2\noutput y 1\nassign y = ror a\n");
    let netlist = netlist(&image(LISTING));
    assert!(netlist_verilog(&netlist, Some(&other), "netlist", Style::Plain).is_err());
    assert!(dot(&netlist, Some(&other)).is_err());
}

/// An input port of two bits whose second is a clock, a register bit alone, two lines.
#[test]
fn the_bench_of_a_trace() {
    let nodes = [input(4, 0), input(4, 1), register_output(2, 3), output(4, 0, 2)];
    let mut bit = register(2, 3, 2);
    bit[5] = 1;
    let netlist = Netlist::decode(&exact(&nodes, &[&[0, 4, 1, 3], &bit, &[0, 4, 2, 0, 1]])).expect("a netlist");
    let lines = ["00".to_string(), "01".to_string()];
    let bench = trace_bench(&[Run { netlist: &netlist, lines: &lines }]).expect("a bench");
    assert_eq!(bench.tops, ["bench0"]);
    assert_eq!(bench.files[1], ("trace0.txt".to_string(), "00\n01\n".to_string()));
    let text = &bench.files[0].1;
    for part in [
        "output wire s4,\n  input wire [1:0] s4_,\n  input wire [0:0] events\n",
        "  reg [3:0] r2;\n",
        "always @(posedge events[0])\n    r2[3] <= n0;\n",
        "  netlist0 dut ({out[0]}, {in[1], in[0]}, events);\n",
        "    events = {next[1]};\n    in = next;\n    #1;\n    dut.r2 = 0;\n    #1 $display(\"0 %b\", out);\n",
        "for (line = 1; line < 2; line = line + 1)",
    ] {
        assert!(text.contains(part), "{part:?} is not in\n{text}");
    }
}
