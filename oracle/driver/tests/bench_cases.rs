//! What the corpus does not say of the bench cases (docs/RULES.md), images that
//! cannot be read, and the listing.

use driver::{Answer, listing, lower};
use image::assemble;

fn assembled(text: &str) -> Vec<u8> {
    assemble(text).unwrap_or_else(|error| panic!("{error}: {text}"))
}

fn records(image: &[u8]) -> Vec<Vec<u32>> {
    match lower(image, false) {
        Answer::Netlist { records, .. } => records,
        other => panic!("not accepted: {other:?}"),
    }
}

/// A loop by whole drivers is none where dependencies are observable.
#[test]
fn k9_by_bits() {
    let image = assembled(include_str!("../../../corpus/k09.txt"));
    assert_eq!(lower(&image, false), Answer::Refused([7, 1, 0]));
    let Answer::Netlist { nodes, .. } = lower(&image, true) else {
        panic!("accepted where dependencies are observable")
    };
    assert_eq!(nodes.len(), 3);
}

#[test]
fn k10_reset_values() {
    let folded = records(&assembled(include_str!("../../../corpus/k10.txt")));
    let bits = folded.iter().filter(|record| record[0] == 1);
    assert_eq!(bits.map(|record| record[12] << record[2]).sum::<u32>(), 2);

    let compared = "input clk 1\ninput rst 1\nwire q 8\n\
                    register r target q next q clock clk reset rst value (concat (ltu 8'd1 8'd2) 7'd0)\n";
    assert_eq!(lower(&assembled(compared), false), Answer::Refused([8, 0, 7]));
}

#[test]
fn k11_takes_the_carry_from_its_net() {
    let records = records(&assembled(include_str!("../../../corpus/k11.txt")));
    let cells = records.iter().filter(|record| record[0] == 3);
    assert_eq!(cells.map(|record| (record[2], record[3])).collect::<Vec<_>>(), [(2, 4)]);
}

#[test]
fn an_unreadable_image_is_a_crash() {
    assert!(matches!(lower(&[0; 63], false), Answer::Crash(_)));
    let widened = assembled("input a 2\nexpr x = signal a\nraw expr 3 3 3 x x\n");
    assert!(matches!(lower(&widened, false), Answer::Crash(_)));
}

#[test]
fn the_listing_example() {
    let image = assembled(include_str!("../../../corpus/listing.txt"));
    let text = "nets 3 list 8\n0 input a\n1 not 0\n2 output y 1\nport a 0\nport y 2\n";
    assert_eq!(listing(&image, &reference::check), text);
}

#[test]
fn the_listing_names_all_sorts() {
    let image = assembled(
        "input clk 1\ninput a 2\nwire d 2\nwire e 2\noutput q 1\n\
         expr x = signal a\nregister r target q next (lts (add d e) x) clock clk falling\n\
         memory m depth 4 style block port raddr x rdata d waddr x wdata x wenable clk low clock clk \
         port raddr x rdata e waddr x wdata x wenable clk low clock clk\n",
    );
    let text = "\
nets 12 list 86
0 input clk
1 input a[0]
2 input a[1]
3 registeroutput r
4 memoryoutput m[0]
5 memoryoutput m[1]
6 memoryoutput m_b[0]
7 memoryoutput m_b[1]
8 arithmeticoutput 0 0
9 arithmeticoutput 0 1
10 comparisonoutput 0 0
11 output q 3
port clk 0
port a 1 2
memory 0 4 1 1 2 2 2 2 2 1 2 4 5 1 2 1 2 4294967295 0 0 1 0 0 2 2 2 2 1 2 6 7 1 2 1 2 4294967295 0 0 1 0 0
arithmetic 0 2 4294967295 4 5 6 7 8 9
comparison 2 2 8 9 1 2 10
register 0 0 3 10 0 1 4294967295 0 4294967295 0 0 0
port q 11
";
    assert_eq!(listing(&image, &reference::check), text);
}

#[test]
fn the_listing_reads_only_the_first_bytes() {
    let mut image = assembled("");
    image.resize(40_000, 0);
    assert_eq!(listing(&image, &reference::check), "refused 3 1 0\n");
}
