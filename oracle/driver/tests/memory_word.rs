//! `Memory::word` is the record's word width: struo's own validation holds it
//! against the read and the write data.

use driver::{Answer, lower, validate};
use image::assemble;

/// Two ports on words of `read` bits, 4 of them, with the word width written.
fn memory(read: u32, written: u32) -> Vec<u8> {
    let port = |data: &str| format!("port raddr a rdata {data} waddr a wdata d wenable clk clock clk");
    let text = format!(
        "input clk 1\ninput a 2\ninput d {read}\noutput q {read}\noutput r {read}\n\
         memory m depth 4 width {written} {} {}\n",
        port("q"),
        port("r")
    );
    assemble(&text).expect("a right text")
}

fn checked(image: &[u8]) -> [u32; 3] {
    reference::check(image, 100, 100, usize::MAX, usize::MAX)
}

#[test]
fn the_read_datas_width_is_validated() {
    for width in [1, 2, 33, 1024] {
        let image = memory(width, width);
        assert_eq!(validate(&image), Ok(()), "width {width}");
        assert_eq!(checked(&image), [0; 3], "width {width}");
        assert!(matches!(lower(&image, false), Answer::Netlist { .. }), "width {width}");
    }
}

#[test]
fn another_width_is_refused_by_the_rust_too() {
    for (read, written) in [(2, 1), (2, 3), (1, 2), (1024, 1023), (8, 264)] {
        let image = memory(read, written);
        let problem = format!("WidthMismatch {{ expected: BitWidth({written}), actual: BitWidth({read}) }}");
        assert_eq!(validate(&image), Err(problem));
        assert_eq!(checked(&image), [4, 5, 0]);
    }
}

#[test]
fn no_word_has_no_bits() {
    let image = memory(2, 0);
    assert!(validate(&image).is_err());
    assert_eq!(checked(&image), [4, 5, 0]);
}
