//! The text form: what statements give, and which line a mistake is in.

use image::{assemble, disassemble, kind, memory_field, Image, ABSENT};

fn image(text: &str) -> Image {
    let bytes = assemble(text).unwrap_or_else(|error| panic!("{error}"));
    Image::decode(&bytes).expect("an image")
}

#[test]
fn statements_give_the_records_of_the_format() {
    let image = image(
        "input a 4\noutput y 8\nwire t 8 name \"t[0]\"\nexpr k = const 8 0xfe\nexpr e = signal a[2:1]\n\
         assign y[7:4] = (concat e e)\nassign t = k\n",
    );
    assert_eq!(image.names, b"ayt[0]");
    assert_eq!(image.signals, [[0, 1, 4, 1], [1, 1, 8, 2], [2, 4, 8, 0]]);
    assert_eq!(
        image.expressions,
        [
            [kind::CONSTANT, 8, 0, 0, 0],
            [kind::SIGNAL, 2, 0, 1, 0],
            [kind::CONCAT, 4, 2, 2, 0]
        ]
    );
    assert_eq!(image.list, [0xfe, 0, 1, 1]);
    assert_eq!(image.assignments, [[1, 4, 4, 2], [2, 0, 8, 0]]);
}

#[test]
fn registers_and_memories_have_their_fields_in_order() {
    let image = image(
        "input c 1\nwire q 1\nwire p 1\nexpr n = signal c\nexpr v = 1'b1\n\
         register r target q next n clock c falling enable c low reset c low async value v\n\
         memory m depth 5 style block port raddr n rdata p renable c low \\\n\
           waddr v wdata n wenable c clock c falling\n",
    );
    assert_eq!(image.registers, [[3, 1, 1, 0, 0, 1, 0, 1, 0, 1, 1, 1]]);
    let mut memory = [0; 27];
    memory[..16].copy_from_slice(&[4, 1, 5, 1, 1, 1, 0, 2, 0, 1, 1, 0, 0, 0, 0, 1]);
    assert_eq!(image.memories, [memory]);
}

#[test]
fn a_memory_has_the_width_that_is_written_or_its_read_datas() {
    let width = |written: &str, read_data: &str| {
        let image = image(&format!(
            "input c 1\nwire q 5\nexpr n = signal c\nmemory m depth 2{written} style block \\\n\
             port raddr n rdata {read_data} waddr n wdata n wenable c clock c\n"
        ));
        image.memories[0][memory_field::WORD_WIDTH]
    };
    assert_eq!(width("", "q"), 5);
    assert_eq!(width(" width 5", "q"), 5);
    assert_eq!(width(" width 7", "q"), 7);
    assert_eq!(width("", "@9"), 0);
}

#[test]
fn the_text_of_a_memory_has_its_width() {
    let text = "input c 1\nwire q 5\nexpr n = signal c\n\
        memory m depth 2 port raddr n rdata q waddr n wdata n wenable c clock c\n";
    assert!(disassemble(&image(text)).contains("memory m depth 2 width 5 style auto port"));
}

#[test]
fn absent_controls_and_defaults() {
    let image = image("input c 1\nwire q 1\nregister r target q next c clock c\n");
    assert_eq!(
        image.registers,
        [[2, 1, 1, 0, 0, 0, ABSENT, 0, ABSENT, 0, 0, 0]]
    );
}

#[test]
fn widths_follow_from_operands() {
    let image = image(
        "input a 5\ninput s 2\nexpr x = signal a\nexpr n = signal s\nexpr e1 = not x\nexpr e2 = rxor x\n\
         expr e3 = sub x x\nexpr e4 = les x x\nexpr e5 = sar x n\nexpr e6 = mux e2 x x\n\
         expr e7 = concat x n x\nexpr e8 = slice x 3 1\nexpr e9 = x[4]\nexpr e10 : 7 = add x x\n",
    );
    let widths: Vec<u32> = image.expressions[2..]
        .iter()
        .map(|record| record[1])
        .collect();
    assert_eq!(widths, [5, 1, 5, 1, 5, 5, 12, 3, 1, 7]);
}

#[test]
fn wide_constants_and_decimal_values() {
    let image = image(
        "expr k = const 65 0x1_0000_0002_0000_0003\nexpr d = const 70 36893488147419103233\n",
    );
    assert_eq!(image.list, [3, 2, 1, 0, 1, 0, 2, 0]);
}

#[test]
fn patches_change_the_finished_bytes() {
    let bytes = assemble("input a 1\nheader 0 7\nappend \"xy\"\n").expect("bytes");
    assert_eq!(bytes.len(), 64 + 16 + 1 + 2);
    assert_eq!(bytes[0], 7);
    assert_eq!(assemble("truncate 3\n").map(|bytes| bytes.len()), Ok(3));
}

#[test]
fn mistakes_are_answered_with_their_line() {
    for (text, line) in [
        ("inptu a 1\n", 1),
        ("# fine\n\ninput a\n", 3),
        ("input a 1\ninput a 1\n", 2),
        ("input a 1\nassign b = a\n", 2),
        ("input a 1\noutput y 1\nassign y = frob a\n", 3),
        ("input a 1\nexpr x = add a\n", 2),
        ("input a 1\nexpr x = not b\n", 2),
        ("expr x = const 8 0x\n", 1),
        ("expr x = const 64 0x1_0000_0000_0000_0000\n", 1),
        ("input a 8\nexpr x = a[1:3]\n", 2),
        ("input a 8\nexpr x = (not a\n", 2),
        ("input a 8 extra\n", 1),
        ("input a 4294967296\n", 1),
        ("input a 1\nexpr x = signal a\nexpr y = x\n", 3),
        ("input a 1 name \"unclosed\n", 1),
        ("input a 1 name \"\\q\"\n", 1),
        ("input a 1\nwire q 1\nregister r target q\n", 3),
        (
            "input a 1\nwire q 1\nregister r target q next a clock a reset a high\n",
            3,
        ),
        ("input a 1\nwire q 1\nmemory m depth 1 style odd port\n", 3),
        (
            "input a 1\nwire q 1\nmemory m depth 2 \\\nport raddr a\\\n rdata b\n",
            3,
        ),
        ("input a 1\nwire q 1\nmemory m depth 1 width port\n", 3),
        ("edition 3\n", 1),
        ("raw expr 1 2 3\n", 1),
        ("raw signal 0 0 0 0 0\n", 1),
        ("expr x = not @7\n", 1),
        ("\nheader 16 0\n", 2),
        ("\n\ntruncate 9999\n", 3),
        ("input a 1\ninput mux 1\n", 2),
        ("input a 1\nlist 1 \\\n", 2),
        ("input ä 1\n", 1),
    ] {
        let error = assemble(text).expect_err(text);
        assert_eq!(error.line, line, "{text:?}: {error}");
        assert!(!error.message.is_empty());
    }
}

#[test]
fn the_programs_write_nothing_on_a_mistake() {
    let directory = std::env::temp_dir().join(format!("image-text-{}", std::process::id()));
    std::fs::create_dir_all(&directory).expect("a directory");
    let (text, target) = (directory.join("bad.txt"), directory.join("bad.img"));
    std::fs::write(&text, "input a 1\nassign\n").expect("a text");
    let run = std::process::Command::new(env!("CARGO_BIN_EXE_asm"))
        .args([text.as_os_str(), "-o".as_ref(), target.as_os_str()])
        .output()
        .expect("asm runs");
    assert!(!run.status.success());
    assert!(String::from_utf8_lossy(&run.stderr).contains("line 2:"));
    assert!(!target.exists());
    std::fs::remove_dir_all(&directory).expect("the directory goes");
}
