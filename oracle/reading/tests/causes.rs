//! The sentences that come with a refusal by 3 or 4: one for each rule of the
//! header and the records.

use image::memory_field::{DEPTH, FIRST_PORT, HAS_SECOND, LATENCY, WORD_WIDTH};
use image::{MEMORY_FIELDS, assemble};
use reading::{Cause, cause, refusal};

/// Signals c, a, b, y (1, 8, 8, 8 bits) and expressions 0, 1, 2 that read c, a
/// and b stand before each line.
const BEFORE: &str = "input c 1\ninput a 8\ninput b 8\noutput y 8\n\
                      expr rc = signal c\nexpr ra = signal a\nexpr rb = signal b\n";

/// A port of the right form that reads into y.
const PORT: &str = "port raddr ra rdata y waddr ra wdata rb wenable c clock c";

const ONE_THAT_IS_THERE: &str =
    "a field that names a record, a list word or an enum's value names one that is there";

fn expect(line: &str, refused: [u32; 3], rule: &str) {
    let text = format!("{BEFORE}{line}");
    let image = assemble(&text).unwrap_or_else(|error| panic!("{line}: {error}"));
    let found = cause(&image).unwrap_or_else(|| panic!("{line}: not refused"));
    assert_eq!((found.refusal, found.rule), (refused, rule), "{line}");
    assert_eq!(refusal(&image, 1, 0, 22, 1 << 20), refused, "{line}");
}

#[test]
fn good_images_have_no_cause() {
    let good = ["", "assign y = add ra rb", "expr e = mux rc ra rb", "expr e = shl ra rc", "header 0 2"];
    for line in good {
        assert_eq!(cause(&assemble(&format!("{BEFORE}{line}")).unwrap()), None, "{line}");
    }
}

#[test]
fn header() {
    expect("truncate 63", [3, 0, 0], "under 64 bytes, 0");
    expect("header 0 1", [3, 0, 0], "Edition 1 is no longer read");
    expect("header 0 0", [3, 0, 0], "Edition 2 of the module image");
    expect("header 0 3", [3, 0, 0], "Edition 2 of the module image");
    expect("append \"x\"", [3, 1, 0], "the slice is not the total length");
    expect("header 2 513", [3, 2, 0], "a count above its most");
    expect("header 5 0", [3, 5, 0], "Sections follow the header in this order, without gaps");
    expect("header 14 5", [3, 14, 0], "names that do not end at the total, 14");
}

#[test]
fn signals() {
    let names = "Names: 1 to 64 bytes of 33 to 126";
    expect("wire s 1 name \"\"", [4, 0, 4], names);
    expect("wire s 1 name \"a b\"", [4, 0, 4], names);
    expect("wire s 1 name at 3 9", [4, 0, 4], "name offset in the names section, name length");
    expect("wire s 1 name \"a\"", [4, 0, 4], "none equal within signals, registers or memories");
    expect("wire s 0", [4, 0, 4], "Width 1 to 1,024");
    expect("wire s 1025", [4, 0, 4], "Width 1 to 1,024");
    let widths = "wire s 1024\nwire t 1024\nwire u 1024\nwire v 1024";
    expect(widths, [4, 0, 7], "signal widths sum to at most 4,096");
    expect("raw signal s = 0 2 1 3", [4, 0, 4], ONE_THAT_IS_THERE);
}

#[test]
fn expressions() {
    let inside = "Slices, Signal expressions and assignments stay inside what they take from or drive";
    let equal = "And, Or, Xor, Add, Sub, Mul, BitNot and Mux branches equal the result";
    let give = "Comparisons, LogicNot and reductions give 1";
    let lower = "Operands have lower numbers";
    let parts = "Concat has a part, and the parts sum";
    expect("raw expr e = 0 1025 0 0 0", [4, 1, 3], "Width 1 to 1,024");
    expect("raw expr e = 7 1 0 0 0", [4, 1, 3], "Kinds 0 to 6 follow `ExprKind`");
    expect("raw expr e = 0 1 0 0 1", [4, 1, 3], "three operands, unused ones 0");
    expect("raw expr e = 0 1 4 0 0", [4, 1, 3], ONE_THAT_IS_THERE);
    expect("raw expr e = 0 8 1 1 0", [4, 1, 3], inside);
    expect("raw expr e = 1 8 0 0 0", [4, 1, 3], ONE_THAT_IS_THERE);
    expect("raw expr e = 2 8 5 1 0", [4, 1, 3], ONE_THAT_IS_THERE);
    expect("expr e : 7 = not ra", [4, 1, 3], equal);
    expect("expr e : 8 = lnot ra", [4, 1, 3], give);
    expect("raw expr e = 3 8 19 1 2", [4, 1, 3], ONE_THAT_IS_THERE);
    expect("expr e : 8 = add ra rc", [4, 1, 3], equal);
    expect("expr e : 8 = eq ra rb", [4, 1, 3], give);
    expect("expr e : 1 = eq ra rc", [4, 1, 3], "compared sides are equal");
    expect("expr e : 7 = shl ra rb", [4, 1, 3], "A shift keeps its left width, the amount any width");
    expect("expr e : 8 = mux ra ra rb", [4, 1, 3], "Mux condition, clock and controls are 1 wide");
    expect("expr e : 8 = mux rc ra rc", [4, 1, 3], equal);
    expect("raw expr e = 2 8 0 3 0", [4, 1, 3], lower);
    expect("expr e : 9 = slice ra 8 0", [4, 1, 3], inside);
    expect("expr e : 1 = concat at 0 0", [4, 1, 3], parts);
    expect("expr e : 8 = concat ra rc", [4, 1, 3], parts);
    expect("list 3\nexpr e : 8 = concat at 0 1", [4, 1, 3], lower);
    let wide = "input w 1024\n".to_string() + &"raw expr 0 1024 w 0 0\n".repeat(32);
    expect(&wide, [4, 1, 34], "signal widths sum to at most 4,096, expression widths to 32,768");
}

#[test]
fn assignments() {
    expect("raw assign 4 0 1 0", [4, 3, 0], ONE_THAT_IS_THERE);
    expect("raw assign y 0 0 ra", [4, 3, 0], "Width 1 to 1,024");
    let inside = "Slices, Signal expressions and assignments stay inside what they take from or drive";
    expect("raw assign y 1 8 ra", [4, 3, 0], inside);
    expect("raw assign y 0 8 3", [4, 3, 0], ONE_THAT_IS_THERE);
    expect("raw assign y 0 7 ra", [4, 3, 0], "An assignment's value has its width");
    let drivers = "no bit has two drivers; inputs have one already";
    expect("assign a = rb", [4, 3, 0], drivers);
    expect("assign y = rb\nassign y[7] = rc", [4, 3, 1], drivers);
}

#[test]
fn registers() {
    let agree = "Next, reset value and target agree";
    expect("register r target y next rc clock c", [4, 4, 0], agree);
    expect("register r target y next ra clock c reset c value rc", [4, 4, 0], agree);
    expect("register r target y next ra clock a", [4, 4, 0], "Mux condition, clock and controls are 1 wide");
    expect("register r name \"\" target y next ra clock c", [4, 4, 0], "Names: 1 to 64 bytes of 33 to 126");
    let absent = "Only a register's enable and reset and a read enable may be absent";
    expect("raw register 0 1 y ra absent 0 absent 0 absent 0 0 0", [4, 4, 0], absent);
    let others = "an absent control's other fields are 0";
    expect("raw register 0 1 y ra c 0 absent 1 absent 0 0 0", [4, 4, 0], others);
    expect("raw register 0 1 y ra c 0 absent 0 absent 0 1 0", [4, 4, 0], others);
    expect("raw register 0 1 y ra c 0 absent 0 absent 0 0 1", [4, 4, 0], others);
    expect("raw register 0 1 y ra c 2 absent 0 absent 0 0 0", [4, 4, 0], ONE_THAT_IS_THERE);
    expect("register r target a next ra clock c", [4, 4, 0], "no bit has two drivers; inputs have one already");
    let again = "wire z 8\nregister r target y next ra clock c\nregister q name at 0 1 target z next ra clock c\n\
                 register p name at 0 1 target z next ra clock c";
    expect(again, [4, 4, 2], "none equal within signals, registers or memories");
}

#[test]
fn memories() {
    expect(&format!("memory m depth 0 {PORT}"), [4, 5, 0], "Depth 1 to 65,536");
    expect(&format!("memory m depth 1 latency 2 {PORT}"), [4, 5, 0], "latency 1");
    let wide = "expr w : 33 = concat rc ra rb ra rb";
    let port = PORT.replace("raddr ra", "raddr w");
    expect(&format!("{wide}\nmemory m depth 1 {port}"), [4, 5, 0], "address width 1 to 32");
    let one_width = "all read and write data of a memory have one width";
    let port = PORT.replace("wdata rb", "wdata rc");
    expect(&format!("memory m depth 1 {port}"), [4, 5, 0], one_width);
    let second = PORT.replace("rdata y", "rdata z").replace("wdata rb", "wdata rc");
    expect(&format!("wire z 1\nmemory m depth 1 {PORT} {second}"), [4, 5, 0], one_width);
    let mut fields = [0u32; MEMORY_FIELDS];
    fields[1] = 1;
    fields[DEPTH] = 1;
    fields[WORD_WIDTH] = 8;
    fields[LATENCY] = 1;
    fields[FIRST_PORT..HAS_SECOND].copy_from_slice(&[1, 3, u32::MAX, 0, 1, 2, 0, 0, 0, 0]);
    let raw = |fields: [u32; MEMORY_FIELDS]| {
        fields.iter().fold("raw memory".to_string(), |text, field| format!("{text} {field}"))
    };
    assert_eq!(cause(&assemble(&format!("{BEFORE}{}", raw(fields))).unwrap()), None);
    for width in [7, 9] {
        fields[WORD_WIDTH] = width;
        expect(&raw(fields), [4, 5, 0], "A width that differs from the read data's is refused under 4");
    }
    fields[WORD_WIDTH] = 8;
    fields[HAS_SECOND] = 2;
    expect(&raw(fields), [4, 5, 0], "second port present (0 or 1)");
    fields[HAS_SECOND] = 0;
    fields[MEMORY_FIELDS - 1] = 1;
    expect(&raw(fields), [4, 5, 0], "ten more (0 if none)");
}

/// Every image that 3 or 4 refuses has a cause, with that refusal.
#[test]
fn causes_and_refusals_agree() {
    let mut refused = 0;
    for (name, bytes, ..) in image::borders() {
        let answer = refusal(&bytes, 1, 0, 22, 1 << 20);
        let expected = (answer[0] != 0).then_some(answer);
        assert_eq!(cause(&bytes).map(|Cause { refusal, .. }| refusal), expected, "{name}");
        refused += usize::from(answer[0] != 0);
    }
    assert!(refused > 1_000, "{refused}");
}
