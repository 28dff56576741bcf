//! The command trace without its program: the words of the command line, the
//! netlist that is sent, refusals in words, tables and drawings.

use command::trace::arguments::{FromVcd, Request, Source, Wish, request};
use command::trace::given::{Given, Refused, of_module};
use command::trace::lines::{Sent, Stopped};
use command::trace::named::Named;
use command::trace::ports::{Port, Ports, hexadecimal};
use command::trace::records::Record;
use command::trace::refusal::in_words;
use command::trace::svg::Svg;
use command::trace::table::Table;
use std::sync::mpsc::channel;

const CONTROLLER: &str = include_str!("../../corpus/controller.txt");

fn assembled(text: &str) -> Vec<u8> {
    image::assemble(text).expect("a text")
}

fn given(text: &str) -> Given {
    of_module(assembled(text)).expect("an accepted module")
}

fn port(name: &str, width: usize) -> Port {
    Port { signal: 0, name: name.to_string(), width }
}

fn asked(words: &str) -> Result<Request, String> {
    request(&words.split(' ').map(str::to_string).collect::<Vec<_>>())
}

#[test]
fn words_of_the_command_line() {
    let wish = |file: &str, trace: Source| Wish {
        file: file.to_string(),
        trace,
        names: None,
        table: false,
        output: None,
        trace_out: None,
        vcd: None,
        svg: None,
    };
    let vcd = |file: &str, scope: Option<&str>, unknown_is_0: bool| {
        Source::Vcd(FromVcd { file: file.to_string(), scope: scope.map(str::to_string), unknown_is_0 })
    };
    assert_eq!(asked("m t"), Ok(Request::Run(wish("m", Source::Lines("t".to_string())))));
    let vcd_out = Wish { vcd: Some("v".to_string()), table: true, ..wish("m", Source::Lines("-".to_string())) };
    assert_eq!(asked("m --vcd v - --table"), Ok(Request::Run(vcd_out)));
    assert_eq!(asked("m t.vcd --scope a.b"), Ok(Request::Run(wish("m", vcd("t.vcd", Some("a.b"), false)))));
    assert_eq!(asked("m --from-vcd t --unknown 0"), Ok(Request::Run(wish("m", vcd("t", None, true)))));
    assert_eq!(asked("m --table --help"), Ok(Request::Help));
    let wrong = |words: &str, told: &str| assert_eq!(asked(words), Err(told.to_string()));
    wrong("--table", "no module and no netlist is named");
    wrong("m", "no trace is named");
    wrong("m t u", "a module or netlist and a trace are named, not 3 files");
    wrong("m t --from-vcd v", "the trace is the VCD v, so one file is named beside it, not 2");
    wrong("m t --vcd", "--vcd needs a value");
    wrong("m t --waves", "unknown option --waves");
    wrong("m t --scope s", "--scope and --unknown go with a trace that is a VCD");
    wrong("m t.vcd --unknown 1", "--unknown is 0, not \"1\"");
    wrong("- -", "standard input cannot be both the module and the trace");
}

#[test]
fn the_netlist_that_is_sent() {
    let sent = given(CONTROLLER);
    assert_eq!((sent.words.len(), sent.words[4], sent.words[3]), (16 + 6 * 1_024 + 66, 16 + 6 * 1_024, 66));
    let ports = sent.ports.expect("ports");
    let names = |ports: &[Port]| ports.iter().map(|port| format!("{} {}", port.name, port.width)).collect::<Vec<_>>().join(", ");
    assert_eq!(names(&ports.inputs), "clk 1, rst 1, go 1, set 1, goal 2");
    assert_eq!(names(&ports.outputs), "step 2, last 1");
    // A stored one is cut likewise, and has numbers for names.
    let stored = Given::new([sent.words.clone(), vec![0; 2_048 - 66]].concat(), None);
    assert_eq!(stored.words, sent.words);
    assert_eq!(names(&stored.ports.expect("ports").outputs), "s5 2, s6 1");
    let short = Given::new(sent.words[..100].to_vec(), None);
    assert!(short.words.len() == 100 && short.ports.is_none());
}

#[test]
fn modules_that_are_refused() {
    let Err(Refused(answer, words)) = of_module(assembled("input a 600\noutput y 600\nassign y = signal a\n")) else {
        panic!("not refused");
    };
    assert_eq!(answer, [9, 0, 0]);
    assert_eq!(words, "refused 9 0 0: more than 1024 nets (the most in a trace) would be made; 1200 are needed\n");
}

/// What is said of a refusal by the program, where no name is held.
fn said(answer: [u32; 3], given: &Given, line: &str, is_ended: bool) -> String {
    in_words(answer, given, &Stopped { line: line.as_bytes().to_vec(), is_ended, held: Vec::new() })
}

#[test]
fn refusal_11() {
    let mut words = given(CONTROLLER).words;
    words[16] = 12;
    let told = said([11, 16, 0], &Given::new(words.clone(), None), "", false);
    assert_eq!(told, "refused 11 16 0: node 0: its kind is 12, at most 11\n");
    words.truncate(10);
    let told = said([11, 10, 0], &Given::new(words, None), "", false);
    assert_eq!(told, "refused 11 10 0: there are 10 words, and the header alone has 16\n");
}

#[test]
fn refusal_12() {
    let refused = |given: &Given, told: &str| assert_eq!(said([12, 0, 0], given, "", false), format!("refused 12 0 0: {told}\n"));
    let mut other = given(CONTROLLER);
    other.words[4] = 16 + 6 * 1_025;
    let right = "./lower FILE --nets 1024 --words 2048 --words-out F writes such a netlist";
    refused(&other, &format!("the netlist was made with N = 1025, and a trace needs N = 1024: {right}"));
    let mut long = given(CONTROLLER);
    long.words[3] = 2_049;
    refused(&long, "the netlist has 2049 list words, at most 2048");
    let clock = "input c 1\nwire n 1\noutput q 1\nassign n = not c\nregister r target q next c clock n\n";
    refused(&given(clock), "the clock of register r is net 2, a Not: it must be an input");
    let reset = "input c 1\nwire q 1\noutput p 1\nregister r target q next c clock c\n\
                 register t target p next q clock c reset q async value 1'd1\n";
    refused(&given(reset), "the asynchronous reset of register t is net 1, a RegisterOutput: it must be an input");
    let ports = "input c 1\nwire n 1\noutput q 2\noutput p 2\nassign n = not c\nmemory m depth 4 \
                 port raddr c rdata q waddr c wdata q wenable c clock c port raddr c rdata p waddr c wdata p wenable c clock n\n";
    refused(&given(ports), "the clock of port 1 of memory m is net 5, a Not: it must be an input");
    let port = "port raddr c rdata q waddr c wdata q wenable c clock c";
    let large = format!("input c 1\noutput q 2\noutput p 2\nmemory m depth 4 {port}\nmemory l depth 65536 {}\n", port.replace('q', "p"));
    let large = large.replace("raddr c", "raddr 16'd1");
    refused(&given(&large), "the memories have 131080 bits, at most 65536: memory m has 8, memory l has 131072");
    let mut nameless = given(clock);
    nameless.image = None;
    refused(&nameless, "the clock of register 0 is net 2, a Not: it must be an input");
    refused(&given(CONTROLLER), "an answer that docs/RULES.md does not know");
}

#[test]
fn refusal_13() {
    let given = given(CONTROLLER);
    let refused = |line: &str, is_ended: bool, told: &str| {
        let said = said([13, 7, 0], &given, line, is_ended);
        assert_eq!(said, format!("refused 13 7 0: line 7, counted from 0, {told}\n"));
    };
    let bits = "and there are 6 input bits: clk, rst, go, set, goal[0..1]";
    refused("01000", true, &format!("has 5 characters, {bits}"));
    refused("01000x0", true, &format!("has 7 characters, {bits}"));
    refused("0100000", false, &format!("has more than 6 characters, {bits}"));
    refused("0100x0", true, "has 'x' for bit 0 of goal, which is neither 0 nor 1");
    refused("01000\t", true, "has byte 9 for bit 1 of goal, which is neither 0 nor 1");
    refused("010000\r", true, "ends with bytes 13 and 10, and lines end with byte 10 alone");
    refused("010000", false, "is the last one and does not end with byte 10");
    // What is meant as a keep or back.
    let form = "takes one blank and one name of 1 to 8 letters a to z";
    refused("keep", true, &format!("is \"keep\": keep {form}"));
    refused("back Late", true, &format!("is \"back Late\": back {form}"));
    refused("KEEP to", false, &format!("is \"KEEP to\": keep {form}"));
    refused(&format!("keep {}", "a".repeat(90)), true, &format!("is \"keep {}\": keep {form}", "a".repeat(35)));
    refused("keep late\r", true, "ends with bytes 13 and 10, and lines end with byte 10 alone");
    refused("back late", false, "is the last one and does not end with byte 10");
}

#[test]
fn refusal_14() {
    let port = "raddr c rdata q waddr c wdata d wenable c clock c";
    let ports = format!("input c 1\ninput d 1\noutput q 1\noutput p 1\nmemory m depth 2 port {port} port {}\n", port.replace('q', "p"));
    let mut given = given(&ports);
    let told = |name: &str| {
        let clash = format!("both ports of memory {name} write to one word in the step to line 7, counted from 0");
        format!("refused 14 7 0: {clash}, so this step has no defined end\n")
    };
    assert_eq!(said([14, 7, 0], &given, "10", true), told("m"));
    given.image = None;
    assert_eq!(said([14, 7, 0], &given, "10", true), told("0"));
}

#[test]
fn refusal_15() {
    let given = given(CONTROLLER);
    let refused = |number: u32, line: &str, held: &[&str], told: &str| {
        let held = held.iter().map(|name| name.to_string()).collect();
        let said = in_words([15, number, 0], &given, &Stopped { line: line.as_bytes().to_vec(), is_ended: true, held });
        assert_eq!(said, format!("refused 15 {number} 0: {told}\n"));
    };
    refused(0, "keep late", &[], "line 0, counted from 0, keeps late before the first settings line: there is nothing to keep yet");
    refused(0, "back late", &[], "line 0, counted from 0, goes back to late, and no name is kept before it");
    refused(7, "back late", &["early", "mid"], "line 7, counted from 0, goes back to late, which is not kept: the names held are early, mid");
    refused(9, "keep e", &["a", "b", "c", "d"], "line 9, counted from 0, keeps e, and at most 4 names are held: a, b, c, d");
    refused(9, "back e", &["a", "b", "c", "d"], "line 9, counted from 0, goes back to e, which is not kept: the names held are a, b, c, d");
    refused(9, "keep e", &["a"], "an answer that docs/RULES.md does not know");
}

#[test]
fn other_refusals() {
    let given = given(CONTROLLER);
    let most = "refused 13 4294967295 0: a trace has at most 4294967295 lines\n";
    assert_eq!(said([13, u32::MAX, 0], &given, "010000", true), most);
    let unknown = |answer: [u32; 3]| format!("refused {} {} {}: an answer that docs/RULES.md does not know\n", answer[0], answer[1], answer[2]);
    // A right line, a line without a name, and a number that there is not.
    for answer in [[13, 7, 0], [15, 1, 0], [16, 1, 0]] {
        assert_eq!(said(answer, &given, "010000", true), unknown(answer));
    }
}

#[test]
fn lines_that_were_sent() {
    let (sender, receiver) = channel();
    let mut sent = Sent::new(receiver);
    assert_eq!(sent.line(), None);
    for part in ["01", "0\n11", "", "1\n", "\n00"] {
        sender.send(part.as_bytes().to_vec()).expect("a receiver");
    }
    assert_eq!(sent.line(), Some(&b"010"[..]));
    assert!(!sent.is_all_taken());
    assert_eq!(sent.line(), Some(&b"111"[..]));
    assert_eq!(sent.line(), Some(&b""[..]));
    assert_eq!(sent.line(), None);
    sender.send(b"1".to_vec()).expect("a receiver");
    assert_eq!(sent.named(u32::MAX), None);
    sender.send(b"1\nkeep a\nback a\n0110\nkeep b\nkeep".to_vec()).expect("a receiver");
    assert_eq!((sent.named(u32::MAX), sent.line()), (None, Some(&b"0011"[..])));
    // Four lines are taken: a limit of 5 leaves the second of these.
    let name = |line: Option<Named>| line.map(|line| line.to_string());
    assert_eq!([name(sent.named(5)), name(sent.named(5)), name(sent.named(6))], [Some("keep a".to_string()), None, Some("back a".to_string())]);
    assert_eq!((sent.named(u32::MAX), sent.line()), (None, Some(&b"0110"[..])));
    assert_eq!(name(sent.named(u32::MAX)), Some("keep b".to_string()));
    assert!(sent.named(u32::MAX).is_none() && !sent.is_all_taken());
    let held = vec!["b".to_string()];
    assert_eq!(sent.stopped(held.clone()), Stopped { line: b"keep".to_vec(), is_ended: false, held });
}

#[test]
fn a_table() {
    let ports = Ports { inputs: vec![port("a", 1), port("v", 9)], outputs: vec![port("long", 4)] };
    let mut bytes = Vec::new();
    let mut table = Table::new(&mut bytes, &ports);
    table.line(b"0100000001", b"0101").expect("a line");
    table.line(b"1000000000", b"1111").expect("a line");
    drop(table);
    let expected = " line  a   v | long\n    0  0 101 |    a\n    1  1 000 |    f\n";
    assert_eq!(String::from_utf8_lossy(&bytes), expected);
    assert_eq!((hexadecimal(b"1"), hexadecimal(b"00001"), hexadecimal(b"01111")), ("1".to_string(), "10".to_string(), "1e".to_string()));
}

#[test]
fn a_drawing() {
    let ports = Ports { inputs: vec![port("a<b", 1)], outputs: vec![port("v", 40)] };
    let mut bytes = Vec::new();
    let mut svg = Svg::new(&mut bytes, &ports);
    let word = format!("1011{}", "0".repeat(36));
    for line in 0..500 {
        svg.line(if line % 2 == 0 { b"1" } else { b"0" }, if line < 3 { word.as_bytes() } else { &[b'1'; 40] }).expect("a line");
    }
    svg.end().expect("an end");
    drop(svg);
    let text = String::from_utf8(bytes).expect("text");
    assert!(text.contains(">a&lt;b</text>"));
    // Up and down, a column each, and no more than 400.
    assert!(text.contains("d=\"M40 30V30H66V46H92V30H118") && text.contains("V46H10440\""));
    // Three columns have room for nine digits of ten.
    assert!(text.contains(">…0000000d</text>") && text.contains(">ffffffffff</text>"));
    assert!(text.contains(">399</text>") && !text.contains(">400</text>"));
}
