//! VCDs of the command trace: what is written, what is read, and that what is
//! written is read as the same lines. tests/trace_endings.rs has those of traces
//! with keeps and backs.

mod trace_parts;

use command::trace::ports::{Port, Ports, bits};
use image::Random;
use trace_parts::{port, read_in, vcd_of};

/// The VCD of some lines.
fn written(ports: &Ports, lines: &[(&str, &str)]) -> String {
    vcd_of(ports, |writer| lines.iter().for_each(|(inputs, outputs)| writer.line(inputs.as_bytes(), outputs.as_bytes()).expect("a line")))
}

fn read(vcd: &str, inputs: &[Port]) -> Result<String, String> {
    read_in(vcd, inputs, None, false)
}

const DECLARED: &str = "$timescale 1ns $end $scope module top $end\n$var reg 1 ! a $end\n$var reg 3 \" v [2:0] $end\n\
                        $var wire 1 # y $end\n$upscope $end $enddefinitions $end\n";

fn inputs() -> Vec<Port> {
    vec![port("a", 1), port("v", 3)]
}

/// The lines of the values behind these declarations.
fn lines(values: &str) -> Result<String, String> {
    read(&format!("{DECLARED}{values}"), &inputs())
}

#[test]
fn what_is_written() {
    let ports = Ports { inputs: inputs(), outputs: vec![port("y", 1), port("w", 2)] };
    let vcd = written(&ports, &[("0100", "010"), ("1100", "011"), ("1100", "011"), ("1001", "111")]);
    let expected = "$comment One unit of time is one line of the trace. $end\n$timescale 1 ns $end\n$scope module part $end\n\
                    $var wire 1 ! a $end\n$var wire 3 \" v [2:0] $end\n$var wire 1 # y $end\n$var wire 2 $ w [1:0] $end\n\
                    $upscope $end\n$enddefinitions $end\n#0\n$dumpvars\n0!\nb001 \"\n0#\nb01 $\n$end\n#1\n1!\nb11 $\n#2\n1!\n\
                    #3\nb100 \"\n1#\n#4\n";
    assert_eq!(vcd, expected);
}

#[test]
fn no_lines_and_no_ports() {
    let header = "$comment One unit of time is one line of the trace. $end\n$timescale 1 ns $end\n$scope module part $end\n\
                  $upscope $end\n$enddefinitions $end\n";
    assert_eq!(written(&Ports::default(), &[]), format!("{header}#0\n"));
    assert_eq!(written(&Ports::default(), &[("", ""), ("", "")]), format!("{header}#0\n$dumpvars\n$end\n#1\n#2\n"));
    let ports = Ports { inputs: inputs(), outputs: Vec::new() };
    assert_eq!(read(&written(&ports, &[]), &ports.inputs), Ok(String::new()));
}

/// Any ports, also many and with names that are no identifiers, and any lines,
/// equal ones behind each other too.
#[test]
fn what_is_written_is_read_as_the_same_lines() {
    let mut random = Random::new(4);
    for round in 0..200 {
        let count = if round % 20 == 0 { 300 } else { 1 + random.below(5) };
        let odd = ["", "[0]", "[3:0]", "$end", "\\", "#", "b1"];
        let mut ports = |count: usize, side: &str| -> Vec<Port> {
            let mut name = |number: usize| format!("{}{side}{number}{}", random.pick(&odd), random.pick(&odd));
            let mut ports: Vec<Port> = (0..count).map(|number| port(&name(number), 1)).collect();
            ports.iter_mut().for_each(|port| port.width = 1 + random.below(5));
            // A name that another one is with a range.
            ports.push(port(&format!("{}[1:0]", ports[0].name), 2));
            ports
        };
        let ports = Ports { inputs: ports(count, "i"), outputs: ports(2, "o") };
        let mut line = |width: usize| -> String { (0..width).map(|_| random.pick(&['0', '1'])).collect() };
        let outputs = line(bits(&ports.outputs));
        let mut trace: Vec<String> = (0..6).map(|_| line(bits(&ports.inputs))).collect();
        trace.insert(3, trace[2].clone());
        trace.insert(0, trace[0].clone());
        let both: Vec<(&str, &str)> = trace.iter().map(|inputs| (inputs.as_str(), outputs.as_str())).collect();
        assert_eq!(read(&written(&ports, &both), &ports.inputs), Ok(trace.join("\n") + "\n"), "{ports:?}");
    }
}

#[test]
fn a_line_for_each_time_with_a_value_of_an_input() {
    let start = "#0 $dumpvars 0! b0 \" 0# $end\n";
    assert_eq!(lines(start), Ok("0000\n".to_string()));
    // Time 5 has no input; at 7 there are two; at 9 the same value stands again.
    let more = lines(&format!("{start}#5 1# #7 1! b110 \" #9 1! #10"));
    assert_eq!(more, Ok("0000\n1011\n1011\n".to_string()));
    // The last value of a time counts.
    assert_eq!(lines(&format!("{start}#3 1! 0! 1! #3 b1 \"\n")), Ok("0000\n1100\n".to_string()));
    // Values before the first time, and a first time that is not 0.
    assert_eq!(lines("1! b111 \" #40 0!"), Ok("1111\n0111\n".to_string()));
    assert_eq!(lines("#40 1! b111 \" #41 0!"), Ok("1111\n0111\n".to_string()));
}

#[test]
fn checkpoints_and_comments() {
    let start = "$comment #9 x! $end #0 0! b0 \"\n";
    assert_eq!(lines(&format!("{start}#1 $dumpall 0! b0 \" $end #2 1!")), Ok("0000\n1000\n".to_string()));
    assert_eq!(lines(&format!("{start}#1 $dumpall 0! b1 \" $end #2 1!")), Ok("0000\n0100\n1100\n".to_string()));
    let off = lines(&format!("{start}#1 $dumpoff x! bx \" $end #2 $dumpon 1! b0 \" $end"));
    assert_eq!(off, Err("at time 1: a is x, and each bit must be 0 or 1; --unknown 0 reads others as 0".to_string()));
}

#[test]
fn values_of_vectors() {
    let vector = |value: &str| lines(&format!("0! {value} \"")).map(|line| line[1..4].to_string());
    assert_eq!(vector("b110"), Ok("011".to_string()));
    assert_eq!(vector("B1"), Ok("100".to_string()));
    let unknown = |shown: &str| Err(format!("at time 0: v is {shown}, and each bit must be 0 or 1; --unknown 0 reads others as 0"));
    assert_eq!(vector("bx1"), unknown("xx1"));
    assert_eq!(vector("bz"), unknown("zzz"));
    assert_eq!(vector("b1x"), unknown("01x"));
    assert_eq!(vector("b1001"), Err("at time 0: v has width 3 and is given the value \"1001\"".to_string()));
    assert_eq!(vector("r1.5"), Err("at time 0: v has width 3 and is given the value \"\"".to_string()));
}

#[test]
fn unknown_bits_as_0() {
    let vcd = format!("{DECLARED}#0 x! b1z1 \" #5 1! #6 z!");
    assert_eq!(read_in(&vcd, &inputs(), None, true), Ok("0101\n1101\n0101\n".to_string()));
    let late = format!("{DECLARED}#0 0! #5 b1 \"");
    assert_eq!(read(&late, &inputs()), Err("at time 0: v is xxx, and each bit must be 0 or 1; --unknown 0 reads others as 0".to_string()));
    assert_eq!(read_in(&late, &inputs(), None, true), Ok("0000\n0100\n".to_string()));
}

#[test]
fn variables_by_name() {
    let scopes = "$scope module top $end $var reg 1 ! a $end $scope module part $end $var wire 1 ! a $end $var wire 3 \" v[2:0] $end\n\
                  $var wire 1 # \\odd[0] $end $upscope $end $scope module other $end $var wire 3 % v $end $upscope $end $upscope $end\n\
                  $enddefinitions $end #0 1! b1 \" b10 % 1# #1 0! b11 %";
    assert_eq!(read(scopes, &[port("a", 1)]), Ok("1\n0\n".to_string()));
    let two = "v is a variable in scope top.part and another in scope top.other: --scope names one";
    assert_eq!(read(scopes, &inputs()), Err(two.to_string()));
    assert_eq!(read_in(scopes, &inputs(), Some("top.part"), false), Ok("1100\n0100\n".to_string()));
    assert_eq!(read_in(scopes, &[port("v", 3)], Some("top.other"), false), Ok("010\n110\n".to_string()));
    let other = "there is no variable a in scope top.other, and a is an input";
    assert_eq!(read_in(scopes, &inputs(), Some("top.other"), false), Err(other.to_string()));
    assert_eq!(read(scopes, &[port("odd[0]", 1)]), Ok("1\n".to_string()));
    assert_eq!(read(scopes, &[port("odd", 1)]), Err("there is no variable odd, and odd is an input".to_string()));
}

#[test]
fn what_is_wrong_with_a_vcd() {
    let width = read(&format!("{DECLARED}#0"), &[port("v", 2)]);
    assert_eq!(width, Err("v has width 3 there, and the input has width 2".to_string()));
    assert_eq!(read("0101\n", &inputs()), Err("no VCD: it has no $enddefinitions".to_string()));
    assert_eq!(read("$var wire 1 $end", &inputs()), Err("no VCD: a $var has no width, code and name".to_string()));
    assert_eq!(lines("#5 0! b0 \" #4"), Err("at time 5: time 4 stands behind it".to_string()));
    assert_eq!(lines("#five"), Err("at time 0: #five is no time".to_string()));
    assert_eq!(lines("0! b101"), Err("at time 0: it ends in a value".to_string()));
    assert_eq!(lines("q!"), Err("at time 0: a has width 1 and is given the value \"q\"".to_string()));
}
