//! Traces with keeps and backs, without the program: the form of their lines, the
//! moments that are held, tables, drawings, and VCDs with a scope for each run.

mod trace_parts;

use command::trace::history::{History, Moment};
use command::trace::named::{Named, Verb};
use command::trace::ports::Ports;
use command::trace::records::Record;
use command::trace::svg::Svg;
use command::trace::table::Table;
use image::Random;
use trace_parts::{port, read_in, vcd_of};

fn named(text: &str) -> Named {
    Named::read(text.as_bytes()).expect("keep or back and a name")
}

/// An input of width 1 and 2, an output of width 1 and 2.
fn ports() -> Ports {
    Ports { inputs: vec![port("a", 1), port("v", 2)], outputs: vec![port("y", 1), port("w", 2)] }
}

/// Gives a record the lines of a trace; inputs and outputs stand as in `010 111`.
fn give(record: &mut dyn Record, lines: &[String]) {
    let mut history = History::default();
    for line in lines {
        match Named::read(line.as_bytes()) {
            Some(named) => record.named(&named, history.named(&named).expect("a moment")).expect("a line"),
            None => {
                let (inputs, outputs) = line.split_once(' ').expect("two sides");
                history.line(inputs.as_bytes(), outputs.as_bytes());
                record.line(inputs.as_bytes(), outputs.as_bytes()).expect("a line");
            }
        }
    }
}

fn strings(lines: &[&str]) -> Vec<String> {
    lines.iter().map(|line| line.to_string()).collect()
}

/// Two endings of one line and of none, from the second of three lines.
fn endings() -> Vec<String> {
    strings(&["000 000", "100 010", "keep b", "110 010", "back b", "101 110", "back b"])
}

#[test]
fn the_form_of_a_line() {
    assert_eq!(named("keep a"), Named { verb: Verb::Keep, name: "a".to_string() });
    assert_eq!((named("back abcdefgh").to_string(), named("back late").ending(3)), ("back abcdefgh".to_string(), "late_3".to_string()));
    let short = ["keep", "keep ", "keep A", "keep a1", "keep a ", "keep a\r"];
    for wrong in short.into_iter().chain(["keep abcdefghi", "keep  a", " keep a", "Keep a", "kept a", "keep\ta", "010"]) {
        assert_eq!(Named::read(wrong.as_bytes()), None, "{wrong:?}");
    }
    assert_eq!(Named::read(b"keep \xff"), None);
    let meant = ["keep", " KEEP 4", "back\tto", "bac", "010", ""].map(|line| Verb::meant(line.as_bytes()));
    assert_eq!(meant, [Some(Verb::Keep), Some(Verb::Keep), Some(Verb::Back), None, None, None]);
}

#[test]
fn moments_that_are_held() {
    let mut history = History::default();
    assert_eq!(history.named(&named("keep a")), None);
    assert_eq!(history.named(&named("back a")), None);
    history.line(b"0", b"1");
    let first = Moment { time: 0, inputs: b"0".to_vec(), outputs: b"1".to_vec() };
    for name in ["a", "b", "c", "d"] {
        assert_eq!(history.named(&named(&format!("keep {name}"))), Some(&first));
    }
    history.line(b"1", b"0");
    let second = Moment { time: 1, inputs: b"1".to_vec(), outputs: b"0".to_vec() };
    // A fifth is refused and changes nothing; one that is held is replaced.
    assert_eq!(history.named(&named("keep e")), None);
    assert_eq!(history.named(&named("keep b")), Some(&second));
    assert_eq!(history.names(), ["a", "b", "c", "d"]);
    assert_eq!(history.named(&named("back a")), Some(&first));
    assert_eq!(history.named(&named("back b")), Some(&second));
    history.line(b"0", b"0");
    assert_eq!(history.named(&named("keep c")).map(|moment| moment.time), Some(2));
    assert_eq!(history.named(&named("back e")), None);
}

#[test]
fn a_table() {
    let mut bytes = Vec::new();
    give(&mut Table::new(&mut bytes, &ports()), &endings());
    let first = " line  a v | y w\n    0  0 0 | 0 0\n    1  1 0 | 0 1\n    2  keep b\n    3  1 1 | 0 1\n";
    let expected = format!("{first}    4  back b\n    5  1 2 | 1 1\n    6  back b\n");
    assert_eq!(String::from_utf8_lossy(&bytes), expected);
}

fn drawing(lines: &[String]) -> String {
    let mut bytes = Vec::new();
    let mut svg = Svg::new(&mut bytes, &ports());
    give(&mut svg, lines);
    svg.end().expect("an end");
    drop(svg);
    String::from_utf8(bytes).expect("text")
}

#[test]
fn a_drawing() {
    let text = drawing(&endings());
    // Each run is as high as a drawing without backs, and begins at its moment.
    assert!(text.contains("height=\"456\"") && drawing(&endings()[..3]).contains("height=\"152\""));
    assert!(text.contains(">b_1</text>") && text.contains(">b_2</text>"));
    assert!(text.contains("y=\"168\" text-anchor=\"middle\">1</text>") && text.contains("y=\"320\" text-anchor=\"middle\">1</text>"));
    assert!(text.contains("d=\"M40 46V46H66V30H118\"") && text.contains("d=\"M66 182V182H118\"") && text.contains("d=\"M66 334V334H92\""));
}

/// A moment that is not drawn in the first run stands in the first column, and
/// long times have room; no more than 16 endings are drawn.
#[test]
fn drawings_of_long_traces() {
    let mut lines = vec!["000 000".to_string(); 10_001];
    lines.extend(strings(&["keep b", "back b", "100 000", "100 000"]));
    let text = drawing(&lines);
    assert!(text.contains(">10000</text>") && !text.contains(">10001</text>") && text.contains(">10002</text>"));
    assert!(text.contains("d=\"M40 198V198H66V182H118\""));
    let mut lines = strings(&["000 000", "keep b"]);
    lines.extend((0..20).flat_map(|_| strings(&["back b", "100 000"])));
    let text = drawing(&lines);
    assert!(text.contains(">b_16</text>") && !text.contains(">b_17</text>") && text.contains("height=\"2584\""));
}

#[test]
fn a_vcd() {
    let vcd = vcd_of(&ports(), |writer| give(writer, &endings()));
    let (declared, values) = vcd.split_once("$enddefinitions $end\n").expect("declarations");
    let scope = |codes: [&str; 4]| {
        let [a, v, y, w] = codes;
        format!("$var wire 1 {a} a $end\n$var wire 2 {v} v [1:0] $end\n$var wire 1 {y} y $end\n$var wire 2 {w} w [1:0] $end\n")
    };
    let [part, first, second] = [["!", "\"", "#", "$"], ["%", "&", "'", "("], [")", "*", "+", ","]].map(scope);
    let inner = format!("$scope module b_1 $end\n{first}$upscope $end\n$scope module b_2 $end\n{second}$upscope $end\n");
    assert!(declared.ends_with(&format!("$scope module part $end\n{part}{inner}$upscope $end\n")), "{declared}");
    // Outputs are unknown where a run has ended and another one goes on.
    let expected = "#0\n$dumpvars\n0!\nb00 \"\n0#\nb00 $\n$end\n#1\n1!\nb01 $\n1%\nb00 &\n0'\nb01 (\n1)\nb00 *\n0+\nb01 ,\n\
                    #2\nb01 \"\nb10 &\n1'\nx+\nbxx ,\n#3\n";
    assert_eq!(values, expected);
}

/// A run: the time of its first line, and its lines, inputs and outputs.
type Run = (usize, Vec<String>);

/// The lines of a random trace, and its runs.
fn random_trace(random: &mut Random) -> (Vec<String>, Vec<Run>) {
    let mut runs: Vec<Run> = vec![(0, Vec::new())];
    let mut held: Vec<(&str, Run)> = Vec::new();
    let mut lines = Vec::new();
    for number in 0..30 {
        let (time, run) = runs.last_mut().expect("a run");
        let what = if number == 0 { 9 } else { random.below(10) };
        match what {
            0 | 1 => {
                let name = random.pick(&["a", "b", "late", "abcdefgh"]);
                held.retain(|(other, _)| *other != name);
                held.push((name, (*time + run.len() - 1, vec![run.last().expect("a line").clone()])));
                lines.push(format!("keep {name}"));
            }
            2 | 3 if !held.is_empty() => {
                let (name, moment) = held[random.below(held.len())].clone();
                runs.push(moment);
                lines.push(format!("back {name}"));
            }
            _ => {
                let mut bits = || (0..3).map(|_| random.pick(&['0', '1'])).collect::<String>();
                let line = format!("{} {}", bits(), bits());
                run.push(line.clone());
                lines.push(line);
            }
        }
    }
    (lines, runs)
}

/// Each run of a random trace stands in its scope; the first is read as a trace.
#[test]
fn runs_in_scopes() {
    let mut random = Random::new(8);
    let ports = ports();
    let all = [&ports.inputs[..], &ports.outputs].concat();
    for _ in 0..300 {
        let (lines, runs) = random_trace(&mut random);
        let vcd = vcd_of(&ports, |writer| give(writer, &lines));
        let inputs: String = runs[0].1.iter().map(|line| format!("{}\n", &line[..3])).collect();
        assert_eq!(read_in(&vcd, &ports.inputs, Some("part"), false), Ok(inputs), "{lines:?}");
        let names = lines.iter().filter_map(|line| line.strip_prefix("back "));
        let scopes = names.zip(1..).map(|(name, number)| format!("part.{name}_{number}"));
        let end = runs.iter().map(|(time, lines)| time + lines.len()).max().expect("a run");
        for ((time, run), scope) in runs.iter().zip(["part".to_string()].into_iter().chain(scopes)) {
            let mut expected: String = run.iter().map(|line| line.replace(' ', "") + "\n").collect();
            if time + run.len() < end {
                expected += &format!("{}000\n", &run[run.len() - 1][..3]);
            }
            // From its first time on; unknown outputs are read as 0.
            let (declared, values) = vcd.split_once("#0\n").expect("a start");
            let from = values.find(&format!("#{time}\n")).unwrap_or(0);
            assert_eq!(read_in(&format!("{declared}{}", &values[from..]), &all, Some(&scope), true), Ok(expected), "{scope} of {lines:?}");
        }
    }
}

/// A scope that begins in the middle of its history is no trace, and without a
/// scope it is not known which is meant.
#[test]
fn endings_are_no_traces() {
    let vcd = vcd_of(&ports(), |writer| give(writer, &endings()));
    let read = |scope: Option<&str>| read_in(&vcd, &ports().inputs, scope, false);
    assert_eq!(read(Some("part")), Ok("000\n100\n110\n".to_string()));
    assert_eq!(read(Some("part.b_1")), Err("at time 0: a is x, and each bit must be 0 or 1; --unknown 0 reads others as 0".to_string()));
    assert_eq!(read(None), Err("a is a variable in scope part and another in scope part.b_1: --scope names one".to_string()));
}

/// Keeps alone change nothing in a VCD.
#[test]
fn a_vcd_without_backs() {
    let lines = strings(&["000 000", "100 010", "110 010"]);
    let kept = strings(&["000 000", "keep a", "100 010", "keep b", "110 010", "keep a"]);
    assert_eq!(vcd_of(&ports(), |writer| give(writer, &kept)), vcd_of(&ports(), |writer| give(writer, &lines)));
}
