//! The programs: files written, and bad input answered with one line, a
//! failure and no file.

use std::fs;
use std::path::PathBuf;
use std::process::{Command, Output};

const NETLIST: &str = env!("CARGO_BIN_EXE_netlist-to-verilog");
const MODULE: &str = env!("CARGO_BIN_EXE_module-to-verilog");
const DOT: &str = env!("CARGO_BIN_EXE_netlist-to-dot");
const WITNESS: &str = env!("CARGO_BIN_EXE_witness");

/// A directory of this test with the listing example's image and words in it.
fn directory(name: &str) -> PathBuf {
    let path = std::env::temp_dir().join(format!("export-{}-{name}", std::process::id()));
    fs::create_dir_all(&path).expect("a directory");
    let image = image::inverter().encode();
    let words = driver::words(&driver::lower(&image, false), 3, 8).into_iter();
    fs::write(path.join("a.words"), words.flat_map(u32::to_le_bytes).collect::<Vec<u8>>()).expect("a file");
    fs::write(path.join("a.img"), image).expect("a file");
    path
}

fn run(directory: &PathBuf, program: &str, arguments: &[&str]) -> Output {
    Command::new(program)
        .args(arguments)
        .current_dir(directory)
        .output()
        .expect("a run")
}

#[test]
fn files_are_written() {
    let directory = directory("good");
    let commands: [(&str, &[&str], &str); 6] = [
        (NETLIST, &["a.words", "-o", "a.v"], "a.v"),
        (
            NETLIST,
            &["a.words", "--image", "a.img", "-o", "b.v"],
            "b.v",
        ),
        (
            NETLIST,
            &["a.words", "--image", "a.img", "--step", "-o", "c.v"],
            "c.v",
        ),
        (MODULE, &["a.img", "-o", "d.v"], "d.v"),
        (DOT, &["a.words", "-o", "a.dot"], "a.dot"),
        (
            DOT,
            &["a.words", "--image", "a.img", "-o", "b.dot"],
            "b.dot",
        ),
    ];
    for (program, arguments, file) in commands {
        let output = run(&directory, program, arguments);
        assert!(
            output.status.success() && output.stderr.is_empty(),
            "{arguments:?}: {output:?}"
        );
        assert!(directory.join(file).exists(), "{file}");
    }
    fs::remove_dir_all(directory).expect("removed");
}

#[test]
fn bad_input_is_told_in_one_line_and_nothing_is_written() {
    let directory = directory("bad");
    fs::write(directory.join("short"), [1, 2, 3]).expect("a file");
    fs::write(directory.join("zeros"), [0; 400]).expect("a file");
    let commands: [(&str, &[&str]); 7] = [
        (NETLIST, &["short", "-o", "out"]),
        (NETLIST, &["zeros", "-o", "out"]),
        (NETLIST, &["a.img", "-o", "out"]),
        (MODULE, &["zeros", "-o", "out"]),
        (MODULE, &["a.img"]),
        (DOT, &["zeros", "-o", "out"]),
        (WITNESS, &["--images", "x"]),
    ];
    for (program, arguments) in commands {
        let output = run(&directory, program, arguments);
        let lines = String::from_utf8_lossy(&output.stderr).lines().count();
        assert!(
            !output.status.success() && lines == 1 && output.stdout.is_empty(),
            "{arguments:?}: {output:?}"
        );
        assert!(!directory.join("out").exists(), "{arguments:?}");
    }
    fs::remove_dir_all(directory).expect("removed");
}

#[test]
fn the_witness_says_which_tools_are_missing() {
    let directory = directory("tools");
    let output = Command::new(WITNESS)
        .args(["--images", "1"])
        .env("PATH", &directory)
        .output()
        .expect("a run");
    assert_eq!(output.status.code(), Some(2));
    assert_eq!(
        String::from_utf8_lossy(&output.stderr),
        "witness: not installed: iverilog, vvp, yosys\n"
    );
    fs::remove_dir_all(directory).expect("removed");
}
