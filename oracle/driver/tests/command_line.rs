//! The `oracle` program: its answers, and one line for bad input.

use std::path::{Path, PathBuf};
use std::process::{Command, Output};

fn oracle(arguments: &[&str]) -> Output {
    let program = env!("CARGO_BIN_EXE_oracle");
    Command::new(program)
        .args(arguments)
        .output()
        .expect("the program runs")
}

fn answer(arguments: &[&str]) -> String {
    let output = oracle(arguments);
    assert!(
        output.status.success() && output.stderr.is_empty(),
        "{output:?}"
    );
    String::from_utf8(output.stdout).expect("ASCII")
}

fn complaint(arguments: &[&str]) -> String {
    let output = oracle(arguments);
    assert!(
        !output.status.success() && output.stdout.is_empty(),
        "{output:?}"
    );
    let text = String::from_utf8(output.stderr).expect("ASCII");
    assert!(
        text.starts_with("oracle: ") && text.lines().count() == 1,
        "{text}"
    );
    text
}

fn inverter(name: &str) -> PathBuf {
    let path = Path::new(env!("CARGO_TARGET_TMPDIR")).join(name);
    std::fs::write(&path, image::inverter().encode()).expect("a writable folder");
    path
}

#[test]
fn images_are_lowered_and_listed() {
    let path = inverter("answers.image");
    let path = path.to_str().expect("a plain path");
    let words = answer(&["lower", path, "3", "8"]);
    assert_eq!(words.lines().count(), 16 + 6 * 3 + 8);
    assert!(words.starts_with("1\n3\n16\n8\n34\n2\n"));
    assert_eq!(answer(&["lower", path, "3", "8", "--observable"]), words);
    assert_eq!(answer(&["lower", path, "2", "8"]), "refused 9 0 0\n");
    assert_eq!(answer(&["lower", path, "3", "7"]), "refused 10 0 0\n");
    assert_eq!(answer(&["lower", path, "0", "7"]), "refused 1 0 0\n");
    assert!(answer(&["list", path]).starts_with("nets 3 list 8\n0 input a\n"));
    assert!(answer(&["--help"]).contains("oracle lower IMAGE N P"));
}

#[test]
fn words_are_written_to_a_file() {
    let image = inverter("written.image");
    let image = image.to_str().expect("a plain path");
    let file = Path::new(env!("CARGO_TARGET_TMPDIR")).join("written.words");
    let _ = std::fs::remove_file(&file);
    let target = file.to_str().expect("a plain path");
    for words in [["no-such-file", "3", "8"], [image, "2", "8"], [image, "0", "8"], [image, "x", "8"]] {
        complaint(&["lower", words[0], words[1], words[2], "-o", target]);
        assert!(!file.exists(), "{words:?}");
    }
    assert_eq!(answer(&["lower", image, "3", "8", "-o", target]), "");
    let words = std::fs::read(&file).expect("words");
    let words = words.chunks(4).map(|word| format!("{}\n", u32::from_le_bytes(word.try_into().expect("a word"))));
    assert_eq!(words.collect::<String>(), answer(&["lower", image, "3", "8"]));
}

#[test]
fn damaged_images_are_refused() {
    let path = Path::new(env!("CARGO_TARGET_TMPDIR")).join("damaged.image");
    std::fs::write(&path, [0; 10]).expect("a writable folder");
    let path = path.to_str().expect("a plain path");
    assert_eq!(answer(&["lower", path, "3", "8"]), "refused 3 0 0\n");
    assert_eq!(answer(&["list", path]), "refused 3 0 0\n");
}

#[test]
fn bad_input_gives_one_line() {
    let path = inverter("complaints.image");
    let path = path.to_str().expect("a plain path");
    complaint(&[]);
    complaint(&["draw", path]);
    complaint(&["lower", path, "3"]);
    complaint(&["lower", path, "3", "-1"]);
    complaint(&["lower", path, "many", "8"]);
    complaint(&["lower", "no-such-file", "3", "8"]);
    complaint(&["list", "no-such-file"]);
}
