//! Makes the copies of struo's lowering that the driver runs. `Lowering` is
//! private, so each copy gets two more lines that declare child modules of
//! ours. The first copy is otherwise unchanged. The plain copy has the rows that
//! request Q-5 adds (`docs/struo-ranges-or-xor.patch`); the limited copy has
//! these and `limits.patch`; a copy of `ranges.rs` alone has these and
//! `ranges.patch`. Every patch must fit exactly. A copy of the netlist alone gets a
//! child module too and is otherwise unchanged.

use std::collections::BTreeMap;
use std::fs;
use std::path::{Path, PathBuf};

const IR: &str = "crates/struo-ir/src/lib.rs";
const SYNTH: &str = "crates/struo-synth/src/lib.rs";
const RANGES: &str = "crates/struo-synth/src/ranges.rs";
const WORD_CELLS: &str = "crates/struo-synth/src/word_cells.rs";

/// File texts by path below struo's root.
type Sources = BTreeMap<&'static str, String>;

fn main() {
    let driver = PathBuf::from(env("CARGO_MANIFEST_DIR"));
    let out = PathBuf::from(env("OUT_DIR"));
    let oracle = driver.parent().expect("the driver lies in the oracle");
    watch(&driver.join("build.rs"));

    let unchanged = read_sources(&oracle.join("struo"));
    let plain = patched(&unchanged, &oracle.join("../docs/struo-ranges-or-xor.patch"));
    let limited = patched(&plain, &oracle.join("limits.patch"));
    let ranged = patched(&plain, &oracle.join("ranges.patch"));
    let children = ["inside", "parts"].map(|name| (name, driver.join(format!("src/{name}.rs"))));
    write_copy(&out.join("unchanged"), &unchanged, &children);
    write_copy(&out.join("plain"), &plain, &children);
    write_copy(&out.join("limited"), &limited, &children);
    write(&out.join("ranged").join(RANGES), &ranged[RANGES]);
    let rebuilt = format!("#[path = {:?}] pub(crate) mod rebuilt;\n", driver.join("src/rebuilt.rs"));
    write(&out.join("opened").join(IR), &(unchanged[IR].clone() + &rebuilt));
    write(&out.join("copies.rs"), &copies(&out));
}

fn env(name: &str) -> String {
    std::env::var(name).unwrap_or_else(|_| panic!("cargo sets {name}"))
}

fn watch(path: &Path) {
    println!("cargo::rerun-if-changed={}", path.display());
}

fn read(path: &Path) -> String {
    fs::read_to_string(path).unwrap_or_else(|error| panic!("{}: {error}", path.display()))
}

fn write(path: &Path, text: &str) {
    let folder = path.parent().expect("a file lies in a folder");
    fs::create_dir_all(folder).unwrap_or_else(|error| panic!("{}: {error}", folder.display()));
    fs::write(path, text).unwrap_or_else(|error| panic!("{}: {error}", path.display()));
}

fn read_sources(struo: &Path) -> Sources {
    [IR, SYNTH, RANGES, WORD_CELLS]
        .into_iter()
        .map(|name| {
            let path = struo.join(name);
            watch(&path);
            (name, read(&path))
        })
        .collect()
}

/// Writes one copy; the child modules are declared in the lowering's last lines.
fn write_copy(folder: &Path, sources: &Sources, children: &[(&str, PathBuf)]) {
    for (name, text) in sources {
        let mut text = text.clone();
        if *name == SYNTH {
            for (child, path) in children {
                text.push_str(&format!("#[path = {path:?}] pub(crate) mod {child};\n"));
            }
        }
        write(&folder.join(name), &text);
    }
}

/// The declarations that `lib.rs` includes.
fn copies(out: &Path) -> String {
    let module = |name: &str, path: PathBuf| {
        format!(
            "#[path = {path:?}]\n#[allow(dead_code, unused_imports, clippy::all)]\nmod {name};\n"
        )
    };
    module("unchanged", out.join("unchanged").join(SYNTH))
        + &module("plain", out.join("plain").join(SYNTH))
        + &module("limited", out.join("limited").join(SYNTH))
        + &module("limited_ir", out.join("limited").join(IR))
        + &module("ranged", out.join("ranged").join(RANGES))
        + &module("opened_ir", out.join("opened").join(IR))
}

/// Applies a unified diff to the sources. Every context line must be there.
fn patched(sources: &Sources, path: &Path) -> Sources {
    watch(path);
    let patch = read(path);
    let mut result = sources.clone();
    for file in patch.split("\n--- a/").skip(1) {
        let (name, rest) = file.split_once('\n').expect("a file name ends its line");
        let old = sources
            .get(name)
            .unwrap_or_else(|| panic!("{}: no source {name}", path.display()));
        let (&key, _) = sources.get_key_value(name).expect("just found");
        result.insert(key, patched_file(name, old, rest));
    }
    result
}

fn patched_file(name: &str, old: &str, diff: &str) -> String {
    let old: Vec<&str> = old.lines().collect();
    let mut new: Vec<&str> = Vec::new();
    let mut taken = 0;
    for line in diff.lines().skip(1) {
        if let Some(range) = line.strip_prefix("@@ -") {
            let start = hunk_start(name, range);
            new.extend(&old[taken..start]);
            taken = start;
        } else if let Some(added) = line.strip_prefix('+') {
            new.push(added);
        } else {
            let expected = line.get(1..).unwrap_or("");
            assert_eq!(
                old.get(taken),
                Some(&expected),
                "the patch does not apply to {name} at line {}",
                taken + 1
            );
            if !line.starts_with('-') {
                new.push(expected);
            }
            taken += 1;
        }
    }
    new.extend(&old[taken..]);
    new.join("\n") + "\n"
}

/// The index of a hunk's first old line, from `12,3 +14,5 @@`.
fn hunk_start(name: &str, range: &str) -> usize {
    let digits: String = range.chars().take_while(char::is_ascii_digit).collect();
    let line: usize = digits
        .parse()
        .unwrap_or_else(|_| panic!("bad hunk in the patch of {name}: {range}"));
    line - 1
}
