//! A library that is not there, is no archive or lacks a function is told, and
//! a build that asks for it fails.

#[allow(dead_code)]
#[path = "../archive.rs"]
mod archive;

use archive::exports;
use std::path::{Path, PathBuf};
use std::process::{Command, Output};

/// The library that this test is linked with.
fn library() -> PathBuf {
    match std::env::var_os("STRUO_LIBRARY") {
        Some(path) => PathBuf::from(path),
        None => Path::new(env!("CARGO_MANIFEST_DIR")).join("../../target/staticlib/libstruo.a"),
    }
}

fn problem(archive: &Path, functions: &[&str]) -> String {
    exports(archive, functions).expect_err("a problem")
}

/// A folder of this test's own, gone with it.
struct Folder(PathBuf);

impl Folder {
    fn new(name: &str) -> Folder {
        let path = std::env::temp_dir().join(format!("port-{}-{name}", std::process::id()));
        std::fs::create_dir_all(&path).expect("a folder can be made");
        Folder(path)
    }

    fn file(&self, name: &str, bytes: &[u8]) -> PathBuf {
        let path = self.0.join(name);
        std::fs::write(&path, bytes).expect("a file can be written");
        path
    }
}

impl Drop for Folder {
    fn drop(&mut self) {
        let _ = std::fs::remove_dir_all(&self.0);
    }
}

#[test]
fn the_library_exports_its_calls() {
    let calls = ["struo_check", "struo_lower", "struo_netlist_check", "struo_netlist_node", "struo_netlist_record"];
    assert_eq!(exports(&library(), &calls), Ok(()));
}

#[test]
fn what_is_no_library_is_told() {
    let folder = Folder::new("told");
    let absent = problem(&folder.0.join("libstruo.a"), &["struo_check"]);
    assert!(absent.starts_with("no library ") && absent.contains("libstruo.a"), "{absent}");
    for bytes in [&b""[..], b"!<arch>\n", b"!<arch>\n/ ", &[0; 4096], &[u8::MAX; 100]] {
        let text = problem(&folder.file("other.a", bytes), &["struo_check", "struo_lower"]);
        assert!(text.ends_with("other.a has no struo_check, struo_lower"), "{text}");
    }
    let one = problem(&library(), &["struo_check", "struo_raise", "struo_lower"]);
    assert!(one.ends_with("has no struo_raise"), "{one}");
}

/// Builds this crate with another archive, in a folder of its own.
fn build(folder: &Folder, archive: &Path) -> Output {
    Command::new(env!("CARGO"))
        .args(["build", "--offline", "--quiet"])
        .current_dir(env!("CARGO_MANIFEST_DIR"))
        .env("CARGO_TARGET_DIR", &folder.0)
        .env("STRUO_LIBRARY", archive)
        .output()
        .expect("cargo starts")
}

#[test]
fn a_build_without_the_library_fails() {
    let folder = Folder::new("build");
    let cases = [
        (folder.0.join("nowhere.a"), "no library "),
        (folder.file("empty.a", b"!<arch>\n"), "has no struo_check, struo_lower"),
    ];
    for (archive, reason) in cases {
        let output = build(&folder, &archive);
        let told = String::from_utf8_lossy(&output.stderr);
        assert!(!output.status.success(), "built with {}", archive.display());
        assert!(told.contains(reason) && told.contains("`oracle/build-library struo` builds the library"), "{told}");
    }
    let output = build(&folder, &library());
    assert!(output.status.success(), "{}", String::from_utf8_lossy(&output.stderr));
}
