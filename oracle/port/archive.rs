//! Links a static library of the port into the crate whose build script this
//! is. Where the library is not there, or lacks a function that is asked for,
//! the build fails: nothing else ever stands in for it.

use std::path::{Path, PathBuf};

/// Links `target/staticlib/libNAME.a`, or the archive that the variable
/// NAME_LIBRARY names.
pub fn link(name: &str, functions: &[&str]) {
    let archive = archive_path(name);
    println!("cargo::rerun-if-changed={}", archive.display());
    if let Err(problem) = exports(&archive, functions) {
        eprintln!("{problem}; `oracle/build-library {name}` builds the library");
        std::process::exit(1);
    }
    let folder = archive.parent().unwrap_or(Path::new("."));
    println!("cargo::rustc-link-search=native={}", folder.display());
    println!("cargo::rustc-link-lib=static={name}");
}

fn archive_path(name: &str) -> PathBuf {
    let variable = format!("{}_LIBRARY", name.to_uppercase());
    println!("cargo::rerun-if-env-changed={variable}");
    match std::env::var_os(variable) {
        Some(path) => PathBuf::from(path),
        None => Path::new(&std::env::var_os("CARGO_MANIFEST_DIR").unwrap())
            .join(format!("../../target/staticlib/lib{name}.a")),
    }
}

/// Whether the archive exports all these functions.
///
/// # Errors
///
/// Says that it cannot be read, or which functions it lacks.
pub fn exports(archive: &Path, functions: &[&str]) -> Result<(), String> {
    let bytes = std::fs::read(archive).map_err(|error| format!("no library {}: {error}", archive.display()))?;
    let symbols = exported_symbols(&bytes);
    let is_missing = |function: &&str| !symbols.iter().any(|symbol| symbol == function.as_bytes());
    let missing: Vec<&str> = functions.iter().copied().filter(is_missing).collect();
    match missing[..] {
        [] => Ok(()),
        _ => Err(format!("the library {} has no {}", archive.display(), missing.join(", "))),
    }
}

/// The names in an archive's index: its first member, called "/", holds a
/// count and as many member offsets (big-endian), then the names, each ended
/// by 0.
fn exported_symbols(archive: &[u8]) -> Vec<Vec<u8>> {
    const MAGIC: usize = 8;
    const MEMBER_HEADER: usize = 60;
    let index = &archive[archive.len().min(MAGIC + MEMBER_HEADER)..];
    if !archive.starts_with(b"!<arch>\n/ ") || index.len() < 4 {
        return Vec::new();
    }
    let count = u32::from_be_bytes([index[0], index[1], index[2], index[3]]) as usize;
    let names = index.get(4 + 4 * count..).unwrap_or(&[]);
    names.split(|&byte| byte == 0).take(count).map(<[u8]>::to_vec).collect()
}
