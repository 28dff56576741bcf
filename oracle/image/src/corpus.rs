//! The texts of the corpus and their images.

use crate::assemble::assemble;
use std::fmt::Display;
use std::path::{Path, PathBuf};

/// A text of the corpus.
pub struct Text {
    /// Its file's name without the ending.
    pub name: String,
    pub text: String,
    /// The bytes that it is assembled to.
    pub image: Vec<u8>,
}

/// The corpus of this repository.
pub fn folder() -> PathBuf {
    Path::new(env!("CARGO_MANIFEST_DIR")).join("../../corpus")
}

/// The texts in a folder, in the order of their names.
///
/// # Errors
///
/// Says what cannot be read or assembled.
pub fn texts(folder: &Path) -> Result<Vec<Text>, String> {
    let entries = std::fs::read_dir(folder).map_err(|error| problem(folder, &error))?;
    let paths = entries.map(|entry| entry.map(|entry| entry.path())).collect::<Result<Vec<PathBuf>, _>>();
    let mut paths = paths.map_err(|error| problem(folder, &error))?;
    paths.retain(|path| path.extension().is_some_and(|extension| extension == "txt"));
    paths.sort();
    paths.iter().map(|path| read(path)).collect()
}

fn read(path: &Path) -> Result<Text, String> {
    let text = std::fs::read_to_string(path).map_err(|error| problem(path, &error))?;
    let image = assemble(&text).map_err(|error| problem(path, &error))?;
    let name = path.file_stem().unwrap_or_default().to_string_lossy().into_owned();
    Ok(Text { name, text, image })
}

fn problem(path: &Path, error: &dyn Display) -> String {
    format!("{}: {error}", path.display())
}
