//! What is in a file: a module image, its bytes or those of an assembled text, or
//! the words of a stored netlist.

/// The image in a file; `-` is standard input.
///
/// # Errors
///
/// Says in one line what is wrong with the file.
pub fn image_in(file: &str) -> Result<Vec<u8>, String> {
    image_of(file, bytes_in(file)?)
}

/// The image that a file's bytes are or stand for.
///
/// # Errors
///
/// Says in one line what is wrong with the file.
pub fn image_of(file: &str, bytes: Vec<u8>) -> Result<Vec<u8>, String> {
    if file.ends_with(".img") || bytes.contains(&0) {
        return Ok(bytes);
    }
    let text = String::from_utf8(bytes).map_err(|_| format!("{file}: neither an image nor a text"))?;
    image::assemble(&text).map_err(|error| format!("{file}: {error}"))
}

/// The edition 2 image that an image of edition 1 in a file stands for.
///
/// # Errors
///
/// Says in one line what is wrong with the file.
pub fn image_of_edition_1_in(file: &str) -> Result<Vec<u8>, String> {
    let image = image::from_edition_1(&bytes_in(file)?);
    image.map(|image| image.encode()).ok_or(format!("{file}: no module image of edition 1"))
}

/// The words in a file, four bytes each, low first.
///
/// # Errors
///
/// Says in one line what is wrong with the file.
pub fn words_in(file: &str) -> Result<Vec<u32>, String> {
    words_of(file, &bytes_in(file)?)
}

/// The words that a file's bytes are.
///
/// # Errors
///
/// Says in one line what is wrong with the file.
pub fn words_of(file: &str, bytes: &[u8]) -> Result<Vec<u32>, String> {
    let (words, rest) = bytes.as_chunks();
    if !rest.is_empty() {
        return Err(format!("{file}: {} bytes are no whole words of four bytes", bytes.len()));
    }
    Ok(words.iter().map(|&word| u32::from_le_bytes(word)).collect())
}

/// Whether a file is a module's: a text, or an image by its name or edition. A
/// netlist's edition is another.
pub fn is_module(file: &str, bytes: &[u8]) -> bool {
    file.ends_with(".img") || !bytes.contains(&0) || bytes.starts_with(&image::EDITION.to_le_bytes())
}

/// A file's bytes; `-` is standard input.
///
/// # Errors
///
/// Says in one line why they cannot be read.
pub fn bytes_in(file: &str) -> Result<Vec<u8>, String> {
    image::read(file).map_err(|error| format!("{file}: {error}"))
}
