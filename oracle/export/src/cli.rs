//! The files that the commands read.

use image::Image;
use image::command::read;

/// A module image that passes checks 3 and 4.
pub fn read_image(path: &str) -> Result<Image, String> {
    let bytes = read(path)?;
    checked_image(&bytes).map_err(|problem| format!("{path}: {problem}"))
}

fn checked_image(bytes: &[u8]) -> Result<Image, String> {
    let limit = image::MOST_LIMIT;
    let [number, first, second] = reference::check(bytes, limit, limit, usize::MAX, usize::MAX);
    if number != 0 {
        return Err(format!(
            "no module image: refused {number} {first} {second}"
        ));
    }
    Image::decode(bytes).ok_or_else(|| "no module image".to_string())
}

/// The netlist words in a file, and the module image if one is named.
pub fn read_netlist(
    words: &str,
    image: Option<&str>,
) -> Result<(crate::Netlist, Option<Image>), String> {
    let netlist = crate::Netlist::from_bytes(&read(words)?)
        .map_err(|problem| format!("{words}: {problem}"))?;
    Ok((netlist, image.map(read_image).transpose()?))
}
