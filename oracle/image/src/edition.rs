//! Edition 1 of the module image, read before edition 2: its memory record has
//! no word width. The way from its bytes to edition 2, and back.

use crate::format::*;

const BEFORE: u32 = 1;
const MEMORY_BYTES: usize = RECORD_BYTES[MEMORIES];
const MEMORY_BYTES_BEFORE: usize = MEMORY_BYTES - 4;
/// Header fields that say how many memories there are, and where they begin.
const COUNT: usize = 2 + 2 * MEMORIES;
const START: usize = 3 + 2 * MEMORIES;
/// Header fields of what lies behind the memories: the total and the place of
/// the names.
const BEHIND: [usize; 2] = [1, 3 + 2 * NAMES];

/// The edition 2 image that these bytes of edition 1 stand for: each memory's
/// word width is its read data's. None where the header does not lay out an
/// image of edition 1.
pub fn from_edition_1(bytes: &[u8]) -> Option<Image> {
    let header = read_header(bytes)?;
    let (count, start) = (header[COUNT] as usize, header[START] as usize);
    let fits = start >= HEADER_BYTES && start + count * MEMORY_BYTES_BEFORE <= bytes.len();
    if header[0] != BEFORE || !fits {
        return None;
    }
    let mut bytes = bytes.to_vec();
    for memory in (0..count).rev() {
        let at = start + memory * MEMORY_BYTES_BEFORE + 4 * memory_field::WORD_WIDTH;
        bytes.splice(at..at, [0; 4]);
    }
    set_word(&mut bytes, 0, EDITION);
    for field in BEHIND {
        set_word(&mut bytes, field, header[field].wrapping_add(4 * count as u32));
    }
    let mut image = Image::decode(&bytes)?;
    image.set_word_widths();
    Some(image)
}

/// The bytes that edition 1 had for this image: its memories without their word
/// widths.
pub fn to_edition_1(image: &Image) -> Vec<u8> {
    let (mut bytes, header) = (image.encode(), image.header());
    for memory in (0..image.memories.len()).rev() {
        let at = header[START] as usize + memory * MEMORY_BYTES + 4 * memory_field::WORD_WIDTH;
        bytes.drain(at..at + 4);
    }
    set_word(&mut bytes, 0, BEFORE);
    for field in BEHIND {
        set_word(&mut bytes, field, header[field] - 4 * header[COUNT]);
    }
    bytes
}
