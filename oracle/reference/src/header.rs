//! Refusal 3: "header field wrong, a count above its most included, or the
//! slice is not the total length. Place: first such field".

use crate::layout::{count_field, header_field, HEADER_BYTES, HEADER_FIELDS, MOST, NAMES, RECORD_BYTES};

/// "Under 64 bytes, 0"; otherwise the first field that is wrong.
pub fn first_wrong_field(image: &[u8]) -> Option<u32> {
    if image.len() < HEADER_BYTES {
        return Some(0);
    }
    (0..HEADER_FIELDS).find(|&field| !field_is_right(image, field)).map(|field| field as u32)
}

/// Fields are judged in order, so those before `field` are right.
fn field_is_right(image: &[u8], field: usize) -> bool {
    let section = (field.max(2) - 2) / 2;
    match field {
        0 => edition_is_2(image),
        1 => slice_has_the_total_length(image),
        14 => count_is_at_most_its_most(image, NAMES) && names_end_at_the_total(image),
        _ if field % 2 == 0 => count_is_at_most_its_most(image, section),
        _ => section_follows_without_gap(image, section),
    }
}

/// "Edition 1 is no longer read" (request Q-1).
fn edition_is_2(image: &[u8]) -> bool {
    header_field(image, 0) == 2
}

/// "Total bytes"; "wrong length, 1".
fn slice_has_the_total_length(image: &[u8]) -> bool {
    header_field(image, 1) as usize == image.len()
}

/// "A count above its most."
fn count_is_at_most_its_most(image: &[u8], section: usize) -> bool {
    header_field(image, count_field(section)) <= MOST[section]
}

/// "Sections follow the header in this order, without gaps."
fn section_follows_without_gap(image: &[u8], section: usize) -> bool {
    header_field(image, count_field(section) + 1) as u64 == end_of_sections_before(image, section)
}

/// "Names that do not end at the total, 14." Where the names begin is fixed by
/// the counts before them, so field 15 is judged by itself, after field 14.
fn names_end_at_the_total(image: &[u8]) -> bool {
    end_of_sections_before(image, NAMES + 1) == header_field(image, 1) as u64
}

/// The byte behind the header and the sections numbered below `section`.
fn end_of_sections_before(image: &[u8], section: usize) -> u64 {
    let bytes_of = |s: usize| header_field(image, count_field(s)) as u64 * RECORD_BYTES[s];
    HEADER_BYTES as u64 + (0..section).map(bytes_of).sum::<u64>()
}
