//! Damages images: most results break a rule of the header or of a record,
//! some are still fine.

use crate::format::*;
use crate::random::Random;

/// A damaged copy of an image's bytes.
pub fn mutate(seed: u64, bytes: &[u8]) -> Vec<u8> {
    let mut random = Random::new(seed);
    let mut damaged = bytes.to_vec();
    let times = if random.chance(80) {
        1
    } else {
        random.range(2, 4)
    };
    for _ in 0..times {
        damage(&mut random, &mut damaged);
    }
    damaged
}

fn damage(random: &mut Random, bytes: &mut Vec<u8>) {
    match random.below(100) {
        0..=11 => header_field(random, bytes),
        12..=41 => record_field(random, bytes),
        42..=44 => word_width(random, bytes),
        45..=59 => nudge(random, bytes),
        60..=66 => swap_records(random, bytes),
        67..=73 => copy_record(random, bytes),
        74..=79 => list_word(random, bytes),
        80..=86 => name_byte(random, bytes),
        87..=90 => truncate(random, bytes),
        91..=93 => extend(random, bytes),
        94..=96 => flip_bit(random, bytes),
        _ => drop_last_record(random, bytes),
    }
}

/// A value at a border of some field.
fn border_value(random: &mut Random) -> u32 {
    random.pick(&[
        0,
        1,
        2,
        3,
        4,
        5,
        6,
        7,
        18,
        19,
        32,
        33,
        63,
        64,
        65,
        255,
        256,
        511,
        512,
        513,
        1023,
        1024,
        1025,
        2047,
        2048,
        2049,
        8192,
        16384,
        65535,
        65536,
        65537,
        0x7fff_ffff,
        0x8000_0000,
        0xffff_fffe,
        ABSENT,
    ])
}

fn header_field(random: &mut Random, bytes: &mut [u8]) {
    if bytes.len() < HEADER_BYTES {
        return;
    }
    let field = random.below(HEADER_FIELDS);
    let old = word_at(bytes, field);
    let new = match random.below(5) {
        0 => border_value(random),
        1 => old.wrapping_add(1),
        2 => old.wrapping_sub(1),
        3 => old.wrapping_add(random.pick(&[4, 16, 20, 48, 104, 108])),
        _ => MOST[random.below(7)] as u32 + 1,
    };
    set_word(bytes, field, new);
}

/// Start word and number of words of a record that has fields.
fn some_record(random: &mut Random, bytes: &[u8]) -> Option<(usize, usize)> {
    let header = read_header(bytes)?;
    for _ in 0..8 {
        let section = random.pick(&[SIGNALS, EXPRESSIONS, ASSIGNMENTS, REGISTERS, MEMORIES]);
        let count = header[2 + 2 * section] as usize;
        if count == 0 {
            continue;
        }
        let size = RECORD_BYTES[section];
        let start = (header[3 + 2 * section] as usize).checked_add(random.below(count) * size)?;
        if start + size <= bytes.len() {
            return Some((start / 4, size / 4));
        }
    }
    None
}

fn record_field(random: &mut Random, bytes: &mut [u8]) {
    if let Some((start, fields)) = some_record(random, bytes) {
        let value = border_value(random);
        set_word(bytes, start + random.below(fields), value);
    }
}

/// The word width of a memory: another one, most often that of some signal or a
/// neighbour of its own.
fn word_width(random: &mut Random, bytes: &mut [u8]) {
    let Some(header) = read_header(bytes) else {
        return;
    };
    let (count, start) = (header[2 + 2 * MEMORIES] as usize, header[3 + 2 * MEMORIES] as usize);
    if count == 0 || start + count * RECORD_BYTES[MEMORIES] > bytes.len() {
        return;
    }
    let memory = start / 4 + random.below(count) * MEMORY_FIELDS;
    let field = memory + memory_field::WORD_WIDTH;
    let old = word_at(bytes, field);
    let new = match random.below(4) {
        0 => border_value(random),
        1 => old.wrapping_add(1),
        2 => old.wrapping_sub(1),
        _ => some_width(random, &header, bytes).unwrap_or(old),
    };
    set_word(bytes, field, new);
}

/// The width of some signal.
fn some_width(random: &mut Random, header: &[u32; HEADER_FIELDS], bytes: &[u8]) -> Option<u32> {
    let (count, start) = (header[2] as usize, header[3] as usize);
    let signal = (count > 0).then(|| start / 4 + random.below(count) * 4)?;
    (4 * (signal + 3) <= bytes.len()).then(|| word_at(bytes, signal + 2))
}

fn nudge(random: &mut Random, bytes: &mut [u8]) {
    if let Some((start, fields)) = some_record(random, bytes) {
        let field = start + random.below(fields);
        let old = word_at(bytes, field);
        let new = if random.flag() {
            old.wrapping_add(1)
        } else {
            old.wrapping_sub(1)
        };
        set_word(bytes, field, new);
    }
}

fn swap_records(random: &mut Random, bytes: &mut [u8]) {
    let pair = (some_record(random, bytes), some_record(random, bytes));
    if let (Some((one, fields)), Some((other, others))) = pair {
        for field in 0..fields.min(others) {
            let (first, second) = (word_at(bytes, one + field), word_at(bytes, other + field));
            set_word(bytes, one + field, second);
            set_word(bytes, other + field, first);
        }
    }
}

fn copy_record(random: &mut Random, bytes: &mut [u8]) {
    let pair = (some_record(random, bytes), some_record(random, bytes));
    if let (Some((one, fields)), Some((other, others))) = pair {
        for field in 0..fields.min(others) {
            let value = word_at(bytes, one + field);
            set_word(bytes, other + field, value);
        }
    }
}

fn list_word(random: &mut Random, bytes: &mut [u8]) {
    let Some(header) = read_header(bytes) else {
        return;
    };
    let (count, offset) = (header[2 + 2 * LIST] as usize, header[3 + 2 * LIST] as usize);
    if count > 0 && offset + 4 * count <= bytes.len() {
        let value = border_value(random);
        set_word(bytes, offset / 4 + random.below(count), value);
    }
}

fn name_byte(random: &mut Random, bytes: &mut [u8]) {
    let Some(header) = read_header(bytes) else {
        return;
    };
    let start = header[3 + 2 * NAMES] as usize;
    if start < bytes.len() {
        let at = start + random.below(bytes.len() - start);
        bytes[at] = random.pick(&[0, 31, 32, 33, 97, 98, 126, 127, 128, 255]);
    }
}

fn truncate(random: &mut Random, bytes: &mut Vec<u8>) {
    let length = match random.below(3) {
        0 => random.below(bytes.len() + 1),
        1 => bytes.len().saturating_sub(1),
        _ => bytes.len().saturating_sub(4),
    };
    bytes.truncate(length);
}

fn extend(random: &mut Random, bytes: &mut Vec<u8>) {
    for _ in 0..random.range(1, 5) {
        bytes.push(random.next() as u8);
    }
}

fn flip_bit(random: &mut Random, bytes: &mut [u8]) {
    if !bytes.is_empty() {
        let at = random.below(bytes.len());
        bytes[at] ^= 1 << random.below(8);
    }
}

/// Takes a section's last record away and lays the image out anew.
fn drop_last_record(random: &mut Random, bytes: &mut Vec<u8>) {
    let Some(mut image) = Image::decode(bytes) else {
        return;
    };
    match random.below(6) {
        SIGNALS => drop(image.signals.pop()),
        EXPRESSIONS => drop(image.expressions.pop()),
        LIST => drop(image.list.pop()),
        ASSIGNMENTS => drop(image.assignments.pop()),
        REGISTERS => drop(image.registers.pop()),
        _ => drop(image.names.pop()),
    }
    *bytes = image.encode();
}
