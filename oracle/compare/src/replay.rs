//! The replay list: a fixed list of images, limits and answers that a program
//! without Rust can call the port with. All numbers are 32 bits, low byte
//! first; `write` and `read` give the layout.

use crate::cases::{replay_case, Case};
use crate::expect::after_call;
use crate::limits::{for_lower, Limits, Taken};
use crate::Answer;
use image::Random;

pub const EDITION: u32 = 1;

/// Bounds that every entry keeps, so that a reader can have fixed buffers.
pub const MOST_IMAGE_BYTES: usize = 32_768;
pub const MOST_NETLIST_WORDS: usize = 65_536;
pub const MOST_SCRATCH_WORDS: usize = 65_536;

/// One call and how it must end.
#[derive(Clone, Debug, PartialEq, Eq)]
pub struct Entry {
    pub image: Vec<u8>,
    pub limits: Limits,
    /// The answer of the checks alone.
    pub checks: Answer,
    /// The answer of the lowering call.
    pub answer: Answer,
    /// Of the netlist buffer's required words after the call; 0 where the
    /// checks refuse, since no word is written then.
    pub checksum: u32,
}

/// FNV-1a over the words' bytes, low byte of each word first.
pub fn checksum(words: &[u32]) -> u32 {
    let bytes = words.iter().flat_map(|word| word.to_le_bytes());
    bytes.fold(0x811c_9dc5, |sum, byte| (sum ^ u32::from(byte)).wrapping_mul(0x0100_0193))
}

fn entry(image: &[u8], limits: Limits) -> Entry {
    let checks = reference::check(image, limits.n, limits.p, limits.netlist_words, limits.scratch_words);
    let expected = after_call(image, &limits);
    let checksum = expected.netlist.as_deref().map_or(0, checksum);
    Entry { image: image.to_vec(), limits, checks, answer: expected.answer, checksum }
}

// ---- choosing entries ----

/// Shares of each outcome (accepted, refused 1 to 10), in parts of 100.
const SHARES: [usize; 11] = [30, 2, 2, 10, 24, 3, 7, 7, 6, 5, 4];

/// So many images are looked at for each entry before giving up.
const MOST_IMAGES_PER_ENTRY: u64 = 400;

/// The list of `count` entries that a seed gives.
pub fn make(seed: u64, count: usize) -> Result<Vec<Entry>, String> {
    let mut wanted = SHARES.map(|share| count * share / 100);
    wanted[0] += count - wanted.iter().sum::<usize>();
    let mut entries: Vec<Entry> = Vec::new();
    for number in 0..count as u64 * MOST_IMAGES_PER_ENTRY {
        if entries.len() == count {
            break;
        }
        let mut random = Random::of_case(seed, number);
        let case = replay_case(&mut random, number);
        let entry = case.and_then(|case| wanted_entry(&case, &mut random, &wanted));
        if let Some(entry) = entry.filter(|entry| !entries.contains(entry)) {
            wanted[entry.answer[0] as usize] -= 1;
            entries.push(entry);
        }
    }
    match entries.len() == count {
        true => Ok(entries),
        false => Err(format!("found only {} of {count} entries; still wanted by outcome: {wanted:?}", entries.len())),
    }
}

/// The first call with this image that is still wanted: with the limits it
/// comes with, or with others in a random order.
fn wanted_entry(case: &Case, random: &mut Random, wanted: &[usize; 11]) -> Option<Entry> {
    let image = &case.image;
    let taken = Taken::by(image);
    let mut recipes = for_lower(random);
    random.shuffle(&mut recipes);
    let limits = case.limits.into_iter().chain(recipes.iter().map(|recipe| recipe.limits(image, taken)));
    let entries = limits.filter(|limits| is_in_bounds(image, limits)).map(|limits| entry(image, limits));
    entries.into_iter().find(|entry| wanted[entry.answer[0] as usize] > 0)
}

fn is_in_bounds(image: &[u8], limits: &Limits) -> bool {
    image.len() <= MOST_IMAGE_BYTES
        && limits.netlist_words <= MOST_NETLIST_WORDS
        && limits.scratch_words <= MOST_SCRATCH_WORDS
}

// ---- bytes ----

/// Edition, number of entries, then each entry: bytes of the image, the image
/// padded with zeros to a multiple of 4, N, P, netlist words, scratch words,
/// the checks' answer, the call's answer, the checksum.
pub fn write(entries: &[Entry]) -> Vec<u8> {
    let mut bytes = Vec::new();
    push(&mut bytes, &[EDITION, entries.len() as u32]);
    for entry in entries {
        push(&mut bytes, &[entry.image.len() as u32]);
        bytes.extend_from_slice(&entry.image);
        bytes.resize(bytes.len().next_multiple_of(4), 0);
        let Limits { n, p, netlist_words, scratch_words } = entry.limits;
        push(&mut bytes, &[n, p, netlist_words as u32, scratch_words as u32]);
        push(&mut bytes, &entry.checks);
        push(&mut bytes, &entry.answer);
        push(&mut bytes, &[entry.checksum]);
    }
    bytes
}

fn push(bytes: &mut Vec<u8>, words: &[u32]) {
    bytes.extend(words.iter().flat_map(|word| word.to_le_bytes()));
}

/// The entries of a list, or what is wrong with its bytes.
pub fn read(bytes: &[u8]) -> Result<Vec<Entry>, String> {
    let mut reader = Reader { bytes, at: 0 };
    let edition = reader.word()?;
    if edition != EDITION {
        return Err(format!("edition {edition}, not {EDITION}"));
    }
    let count = reader.word()?;
    let entries = (0..count).map(|_| reader.entry()).collect::<Result<Vec<_>, _>>()?;
    match reader.at == bytes.len() {
        true => Ok(entries),
        false => Err(format!("{} bytes behind the last entry", bytes.len() - reader.at)),
    }
}

struct Reader<'a> {
    bytes: &'a [u8],
    at: usize,
}

impl<'a> Reader<'a> {
    fn take(&mut self, length: usize) -> Result<&'a [u8], String> {
        let end = self.at.checked_add(length).filter(|&end| end <= self.bytes.len());
        let end = end.ok_or_else(|| format!("ends too early, at byte {}", self.bytes.len()))?;
        let taken = &self.bytes[self.at..end];
        self.at = end;
        Ok(taken)
    }

    fn word(&mut self) -> Result<u32, String> {
        let word = self.take(4)?;
        Ok(u32::from_le_bytes([word[0], word[1], word[2], word[3]]))
    }

    fn answer(&mut self) -> Result<Answer, String> {
        Ok([self.word()?, self.word()?, self.word()?])
    }

    fn entry(&mut self) -> Result<Entry, String> {
        let length = self.word()? as usize;
        let padded = self.take(length.next_multiple_of(4))?;
        let (image, padding) = padded.split_at(length);
        if padding.iter().any(|&byte| byte != 0) {
            return Err(format!("padding that is not 0 before byte {}", self.at));
        }
        let (n, p) = (self.word()?, self.word()?);
        let (netlist_words, scratch_words) = (self.word()? as usize, self.word()? as usize);
        let limits = Limits { n, p, netlist_words, scratch_words };
        Ok(Entry { image: image.to_vec(), limits, checks: self.answer()?, answer: self.answer()?, checksum: self.word()? })
    }
}

#[cfg(test)]
mod tests {
    use super::{checksum, make, read, write};

    #[test]
    fn checksum_is_fnv_1a() {
        assert_eq!(checksum(&[]), 0x811c_9dc5);
        // "foobar" padded by two zero bytes
        let foobar = [u32::from_le_bytes(*b"foob"), u32::from_le_bytes(*b"ar\0\0")];
        let mut sum = 0xbf9c_f968u32; // of "foobar", from the published test values
        for _ in 0..2 {
            sum = sum.wrapping_mul(0x0100_0193);
        }
        assert_eq!(checksum(&foobar), sum);
    }

    #[test]
    fn lists_are_equal_for_equal_seeds_and_survive_reading() {
        let list = make(3, 100).unwrap();
        let bytes = write(&list);
        assert_eq!(bytes, write(&make(3, 100).unwrap()));
        assert_ne!(bytes, write(&make(4, 100).unwrap()));
        assert_eq!(read(&bytes).unwrap(), list);
    }

    #[test]
    fn every_outcome_is_there() {
        let list = make(1, 100).unwrap();
        for number in 0..=10 {
            assert!(list.iter().any(|entry| entry.answer[0] == number), "refusal {number}");
        }
    }

    #[test]
    fn damaged_lists_are_refused() {
        let bytes = write(&make(1, 100).unwrap());
        assert!(read(&bytes[..bytes.len() - 1]).is_err());
        assert!(read(&[&bytes[..], &[0]].concat()).is_err());
        assert!(read(&[]).is_err());
        let mut other_edition = bytes.clone();
        other_edition[0] = 2;
        assert!(read(&other_edition).is_err());
    }
}
