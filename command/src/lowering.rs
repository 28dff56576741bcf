//! The library's calls with buffers made for them.

use crate::arguments::Wish;
use crate::{ACCEPTED, Answer, MOST};
use image::Image;

/// How a lowering ended.
pub struct Outcome {
    pub answer: Answer,
    /// The netlist buffer's required words after acceptance.
    pub words: Vec<u32>,
    pub room: Room,
}

/// Words that were lent, and that are needed.
#[derive(Clone, Copy, Debug, PartialEq, Eq)]
pub struct Room {
    pub netlist: usize,
    pub netlist_needed: usize,
    pub scratch: usize,
    /// Of an image whose header is right.
    pub scratch_needed: usize,
}

/// Checks and lowers an image as wished.
pub fn lower(image: &[u8], wish: &Wish) -> Outcome {
    let room = room(image, wish);
    let checked = port::check(image, wish.nets, wish.words, room.netlist, room.scratch);
    if checked != ACCEPTED {
        return Outcome { answer: checked, words: Vec::new(), room };
    }
    let mut words = vec![0; room.netlist];
    let mut scratch = vec![0; room.scratch];
    let answer = port::lower(image, wish.nets, wish.words, &mut words, &mut scratch);
    words.truncate(if answer == ACCEPTED { room.netlist_needed } else { 0 });
    Outcome { answer, words, room }
}

/// Nets and list words that an image takes, if it is accepted with the largest
/// limits.
pub fn taken(image: &[u8]) -> Option<(u32, u32)> {
    let outcome = lower(image, &Wish::of(""));
    (outcome.answer == ACCEPTED).then(|| (outcome.words[1], outcome.words[3]))
}

fn room(image: &[u8], wish: &Wish) -> Room {
    // Limits that are out of range are refused before a buffer is looked at.
    let (n, p) = (wish.nets.min(MOST), wish.words.min(MOST));
    let netlist_needed = image::netlist_words(n, p);
    let scratch_needed = Image::decode(image).map_or(0, |image| image.scratch_words(n));
    let lent = |wished: Option<u32>, needed: usize| wished.map_or(needed, |words| words as usize);
    Room {
        netlist: lent(wish.netlist, netlist_needed),
        netlist_needed,
        scratch: lent(wish.scratch, scratch_needed),
        scratch_needed,
    }
}
