//! The slices that are compared: lowered netlists, netlists made by hand, both
//! damaged, nodes that differ in few digits, and a few large netlists.

use super::crowded::crowded;
use super::damage::{damaged, extend};
use super::draft::Draft;
use super::free::{free, Size as FreeSize};
use image::{borders, generate, heavy, netlist_borders, Image, Random, Size};
use std::fmt;
use std::sync::OnceLock;

/// Where a slice comes from.
#[derive(Clone, Copy, Debug, PartialEq, Eq, PartialOrd, Ord)]
pub enum Origin {
    Border,
    Crowded,
    Lowered,
    LoweredDamaged,
    ByHand,
    ByHandDamaged,
    Heavy,
    HeavyDamaged,
}

impl fmt::Display for Origin {
    fn fmt(&self, f: &mut fmt::Formatter) -> fmt::Result {
        f.write_str(match self {
            Origin::Border => "border case",
            Origin::Crowded => "nodes that differ in few digits",
            Origin::Lowered => "lowered",
            Origin::LoweredDamaged => "lowered, damaged",
            Origin::ByHand => "by hand",
            Origin::ByHandDamaged => "by hand, damaged",
            Origin::Heavy => "large",
            Origin::HeavyDamaged => "large, damaged",
        })
    }
}

/// A slice, and the right netlist that it was made from; of a border case and of
/// nodes that differ in few digits none.
pub struct Case {
    pub origin: Origin,
    pub draft: Draft,
    pub slice: Vec<u32>,
}

/// One case in so many is large.
const ONE_HEAVY_IN: u64 = 1_000;

/// Border cases, in an order that soon reaches all parts of their list.
pub fn border_slices() -> &'static [Vec<u32>] {
    static SLICES: OnceLock<Vec<Vec<u32>>> = OnceLock::new();
    SLICES.get_or_init(|| {
        let mut slices = netlist_borders();
        Random::new(1).shuffle(&mut slices);
        slices
    })
}

/// Case `number` of a run: of the even numbers each border case once, else a
/// mixture.
pub fn case(random: &mut Random, number: u64) -> Case {
    match border_slices().get((number / 2) as usize) {
        Some(slice) if number % 2 == 0 => Case { origin: Origin::Border, draft: Draft::default(), slice: slice.clone() },
        _ => mixed_case(random, number),
    }
}

fn mixed_case(random: &mut Random, number: u64) -> Case {
    if number % ONE_HEAVY_IN == ONE_HEAVY_IN - 1 {
        let draft = heavy_draft((number / ONE_HEAVY_IN) as usize / 2);
        let is_damaged = (number / ONE_HEAVY_IN) % 2 == 1;
        return made(random, draft, is_damaged, [Origin::Heavy, Origin::HeavyDamaged]);
    }
    if random.chance(2) {
        return Case { origin: Origin::Crowded, draft: Draft::default(), slice: crowded(random).words() };
    }
    let is_damaged = random.chance(62);
    if random.flag() {
        let draft = lowered(random);
        made(random, draft, is_damaged, [Origin::Lowered, Origin::LoweredDamaged])
    } else {
        let size = match random.below(1_000) {
            0..700 => FreeSize::Small,
            700..997 => FreeSize::Middle,
            _ => FreeSize::Wide,
        };
        let draft = free(random, size);
        made(random, draft, is_damaged, [Origin::ByHand, Origin::ByHandDamaged])
    }
}

fn made(random: &mut Random, draft: Draft, is_damaged: bool, origins: [Origin; 2]) -> Case {
    let slice = if is_damaged { damaged(random, &draft) } else { whole(random, &draft) };
    Case { origin: origins[usize::from(is_damaged)], draft, slice }
}

/// The netlist as a lowering leaves it, with unused list words that are 0, or with
/// others behind it.
fn whole(random: &mut Random, draft: &Draft) -> Vec<u32> {
    let mut words = draft.words();
    match random.below(4) {
        0 => words.resize(words.len() + random.below(40), 0),
        1 => extend(random, &mut words),
        _ => {}
    }
    words
}

// ---- lowered netlists ----

/// The netlist of a random image or border case that struo accepts, for either
/// value of `resolve_observable_dependencies`, and room for nodes.
fn lowered(random: &mut Random) -> Draft {
    loop {
        let image = match random.below(10) {
            0 => border_images()[random.below(border_images().len())].clone(),
            _ => generate(random.next(), size(random)).encode(),
        };
        let room = random.pick(&[0, 0, 1, 3, 40]);
        if let Some(draft) = draft_of(&image, room, random.flag()) {
            return draft;
        }
    }
}

fn size(random: &mut Random) -> Size {
    match random.below(100) {
        0..80 => Size::Tiny,
        80..99 => Size::Small,
        _ => Size::Medium,
    }
}

/// Border images that pass checks 3 and 4 and are no larger than this.
fn border_images() -> &'static [Vec<u8>] {
    const MOST_BYTES: usize = 3_000;
    static IMAGES: OnceLock<Vec<Vec<u8>>> = OnceLock::new();
    IMAGES.get_or_init(|| {
        let images = borders().into_iter().map(|(_, image, ..)| image);
        images.filter(|image| image.len() <= MOST_BYTES && reference::scratch_words(image, 1).is_some()).collect()
    })
}

/// What struo lowers an image to, with room for more nodes; `None` where it is
/// refused.
pub fn draft_of(image: &[u8], room: usize, observable: bool) -> Option<Draft> {
    match driver::lower_limited(image, u32::MAX, u32::MAX, observable) {
        driver::Answer::Netlist { nodes, records } => {
            let draft = Draft { n: (nodes.len() + room).clamp(1, 65_535), nodes, records };
            let fits = draft.nodes.len() <= 65_535 && draft.records.iter().map(Vec::len).sum::<usize>() <= 65_535;
            fits.then_some(draft)
        }
        driver::Answer::Refused(_) => None,
        driver::Answer::Crash(text) => panic!("struo crashed: {text}"),
    }
}

/// Images whose netlists are large, by name.
pub const HEAVY: [(&str, fn() -> Image); 11] = [
    ("most nets", || heavy::shift_stages(62)),
    ("slowest to lower", || heavy::gate_lookups(28)),
    ("shared gates", || heavy::shared_gates(682, 16)),
    ("shared sums", || heavy::shared_sums(1000, 16)),
    ("shared signals", || heavy::shared_signals(500, 8)),
    ("wide trees", || heavy::wide_trees()),
    ("wide multiplications", || heavy::multiplications(18)),
    ("one-bit slices", || heavy::one_bit_slices(1024)),
    ("registers", || heavy::registers(256)),
    ("memories", || heavy::memories(16, 120)),
    ("deepest, 128 x 250", || image::deepest(128, 250)),
];

/// Large netlists, in turn.
fn heavy_draft(number: usize) -> Draft {
    static DRAFTS: OnceLock<Vec<Draft>> = OnceLock::new();
    let drafts = DRAFTS.get_or_init(|| {
        let lowered = HEAVY.iter().map(|(_, image)| draft_of(&image().encode(), 0, false).expect("an image that is accepted"));
        lowered.collect()
    });
    drafts[number % drafts.len()].clone()
}

#[cfg(test)]
mod tests {
    use super::{case, draft_of, Origin};
    use image::{generate, Random, Size};

    #[test]
    fn drafts_lay_out_their_words_as_the_driver_does() {
        driver::with_big_stack(|| {
            for seed in 0..300 {
                let image = generate(seed, Size::Small).encode();
                let answer = driver::lower(&image, false);
                if let Some(draft) = draft_of(&image, 3, false) {
                    let words = draft.words();
                    assert_eq!(driver::words(&answer, draft.n as u32, words[3]), words);
                }
            }
        });
    }

    #[test]
    fn what_is_not_damaged_is_accepted() {
        driver::with_big_stack(|| {
            for number in 0..2_100 {
                let case = case(&mut Random::of_case(7, number), number);
                if matches!(case.origin, Origin::Lowered | Origin::ByHand | Origin::Heavy) {
                    assert_eq!(reference::netlist_answer(&case.slice), reference::FINE, "case {number}");
                }
            }
        });
    }
}
