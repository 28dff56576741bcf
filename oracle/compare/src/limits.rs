//! The limits and buffer lengths a case is tried with: a recipe that can be
//! worked out anew for each image, so that it survives shrinking.

use crate::expect::netlist_use;
use crate::scratch::Scratch;
use image::Random;

const MOST_LIMIT: u32 = 65_535;

/// The numbers of one call.
#[derive(Clone, Copy, Debug, PartialEq, Eq)]
pub struct Limits {
    pub n: u32,
    pub p: u32,
    pub netlist_words: usize,
    pub scratch_words: usize,
}

/// A limit, from what the image's netlist takes.
#[derive(Clone, Copy, Debug)]
pub enum Limit {
    /// As many as are taken.
    Exact,
    /// One fewer than are taken.
    OneShort,
    /// So many parts of 256 of what is taken.
    Part(u32),
    /// So many more than are taken.
    More(u32),
    /// This number, in range or not.
    Given(u32),
}

/// A buffer's length, from what is required.
#[derive(Clone, Copy, Debug)]
pub enum Room {
    Exact,
    OneShort,
    /// So many words fewer.
    Short(usize),
    /// So many words beyond.
    Longer(usize),
    /// So many parts of 256 of the way to the former sum, and so many words
    /// beyond.
    Former(u32, usize),
    /// This many words.
    Given(usize),
}

/// How to work out a call's limits for an image.
#[derive(Clone, Copy, Debug)]
pub struct Recipe {
    pub nets: Limit,
    pub list: Limit,
    pub netlist: Room,
    pub scratch: Room,
}

impl Limit {
    fn of(self, taken: u32, least: u32) -> u32 {
        let within = |limit: u32| limit.clamp(least, MOST_LIMIT);
        match self {
            Limit::Exact => within(taken),
            Limit::OneShort => within(taken.saturating_sub(1)),
            Limit::Part(parts) => within((u64::from(taken) * u64::from(parts) / 256) as u32),
            Limit::More(more) => within(taken.saturating_add(more)),
            Limit::Given(limit) => limit,
        }
    }
}

impl Room {
    /// Where `required` words are, and by the former sum `former`.
    fn of(self, required: usize, former: usize) -> usize {
        match self {
            Room::Exact => required,
            Room::OneShort => required.saturating_sub(1),
            Room::Short(words) => required.saturating_sub(words),
            Room::Longer(words) => required + words,
            Room::Former(parts, words) => required + (former - required) * parts as usize / 256 + words,
            Room::Given(words) => words,
        }
    }
}

impl Recipe {
    /// These numbers for every image.
    pub fn given(limits: &Limits) -> Recipe {
        Recipe {
            nets: Limit::Given(limits.n),
            list: Limit::Given(limits.p),
            netlist: Room::Given(limits.netlist_words),
            scratch: Room::Given(limits.scratch_words),
        }
    }

    /// The numbers for an image whose netlist takes so many nets and list words.
    pub fn limits(&self, image: &[u8], taken: Taken) -> Limits {
        let n = self.nets.of(taken.nets, 1);
        let p = self.list.of(taken.list_words, 0);
        // Out of range, the buffers are those that the netlist itself takes.
        let room_n = if (1..=MOST_LIMIT).contains(&n) { n } else { Limit::Exact.of(taken.nets, 1) };
        let room_p = if p <= MOST_LIMIT { p } else { Limit::Exact.of(taken.list_words, 0) };
        let netlist = reference::netlist_words(room_n, room_p);
        let Scratch { required, former } = Scratch::of(image, room_n).unwrap_or(SCRATCH_OF_NO_MODULE);
        Limits { n, p, netlist_words: self.netlist.of(netlist, netlist), scratch_words: self.scratch.of(required, former) }
    }
}

/// For an image that is refused before its scratch is judged.
const SCRATCH_OF_NO_MODULE: Scratch = Scratch { required: 512, former: 512 };

/// Nets and list words that an image's netlist takes.
#[derive(Clone, Copy, Debug)]
pub struct Taken {
    pub nets: u32,
    pub list_words: u32,
}

impl Taken {
    /// Stands for an image that has no netlist.
    pub const NOTHING: Taken = Taken { nets: 24, list_words: 48 };

    pub fn by(image: &[u8]) -> Taken {
        match netlist_use(image) {
            Some((nets, list_words)) => Taken { nets, list_words },
            None => Taken::NOTHING,
        }
    }
}

/// The recipes a lowering is tried with: limits and buffers that just serve,
/// that serve amply, each limit one short, some of each, and one call that
/// refusals 1, 2 or 5 stop.
pub fn for_lower(random: &mut Random) -> Vec<Recipe> {
    let exact = Recipe { nets: Limit::Exact, list: Limit::Exact, netlist: Room::Exact, scratch: Room::Exact };
    let ample = Limit::More(random.range(1, 40));
    let most = Limit::Given(MOST_LIMIT);
    let beyond = |random: &mut Random| Room::Longer(random.below(9) + 1);
    vec![
        if random.chance(1) { Recipe { nets: most, list: most, ..exact } } else { exact },
        Recipe { nets: ample, list: ample, netlist: beyond(random), scratch: long_scratch(random) },
        Recipe { nets: Limit::OneShort, scratch: long_scratch(random), ..exact },
        Recipe { list: Limit::OneShort, netlist: beyond(random), ..exact },
        Recipe { nets: Limit::Part(random.range(0, 256)), list: Limit::Part(random.range(0, 256)), ..exact },
        Recipe { nets: ample, list: Limit::Part(random.range(0, 256)), ..exact },
        stopped_early(random),
    ]
}

/// The recipes a check is tried with. The image alone does not tell what its
/// netlist takes, so the limits are any in range; the buffers just serve, serve
/// amply, or one of them does not.
pub fn for_check(random: &mut Random) -> Vec<Recipe> {
    let any = Recipe { nets: any_nets(random), list: any_list(random), netlist: Room::Exact, scratch: Room::Exact };
    let ample = Room::Longer(random.below(1 << 20) + 1);
    vec![
        any,
        Recipe { netlist: ample, scratch: ample, ..any },
        Recipe { scratch: long_scratch(random), ..any },
        Recipe { netlist: Room::OneShort, ..any },
        Recipe { scratch: Room::OneShort, ..any },
        stopped_early(random),
    ]
}

/// More words than are required: a few, some below the former sum, or that
/// sum and a few.
fn long_scratch(random: &mut Random) -> Room {
    match random.below(3) {
        0 => Room::Longer(random.below(9) + 1),
        1 => Room::Former(random.range(1, 255), 0),
        _ => Room::Former(256, random.below(9)),
    }
}

/// A call that the limits or a buffer stop, by much or by little.
fn stopped_early(random: &mut Random) -> Recipe {
    let fine = Recipe { nets: any_nets(random), list: any_list(random), netlist: Room::Exact, scratch: Room::Exact };
    let short = Room::Short(random.below(300) + 1);
    match random.below(6) {
        0 => Recipe { nets: Limit::Given(random.pick(&[0, 65_536, u32::MAX])), ..fine },
        1 => Recipe { list: Limit::Given(random.pick(&[65_536, 65_537, u32::MAX])), ..fine },
        2 => Recipe { netlist: Room::OneShort, ..fine },
        3 => Recipe { scratch: Room::OneShort, ..fine },
        4 => Recipe { netlist: short, scratch: short, ..fine },
        _ => Recipe { scratch: short, ..fine },
    }
}

fn any_nets(random: &mut Random) -> Limit {
    Limit::Given(if random.chance(2) { random.pick(&[1, 65_534, 65_535]) } else { random.range(1, 300) })
}

fn any_list(random: &mut Random) -> Limit {
    Limit::Given(if random.chance(2) { random.pick(&[0, 65_534, 65_535]) } else { random.range(0, 300) })
}

#[cfg(test)]
mod tests {
    use super::{long_scratch, Random};

    #[test]
    fn long_scratches_reach_both_sides_of_the_former_sum() {
        let mut random = Random::new(1);
        let words: Vec<usize> = (0..200).map(|_| long_scratch(&mut random).of(100, 300)).collect();
        assert!(words.iter().all(|words| (100..=308).contains(words)));
        assert!(words.contains(&101) && words.contains(&300) && words.contains(&308));
        assert!(words.iter().filter(|&words| (110..300).contains(words)).count() > 40);
    }
}
