//! The images that are compared: border cases, random images, damaged ones.

use crate::call::What;
use crate::limits::Limits;
use image::{borders, generate, mutate, Border, Random, Size};
use std::fmt;
use std::sync::OnceLock;

/// Which sizes random images have.
#[derive(Clone, Copy, Debug)]
pub enum SizeChoice {
    Mixed,
    Only(Size),
}

impl SizeChoice {
    pub fn pick(self, random: &mut Random) -> Size {
        match self {
            SizeChoice::Only(size) => size,
            SizeChoice::Mixed => match random.below(1_000) {
                0..=599 => Size::Tiny,
                600..=959 => Size::Small,
                960..=996 => Size::Medium,
                _ => Size::Large,
            },
        }
    }
}

/// Where an image comes from.
#[derive(Clone, Copy, Debug)]
pub enum Origin {
    Random(Size),
    DamagedRandom(Size),
    Border(&'static str),
    DamagedBorder(&'static str),
}

impl fmt::Display for Origin {
    fn fmt(&self, f: &mut fmt::Formatter) -> fmt::Result {
        match self {
            Origin::Random(size) => write!(f, "random, {size:?}"),
            Origin::DamagedRandom(size) => write!(f, "random, {size:?}, damaged"),
            Origin::Border(name) => write!(f, "border case {name}"),
            Origin::DamagedBorder(name) => write!(f, "border case {name}, damaged"),
        }
    }
}

/// An image, and the limits that a border case comes with.
pub struct Case {
    pub image: Vec<u8>,
    pub origin: Origin,
    pub limits: Option<Limits>,
}

/// Image `number`: of the even numbers each border case once, else a mixture.
pub fn case(random: &mut Random, number: u64, what: What, size: SizeChoice) -> Case {
    match border_cases().get((number / 2) as usize) {
        Some(border) if number % 2 == 0 => border_case(border),
        _ => mixed_case(random, what, size),
    }
}

fn mixed_case(random: &mut Random, what: What, size: SizeChoice) -> Case {
    let damaged_in_100 = match what {
        What::Check => 55,
        What::Lower => 20,
    };
    if !random.chance(damaged_in_100) {
        let size = size.pick(random);
        return random_case(random, size);
    }
    if random.chance(95) {
        let size = size.pick(random);
        let whole = generate(random.next(), size).encode();
        return without_limits(mutate(random.next(), &whole), Origin::DamagedRandom(size));
    }
    let border = &border_cases()[random.below(border_cases().len())];
    without_limits(mutate(random.next(), image_of(border)), Origin::DamagedBorder(name_of(border)))
}

fn without_limits(image: Vec<u8>, origin: Origin) -> Case {
    Case { image, origin, limits: None }
}

fn border_case(border: &'static Border) -> Case {
    let (_, image, n, p, netlist_words, scratch_words) = border;
    let limits = Limits { n: *n, p: *p, netlist_words: *netlist_words, scratch_words: *scratch_words };
    Case { image: image.clone(), origin: Origin::Border(name_of(border)), limits: Some(limits) }
}

fn name_of(border: &'static Border) -> &'static str {
    &border.0
}

fn image_of(border: &Border) -> &[u8] {
    &border.1
}

fn border_cases() -> &'static [Border] {
    static BORDERS: OnceLock<Vec<Border>> = OnceLock::new();
    BORDERS.get_or_init(borders)
}

/// Most replay images are no larger than this.
const SMALL_BYTES: usize = 640;

/// Image `number` of the replay list, if it is small enough: the first few and
/// then one in 250 large, of the others a quarter border cases.
pub fn replay_case(random: &mut Random, number: u64) -> Option<Case> {
    const LARGE_FIRST: u64 = 8;
    const ONE_LARGER_IN: u64 = 250;
    if number < LARGE_FIRST {
        return Some(random_case(random, Size::Large));
    }
    if number % ONE_LARGER_IN == 0 {
        return Some(random_case(random, Size::Medium));
    }
    let case = match number % 4 {
        0 => scattered_border(number / 4),
        _ => mixed_case(random, What::Lower, SizeChoice::Only(Size::Tiny)),
    };
    (case.image.len() <= SMALL_BYTES).then_some(case)
}

fn random_case(random: &mut Random, size: Size) -> Case {
    without_limits(generate(random.next(), size).encode(), Origin::Random(size))
}

/// The border cases in an order that soon reaches all parts of their list.
fn scattered_border(number: u64) -> Case {
    const STRIDE: u64 = 4_099;
    let count = border_cases().len() as u64;
    border_case(&border_cases()[(number * STRIDE % count) as usize])
}
