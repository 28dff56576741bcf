//! struo's lowering and the reading of needed bits on many images, up to the first
//! difference.

use super::judge::judge;
use super::selftest::Fault;
use crate::cases::SizeChoice;
use crate::plan::Plan;
use crate::shrunk::Shrunk;
use image::{generate, tangle, tangled, Image, Random};
use std::collections::BTreeMap;
use std::fmt;

/// How many images there were, and how often each of the sorts was met.
#[derive(Clone, Debug, Default)]
pub struct Tally {
    pub images: u64,
    pub sorts: BTreeMap<&'static str, u64>,
}

impl fmt::Display for Tally {
    fn fmt(&self, f: &mut fmt::Formatter) -> fmt::Result {
        write!(f, "{} images", self.images)?;
        self.sorts.iter().try_for_each(|(sort, count)| write!(f, "; {sort}: {count}"))
    }
}

/// A difference, and where it was met.
pub struct Failure {
    pub number: u64,
    pub shrunk: Shrunk<String>,
}

impl fmt::Display for Failure {
    fn fmt(&self, f: &mut fmt::Formatter) -> fmt::Result {
        writeln!(f, "DIFFERENCE at image {}, {} bytes", self.number, self.shrunk.image.len())?;
        write!(f, "{}", self.shrunk)
    }
}

/// Compares every image of the plan, or stops at the first difference.
pub fn run(fault: Option<Fault>, plan: &Plan) -> Result<Tally, Box<Failure>> {
    let mut tally = Tally::default();
    for number in plan.first..plan.first + plan.count {
        let mut random = Random::of_case(plan.seed, number);
        let image = image(&mut random).encode();
        let seed = random.next();
        assert!(reference::scratch_words(&image, 1).is_some(), "image {number} breaks a rule");
        tally.images += 1;
        match judge(&image, fault, seed) {
            Ok(met) => met.into_iter().for_each(|sort| *tally.sorts.entry(sort).or_default() += 1),
            Err(difference) => {
                let again = |image: &[u8]| reference::scratch_words(image, 1).and_then(|_| judge(image, fault, seed).err());
                return Err(Box::new(Failure { number, shrunk: Shrunk::new(image, difference, again) }));
            }
        }
    }
    Ok(tally)
}

/// A random image or one full of loops, most often changed.
fn image(random: &mut Random) -> Image {
    let mut image = if random.chance(25) {
        tangled(random)
    } else {
        let size = SizeChoice::Mixed.pick(random);
        generate(random.next(), size)
    };
    if random.chance(60) {
        tangle(random, &mut image);
    }
    image
}
