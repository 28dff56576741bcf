//! Runs the comparison over many images and stops at the first difference.

use crate::call::{compare, Difference, What};
use crate::cases::{case, Case, Origin, SizeChoice};
use crate::limits::{for_check, for_lower, Limits, Recipe, Taken};
use crate::scratch::Lent;
use crate::shrunk::Shrunk;
use crate::subject::Subject;
use crate::Answer;
use image::{Image, Random};
use std::fmt;

/// Which images are compared.
#[derive(Clone, Copy, Debug)]
pub struct Plan {
    pub seed: u64,
    pub first: u64,
    pub images: u64,
    pub size: SizeChoice,
}

/// What was compared: images, those in which only word widths of memories are
/// wrong, and calls by outcome (0 accepted, 1 to 10) and by the scratch that they
/// lend. Of lowered images the adders that are narrowed, and those that are by
/// the rows of Or and Xor.
#[derive(Clone, Debug, Default, PartialEq, Eq)]
pub struct Tally {
    pub images: u64,
    pub word_widths: u64,
    pub outcomes: [u64; 11],
    pub scratch: Lent,
    pub narrowed: u64,
    pub by_rows: u64,
}

impl Tally {
    pub(crate) fn count(&mut self, answer: Answer) {
        self.outcomes[answer[0] as usize] += 1;
    }

    /// An image that would pass 3 and 4 with the read data's widths.
    fn count_word_widths(&mut self, image: &[u8]) {
        let with_widths = with_word_widths(image);
        if with_widths != image && reference::scratch_words(&with_widths, 1).is_some() {
            self.word_widths += 1;
        }
    }

    /// Adders of an image that passes 3 and 4.
    fn count_adders(&mut self, image: &[u8]) {
        if reference::scratch_words(image, 1).is_some() {
            let (ranged, _) = driver::expressions(image, &[]).expect("struo builds the module");
            let adders = |is: fn(&driver::Ranged) -> bool| ranged.iter().filter(|row| is(row)).count() as u64;
            self.narrowed += adders(|row| row.adder_width.is_some());
            self.by_rows += adders(|row| row.by_rows);
        }
    }

    pub fn calls(&self) -> u64 {
        self.outcomes.iter().sum()
    }
}

impl fmt::Display for Tally {
    fn fmt(&self, f: &mut fmt::Formatter) -> fmt::Result {
        write!(f, "{} images, {} calls: accepted {}", self.images, self.calls(), self.outcomes[0])?;
        for (number, count) in self.outcomes.iter().enumerate().skip(1) {
            write!(f, ", refused {number}: {count}")?;
        }
        if self.scratch != Lent::default() {
            write!(f, "; {}", self.scratch)?;
        }
        if self.word_widths > 0 {
            write!(f, "; {} images wrong by a word width alone", self.word_widths)?;
        }
        if self.narrowed > 0 {
            write!(f, "; {} adders narrowed, {} of them by the rows of Or and Xor", self.narrowed, self.by_rows)?;
        }
        Ok(())
    }
}

/// A difference, and where it was met.
pub struct Failure {
    pub what: What,
    pub number: u64,
    pub origin: Origin,
    pub shrunk: Shrunk<Difference>,
}

impl fmt::Display for Failure {
    fn fmt(&self, f: &mut fmt::Formatter) -> fmt::Result {
        let Failure { what, number, origin, shrunk } = self;
        writeln!(f, "DIFFERENCE in {what:?} at image {number} ({origin}), {} bytes", shrunk.image.len())?;
        write!(f, "{shrunk}")
    }
}

/// Compares every image of the plan, or stops at the first difference.
pub fn run(subject: &dyn Subject, what: What, plan: &Plan) -> Result<Tally, Box<Failure>> {
    let mut tally = Tally::default();
    for number in plan.first..plan.first + plan.images {
        let mut random = Random::of_case(plan.seed, number);
        let case = case(&mut random, number, what, plan.size);
        let taken = taken(what, &case.image);
        tally.images += 1;
        tally.count_word_widths(&case.image);
        if what == What::Lower {
            tally.count_adders(&case.image);
        }
        for recipe in recipes(what, &case, &mut random) {
            let trial = Trial { subject, what, recipe, junk: random.next() };
            let limits = recipe.limits(&case.image, taken);
            let (answer, difference) = trial.compare(&case.image, &limits);
            tally.count(answer);
            tally.scratch.count(&case.image, &limits, answer);
            if let Some(difference) = difference {
                return Err(Box::new(trial.failure(number, case, difference)));
            }
        }
    }
    Ok(tally)
}

fn recipes(what: What, case: &Case, random: &mut Random) -> Vec<Recipe> {
    let mut recipes = match what {
        What::Check => for_check(random),
        What::Lower => for_lower(random),
    };
    // The walk does not begin on an image that is refused by 3 or 4.
    if what == What::Lower && reference::scratch_words(&case.image, 1).is_none() {
        recipes.drain(1..recipes.len() - 1);
    }
    recipes.extend(case.limits.as_ref().map(Recipe::given));
    recipes
}

/// The image with the read data's widths as word widths of its memories.
pub(crate) fn with_word_widths(image: &[u8]) -> Vec<u8> {
    let Some(mut decoded) = Image::decode(image) else { return image.to_vec() };
    decoded.set_word_widths();
    decoded.encode()
}

/// One way to call the subject, for the image found and those shrunk from it.
struct Trial<'a> {
    subject: &'a dyn Subject,
    what: What,
    recipe: Recipe,
    junk: u64,
}

impl Trial<'_> {
    fn compare(&self, image: &[u8], limits: &Limits) -> (Answer, Option<Difference>) {
        compare(self.subject, self.what, image, limits, self.junk)
    }

    fn difference(&self, image: &[u8]) -> Option<Difference> {
        let limits = self.recipe.limits(image, taken(self.what, image));
        self.compare(image, &limits).1
    }

    fn failure(&self, number: u64, case: Case, difference: Difference) -> Failure {
        let Case { image, origin, .. } = case;
        let shrunk = Shrunk::new(image, difference, |candidate| self.difference(candidate));
        Failure { what: self.what, number, origin, shrunk }
    }
}

/// What the limits go by. The checks do not lower, so they have nothing.
fn taken(what: What, image: &[u8]) -> Taken {
    match what {
        What::Check => Taken::NOTHING,
        What::Lower => Taken::by(image),
    }
}
