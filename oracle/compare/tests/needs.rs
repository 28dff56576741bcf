//! struo's refusals 6 to 10 are what the rules say that they mean, every sort of
//! answer is met often, and each sentence read wrongly is found.

use compare::needs::judge::{judge, SORTS};
use compare::needs::run::run;
use compare::needs::selftest::self_test;
use compare::plan::Plan;
use image::{corpus, deepest};
use std::collections::BTreeSet;

const PLAN: Plan = Plan { seed: 1, first: 0, count: 3_000 };

#[test]
fn needed_bits_and_limits_are_those_of_the_rules() {
    driver::with_big_stack(|| {
        let tally = run(None, &PLAN).unwrap_or_else(|failure| panic!("{failure}"));
        println!("{tally}");
        assert_eq!(tally.sorts.keys().copied().collect::<BTreeSet<_>>(), BTreeSet::from(SORTS));
        assert!(tally.sorts.values().all(|&count| count > 10), "hardly met: {tally}");
    });
}

#[test]
fn each_sentence_read_wrongly_is_found() {
    driver::with_big_stack(|| assert!(self_test(&PLAN)));
}

#[test]
fn the_corpus_and_the_deepest_chain_are_answered_by_the_rules() {
    driver::with_big_stack(|| {
        let texts = corpus::texts(&corpus::folder()).unwrap();
        let checked = texts.iter().filter(|text| reference::scratch_words(&text.image, 1).is_some());
        let judged = checked.map(|text| judge(&text.image, None, 1).unwrap_or_else(|problem| panic!("{}: {problem}", text.name)));
        assert!(judged.count() > 100);
        judge(&deepest(32, 1_000).encode(), None, 1).unwrap();
    });
}
