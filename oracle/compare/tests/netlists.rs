//! The comparison of netlists taken back in, tried on the oracle itself: two
//! checkers of different shape agree, every sort of wrong word is met often, and
//! each rule read wrongly is found.

use compare::netlists::places::{all_places, Hits};
use compare::netlists::run::run;
use compare::netlists::selftest::self_test;
use compare::netlists::stored::{read, stdout};
use compare::netlists::variants::Variant;
use compare::plan::Plan;

const PLAN: Plan = Plan { seed: 1, first: 0, count: 15_000 };

#[test]
fn both_checkers_agree_and_every_wrong_word_is_met() {
    driver::with_big_stack(|| {
        let tally = run(&Variant(None), &PLAN).unwrap_or_else(|failure| panic!("{failure}"));
        println!("{tally}\n{}", tally.hits);
        let hits = |place: &String| tally.hits.0.get(place).copied().unwrap_or(0);
        let few: Vec<(String, u64)> = all_places().into_iter().map(|place| (place.clone(), hits(&place))).filter(|(_, hits)| *hits < 3).collect();
        assert!(few.is_empty(), "hardly met: {few:?}");
        let unknown: Vec<&String> = tally.hits.0.keys().filter(|place| *place != "accepted" && !all_places().contains(place)).collect();
        assert!(unknown.is_empty(), "{unknown:?}");
        assert!(tally.accepted() > PLAN.count / 5, "{tally}");
    });
}

#[test]
fn each_rule_read_wrongly_is_found() {
    driver::with_big_stack(|| assert!(self_test(&PLAN)));
}

/// The stored slices are answered as stored, and name every place.
#[test]
fn the_stored_runs_name_every_wrong_word() {
    let file = |name: &str| {
        let path = std::path::Path::new(env!("CARGO_MANIFEST_DIR")).join("../../crates/netlist_runs").join(name);
        std::fs::read(&path).unwrap_or_else(|error| panic!("{}: {error}", path.display()))
    };
    let slices = read(&file("stdin")).unwrap();
    let answered: Vec<(Vec<u32>, [u32; 3])> = slices.iter().map(|slice| (slice.clone(), reference::netlist_answer(slice))).collect();
    assert!(stdout(&answered).as_bytes() == file("stdout"), "other answers than stored");
    let mut hits = Hits::default();
    answered.iter().for_each(|(slice, answer)| hits.count(slice, *answer));
    for place in all_places().into_iter().chain(["accepted".to_string()]) {
        assert!(hits.0.get(&place).copied().unwrap_or(0) >= 5, "{place}: {:?}", hits.0.get(&place));
    }
}
