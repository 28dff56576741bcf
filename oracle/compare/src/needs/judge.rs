//! struo's answers for an image, judged by the reading of needed bits and by what
//! the limits count.

use super::reading::{Graph, Owner, Reading};
use super::selftest::Fault;
use driver::Answer;
use image::{Image, Random, ABSENT};

/// What can be met, in an image and in its calls with limits.
pub const SORTS: [&str; 14] = [
    "accepted",
    "accepted, a bit that nothing needs is undriven",
    "accepted, a bit that nothing needs needs itself",
    "refused 6",
    "refused 6, a needed bit needs itself",
    "refused 7",
    "refused 7, a needed bit is undriven",
    "refused 8",
    "refused 8, a needed bit is undriven or needs itself",
    "limits exact or larger: accepted",
    "N too small: 9",
    "P too small: 10",
    "N and P too small: 9",
    "N and P too small: 10",
];

/// Judges struo's answers for an image that passes checks 3 and 4: what was met, or
/// what is wrong.
pub fn judge(bytes: &[u8], fault: Option<Fault>, seed: u64) -> Result<Vec<&'static str>, String> {
    let image = Image::decode(bytes).ok_or("no module image")?;
    let reading = Reading::of(&Graph::new(&image, fault));
    let answer = driver::lower(bytes, false);
    match &answer {
        Answer::Netlist { nodes, records } => {
            let made = [nodes.len() as u32, records.iter().map(Vec::len).sum::<usize>() as u32];
            let mut met = accepted(&reading)?;
            for limits in limits(made, &mut Random::new(seed)) {
                met.push(limited(bytes, fault, made, limits, &answer)?);
            }
            Ok(met)
        }
        Answer::Refused(refusal) => refused(&image, &reading, *refusal).map_err(|problem| format!("refused {refusal:?}: {problem}")),
        Answer::Crash(text) => Err(format!("struo crashed: {text}")),
    }
}

/// No needed bit is undriven, and none needs itself.
fn accepted(reading: &Reading) -> Result<Vec<&'static str>, String> {
    if let Some(start) = reading.first_fault() {
        return Err(format!("accepted: {:?} needs a bit that is undriven or needs itself", reading.owners[start]));
    }
    let mut met = vec!["accepted"];
    if !reading.undriven.is_empty() {
        met.push("accepted, a bit that nothing needs is undriven");
    }
    if !reading.looping.is_empty() {
        met.push("accepted, a bit that nothing needs needs itself");
    }
    Ok(met)
}

/// 6 and 7 name a needed bit of their sort, one that the first start needs which needs
/// a bit of either sort. 8 names a bit of a reset value, and comes before that start.
fn refused(image: &Image, reading: &Reading, [number, first, second]: [u32; 3]) -> Result<Vec<&'static str>, String> {
    let demand = |holds: bool, problem: &str| if holds { Ok(()) } else { Err(problem.to_string()) };
    let start = reading.first_fault();
    let bit = (first, second);
    if number == 8 {
        let register = image.registers.get(first as usize).filter(|register| register[8] != ABSENT);
        demand(register.is_some_and(|register| second < image.signals[register[2] as usize][2]), "no such bit of a reset value")?;
        let last = reading.owners.iter().rposition(|&owner| owner == Owner::Register(first));
        demand(start.is_none_or(|start| last < Some(start)), "a bit that is undriven or needs itself comes first")?;
    } else {
        demand(number == 6 || number == 7, "no limit is set")?;
        demand(reading.needed.contains_key(&bit), "the bit is not needed")?;
        demand(number == 7 || reading.undriven.contains(&bit), "the bit has a driver")?;
        demand(number == 6 || reading.looping.contains(&bit), "the bit does not need itself")?;
        demand(reading.needed.get(&bit).copied() == start, "another bit comes first")?;
    }
    let [undriven, looping] = [&reading.undriven, &reading.looping].map(|bits| bits.iter().any(|bit| reading.needed.contains_key(bit)));
    Ok(match number {
        6 if looping => vec!["refused 6", "refused 6, a needed bit needs itself"],
        6 => vec!["refused 6"],
        7 if undriven => vec!["refused 7", "refused 7, a needed bit is undriven"],
        7 => vec!["refused 7"],
        _ if start.is_some() => vec!["refused 8", "refused 8, a needed bit is undriven or needs itself"],
        _ => vec!["refused 8"],
    })
}

/// Limits around the nets and list words that are made: exact, larger, one or both
/// too small, by one or by more.
fn limits([nets, words]: [u32; 2], random: &mut Random) -> Vec<[u32; 2]> {
    let mut limits = vec![[nets, words], [nets + random.range(0, 40), words + random.range(0, 40)]];
    if nets > 0 && words > 0 {
        let [fewer_nets, fewer_words] = [nets, words].map(|made| random.range(0, made - 1));
        limits.extend([[nets - 1, words], [nets, words - 1], [fewer_nets, words], [nets, fewer_words], [fewer_nets, fewer_words]]);
    }
    limits
}

/// "N is the most nets that may be made, P is the most list words that may be used;
/// exactly N and exactly P are allowed. They do not change which nets and records are
/// made up to the limit."
fn limited(bytes: &[u8], fault: Option<Fault>, made: [u32; 2], limits: [u32; 2], unlimited: &Answer) -> Result<&'static str, String> {
    let answer = driver::lower_limited(bytes, limits[0], limits[1], false);
    let excluded = [Fault::NetLimitExcluded, Fault::ListLimitExcluded].map(|excluded| fault == Some(excluded));
    let enough = [0, 1].map(|limit| made[limit] + u32::from(excluded[limit]) <= limits[limit]);
    match (enough, &answer) {
        ([true, true], Answer::Netlist { .. }) if &answer == unlimited => Ok("limits exact or larger: accepted"),
        ([false, true], Answer::Refused([9, 0, 0])) => Ok("N too small: 9"),
        ([true, false], Answer::Refused([10, 0, 0])) => Ok("P too small: 10"),
        ([false, false], Answer::Refused([9, 0, 0])) => Ok("N and P too small: 9"),
        ([false, false], Answer::Refused([10, 0, 0])) => Ok("N and P too small: 10"),
        (_, Answer::Netlist { nodes, .. }) => Err(format!("{made:?} nets and list words, limits {limits:?}: accepted, {} nets", nodes.len())),
        (_, other) => Err(format!("{made:?} nets and list words, limits {limits:?}: {other:?}")),
    }
}
