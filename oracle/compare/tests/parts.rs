//! The comparison of parts, tried on struo itself: without a fault it passes,
//! and each fault is found and shrunk.

use compare::parts::{BuildPlan, Parts};
use compare::plan::Plan;
use compare::{builds, tables};
use image::{kind, Image, ABSENT};

const OR: u32 = 1;
const XOR: u32 = 2;

/// A fault put into what struo answers.
#[derive(Clone, Copy, Debug, PartialEq, Eq)]
enum Fault {
    Nothing,
    /// A sum of the full range is narrowed.
    RangeOneShort,
    /// The upper half of a least number is lost.
    LowHalfOnly,
    /// An Or has the full range, as in struo's own rows.
    OrFull,
    /// An Xor's maximum is the larger of the operands', without ones below.
    XorNotFilled,
    /// The fusion is not tried on the right.
    LeftOnly,
    /// Zeros are carries.
    ZeroCarries,
    /// A word behind the table is written.
    Beyond,
    /// The inputs of an Xor are exchanged.
    PairExchanged,
    /// A comparison output's bit is absent.
    BitAbsent,
    /// 9 where 10 is due.
    OtherRefusal,
    /// A netlist that just fits is refused.
    EarlyRefusal,
}

struct Struo(Fault);

fn set_most(row: &mut [u32], most: Option<u64>) {
    let most = most.unwrap_or(0);
    row[4..6].copy_from_slice(&[most as u32, (most >> 32) as u32]);
}

impl Parts for Struo {
    fn adder_widths(&self, image: &[u8], table: &mut [u32]) -> bool {
        let (ranged, _) = driver::expressions(image, &[]).expect("the image is right");
        let image = Image::decode(image).expect("the image is right");
        tables::fill_table(&image, &ranged, table);
        let most = |number: u32| ranged[number as usize].range.map(|(_, max)| max);
        for (row, fields) in table.chunks_mut(tables::ROW).zip(&image.expressions) {
            match (self.0, fields) {
                (Fault::RangeOneShort, _) if row[4] == 255 && row[5] == 0 => row[4] = 254,
                (Fault::LowHalfOnly, _) => row[3] = 0,
                (Fault::OrFull, &[kind::BINARY, width, OR, ..]) if width <= 64 => set_most(row, Some(u64::MAX >> (64 - width))),
                (Fault::XorNotFilled, &[kind::BINARY, _, XOR, lhs, rhs]) => set_most(row, most(lhs).max(most(rhs))),
                (Fault::Beyond, _) if row[6] == 63 => row[7] = 0,
                _ => {}
            }
        }
        true
    }

    fn fusion(&self, image: &[u8], pairs: &[[u32; 2]], rows: &mut [u32]) -> bool {
        let (_, fused) = driver::expressions(image, pairs).expect("the image is right");
        for (row, (pair, fused)) in rows.chunks_mut(tables::ROW).zip(pairs.iter().zip(&fused)) {
            row.copy_from_slice(&tables::fusion_row(*pair, fused));
            match self.0 {
                Fault::LeftOnly if row[2] != ABSENT && row[2] >= pair[0] => row[2] = ABSENT,
                Fault::ZeroCarries if row[0] == 1 => row[1] = pair[0],
                _ => {}
            }
        }
        true
    }

    fn build(&self, plan: &BuildPlan, netlist: &mut [u32], _: &mut [u32], answers: &mut [u32]) -> [u64; 2] {
        let p = netlist.len() as u32 - 16 - 6 * plan.n;
        let built = builds::built(&plan.operations[..plan.turns], plan.pool, plan.n, p);
        answers[..built.answers.len()].copy_from_slice(&built.answers);
        netlist.copy_from_slice(&driver::words(&built.netlist, plan.n, p));
        let nets = netlist[1];
        for node in netlist[16..16 + 6 * nets as usize].chunks_mut(6) {
            match self.0 {
                Fault::PairExchanged if node[0] == 4 => node.swap(3, 4),
                Fault::BitAbsent if node[0] == 11 => node[2] = ABSENT,
                _ => {}
            }
        }
        match (self.0, built.refused) {
            (Fault::OtherRefusal, Some(10)) => [9, built.answers.len() as u64],
            (Fault::EarlyRefusal, None) if nets == plan.n => [9, built.answers.len() as u64 - 1],
            (_, None) => [0, 0],
            (_, Some(number)) => [u64::from(number), built.answers.len() as u64],
        }
    }
}

const TABLES: Plan = Plan { seed: 1, first: 0, count: 3_000 };
const BUILDS: Plan = Plan { seed: 1, first: 0, count: 60_000 };

#[test]
fn struo_agrees_with_itself() {
    let tally = tables::run(&Struo(Fault::Nothing), &TABLES).map_err(|failure| failure.to_string()).unwrap();
    assert!(tally.narrowed > 500 && tally.by_rows > 300 && tally.fused > 1_000 && tally.zeros > 1_000 && tally.wide > 1_000, "{tally}");
    let tally = builds::run(&Struo(Fault::Nothing), &BUILDS).map_err(|failure| failure.to_string()).unwrap();
    assert!(tally.by_code.iter().all(|&count| count > 300), "{tally}");
    assert!(tally.refused_9 > 50 && tally.refused_10 > 50, "{tally}");
}

#[test]
fn faults_in_tables_are_found_and_shrunk() {
    let faults = [
        Fault::RangeOneShort,
        Fault::LowHalfOnly,
        Fault::OrFull,
        Fault::XorNotFilled,
        Fault::LeftOnly,
        Fault::ZeroCarries,
        Fault::Beyond,
    ];
    for fault in faults {
        let failure = tables::run(&Struo(fault), &TABLES).err().unwrap_or_else(|| panic!("{fault:?} is not found"));
        let small = Image::decode(&failure.shrunk.small).expect("the smallest image is right");
        assert!(small.expressions.len() <= 12, "{fault:?}: {failure}");
    }
}

#[test]
fn faults_in_builds_are_found_and_shrunk() {
    for fault in [Fault::PairExchanged, Fault::BitAbsent, Fault::OtherRefusal, Fault::EarlyRefusal] {
        let failure = builds::run(&Struo(fault), &BUILDS).err().unwrap_or_else(|| panic!("{fault:?} is not found"));
        assert!(failure.small.operations.len() <= 5, "{fault:?}: {failure}");
    }
}
