//! Operations on a netlist, done by struo's own builder under limits.

use crate::limited::parts::{Build, port_name};
use crate::limited_ir::{LimitMet, Netlist};
use crate::module_image::{ModuleImage, Signal};
use crate::{Answer, limited};
use std::panic::{AssertUnwindSafe, catch_unwind, resume_unwind};

/// One operation, by its code. Words that name nets are taken modulo the nets
/// there are; where there is none, every operation but an input port makes a
/// constant. A width is 1 and the word modulo 1,024; operands of words are
/// stretches of a pool of words, which goes round.
///
/// 0 constant (value); 1 Not (net); 2 And, 3 Or, 4 Xor (net, net); 5 Mux (net,
/// net, net); 6 add, 7 subtract, 8 multiply (width, pool, pool); 9 add with
/// carry (width, pool, pool, net); 10 and 11 unsigned less than, or equal, 12
/// and 13 signed (width, pool, pool); 14 input port (width); 15 output port
/// (width, pool).
#[derive(Clone, Copy, Debug, Eq, PartialEq)]
pub struct Operation {
    pub code: u32,
    pub words: [u32; 4],
}

/// How a sequence of operations ended.
#[derive(Clone, Debug, Eq, PartialEq)]
pub struct Built {
    /// Nodes and records of the operations that were done.
    pub netlist: Answer,
    /// Each operation's net, or a digest of its nets.
    pub answers: Vec<u32>,
    /// 9 or 10 where the operation behind the last one done met a limit.
    pub refused: Option<u32>,
    /// Of the operations that were done, the muxes of two nets on a Not.
    pub turned: u64,
}

/// Does operations on an empty netlist of `n` nets and `p` list words at most,
/// up to the first that meets a limit.
#[must_use]
pub fn build(operations: &[Operation], pool: &[u32], n: u32, p: u32) -> Built {
    let (mut build, answers, refused) = run(operations, pool, n, p);
    if refused.is_some() {
        // The refused operation has left nodes without a record.
        (build, ..) = run(&operations[..answers.len()], pool, n, p);
    }
    Built {
        netlist: encode(&build.netlist),
        answers,
        refused,
        turned: build.turned,
    }
}

fn run(operations: &[Operation], pool: &[u32], n: u32, p: u32) -> (Build, Vec<u32>, Option<u32>) {
    let mut netlist = Netlist::new("t");
    netlist.set_limits(n, p as usize);
    let mut build = Build::new(netlist);
    let mut answers = Vec::with_capacity(operations.len());
    for operation in operations {
        match catch_unwind(AssertUnwindSafe(|| build.act(operation, pool))) {
            Ok(answer) => answers.push(answer),
            Err(payload) => match payload.downcast::<LimitMet>() {
                Ok(limit) => return (build, answers, Some(limit.0)),
                Err(payload) => resume_unwind(payload),
            },
        }
    }
    (build, answers, None)
}

fn encode(netlist: &Netlist) -> Answer {
    let order: Vec<usize> = netlist.pushed().iter().map(|&sort| sort as usize).collect();
    limited::inside::encode(&image_of_ports(netlist), netlist, &order)
}

/// An image that has a signal for each port.
fn image_of_ports(netlist: &Netlist) -> ModuleImage {
    let signals = netlist.ports().iter().enumerate();
    let signals = signals.map(|(number, port)| Signal {
        name: port_name(number),
        width: u32::try_from(port.bits().len()).expect("a port has few bits"),
        direction: 0,
    });
    ModuleImage {
        signals: signals.collect(),
        expressions: Vec::new(),
        list: Vec::new(),
        assignments: Vec::new(),
        registers: Vec::new(),
        memories: Vec::new(),
    }
}

/// One word for several.
pub fn digest(words: impl IntoIterator<Item = u32>) -> u32 {
    words.into_iter().fold(0u32, |hash, word| hash.wrapping_mul(2_654_435_761).wrapping_add(word))
}
