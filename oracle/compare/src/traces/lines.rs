//! Traces for a netlist: settings in which clocks make many edges, resets come and
//! go, and other inputs change now and then.

use image::netlist::{Netlist, Node};
use image::Random;
use std::collections::{BTreeMap, BTreeSet};

/// The inputs of a netlist in the order of a trace.
pub struct Inputs {
    /// How each bit is chosen.
    bits: Vec<Role>,
}

#[derive(Clone, Copy)]
enum Role {
    Clock,
    /// A reset, and whether it acts when low.
    Reset(bool),
    Other,
}

impl Inputs {
    pub fn of(netlist: &Netlist) -> Inputs {
        let ports = netlist.memories.iter().flat_map(|memory| &memory.ports);
        let clocks: BTreeSet<u32> = netlist.registers.iter().map(|record| record.clock).chain(ports.map(|port| port.clock)).collect();
        let resets = netlist.registers.iter().filter_map(|record| record.reset);
        let resets: BTreeMap<u32, bool> = resets.map(|reset| (reset.net, reset.low)).collect();
        let role = |net: u32| match (clocks.contains(&net), resets.get(&net)) {
            (true, _) => Role::Clock,
            (false, Some(&low)) => Role::Reset(low),
            _ => Role::Other,
        };
        let nets = netlist.ports.iter().flat_map(|port| &port.nets);
        let is_input = |net: &&u32| matches!(netlist.nodes[**net as usize], Node::Input { .. });
        Inputs { bits: nets.filter(is_input).map(|&net| role(net)).collect() }
    }

    pub fn count(&self) -> usize {
        self.bits.len()
    }

    /// Lines of a trace, each with its end.
    pub fn lines(&self, random: &mut Random, count: usize) -> Vec<Vec<u8>> {
        let manner = random.below(5);
        let mut setting: Vec<bool> = (0..self.count()).map(|_| random.chance(30)).collect();
        let mut lines = Vec::new();
        for _ in 0..count {
            lines.push(line(&setting));
            match manner {
                0 => setting.fill_with(|| random.flag()),
                1 if self.count() > 0 => {
                    let bit = random.below(self.count());
                    setting[bit] = !setting[bit];
                }
                2 if random.chance(50) => setting.iter_mut().zip(&self.bits).for_each(|(bit, role)| *bit ^= matches!(role, Role::Clock)),
                _ => setting.iter_mut().zip(&self.bits).for_each(|(bit, role)| *bit = next(random, *bit, *role)),
            }
        }
        lines
    }

    /// Lines in which much moves: every clock changes with each, other inputs in half
    /// of them, resets act in one of a hundred.
    pub fn busy_lines(&self, random: &mut Random, count: usize) -> Vec<Vec<u8>> {
        let next = |random: &mut Random, role: &Role, number: usize| match *role {
            Role::Clock => number % 2 == 1,
            Role::Reset(low) => random.chance(1) != low,
            Role::Other => random.flag(),
        };
        (0..count).map(|number| line(&self.bits.iter().map(|role| next(random, role, number)).collect::<Vec<bool>>())).collect()
    }
}

fn next(random: &mut Random, bit: bool, role: Role) -> bool {
    match role {
        Role::Clock => bit ^ random.chance(75),
        Role::Reset(low) => random.chance(15) != low,
        Role::Other => bit ^ random.chance(35),
    }
}

/// The line of a setting.
pub fn line(setting: &[bool]) -> Vec<u8> {
    setting.iter().map(|&bit| if bit { b'1' } else { b'0' }).chain([b'\n']).collect()
}
