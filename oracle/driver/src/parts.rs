//! Second child module of each copy of struo's lowering: runs parts of it alone,
//! the fusion test on expressions and the netlist builder on operations.

use super::word_cells::WordCells;
use super::{ArithmeticOp, ComparisonOp, Lowering, NetId, Netlist, NodeKind};
use crate::building::{Operation, digest};
use std::num::NonZeroU32;
use struo_rtl::{ExprId, Module};

/// `ranges::adder_widths`.
pub(crate) fn adder_widths(module: &Module) -> Vec<Option<usize>> {
    super::ranges::adder_widths(module)
}

/// A lowering whose sources are reserved, to ask about expressions.
pub(crate) struct Asked<'a> {
    lowering: Lowering<'a>,
}

impl<'a> Asked<'a> {
    pub(crate) fn new(module: &'a Module) -> Self {
        let mut lowering = Lowering::new(module);
        lowering.reserve_sources();
        lowering.index_assignments();
        Self { lowering }
    }

    fn id(&self, number: u32) -> ExprId {
        self.lowering.module.expressions()[number as usize].id()
    }

    pub(crate) fn is_zero(&self, number: u32) -> bool {
        self.lowering.is_zero_expression(self.id(number))
    }

    pub(crate) fn carry(&self, number: u32) -> Option<u32> {
        let carry = self.lowering.carry_lsb(self.id(number))?;
        Some(carry.index())
    }

    /// The operands and the carry that an Add of two expressions is fused to.
    /// `lower_add_with_carry` itself answers whether there are any; what it
    /// makes of them must be the cell of those named here.
    pub(crate) fn fusion(&mut self, lhs: u32, rhs: u32) -> Option<[u32; 3]> {
        let (lhs, rhs) = (self.id(lhs), self.id(rhs));
        let named = self.side(lhs, rhs).or_else(|| self.side(rhs, lhs));
        match self.lowering.lower_add_with_carry(lhs, rhs, None) {
            Ok(None) => assert_eq!(named, None, "nothing is fused"),
            Ok(Some(bits)) => {
                let named = named.expect("something is fused");
                let nets = self.lowering.netlist.nodes().len();
                assert_eq!(bits, self.cell(named), "another cell is made");
                assert_eq!(nets, self.lowering.netlist.nodes().len(), "a cell is new");
            }
            Err(_) => assert!(named.is_some(), "operands of a fusion were lowered"),
        }
        named.map(|expressions| expressions.map(ExprId::index))
    }

    fn side(&self, inner: ExprId, other: ExprId) -> Option<[ExprId; 3]> {
        let (lhs, rhs) = self.lowering.add_operands(inner)?;
        let carry = self.lowering.carry_lsb(other)?;
        Some([lhs, rhs, carry])
    }

    fn cell(&mut self, expressions: [ExprId; 3]) -> Vec<NetId> {
        let lowering = &mut self.lowering;
        let [lhs, rhs, carry] =
            expressions.map(|id| lowering.lower_expression(id).expect("lowered before"));
        lowering.word_cells.arithmetic(
            &mut lowering.netlist,
            ArithmeticOp::Add,
            &lhs,
            &rhs,
            Some(carry[0]),
        )
    }
}

/// A netlist in the making, and its word cells.
pub(crate) struct Build {
    pub(crate) netlist: Netlist,
    cells: WordCells,
    /// Muxes of two nets on a Not.
    pub(crate) turned: u64,
}

impl Build {
    pub(crate) fn new(netlist: Netlist) -> Self {
        Self {
            netlist,
            cells: WordCells::default(),
            turned: 0,
        }
    }

    /// Does an operation; its answer is a net, or a digest of nets.
    pub(crate) fn act(&mut self, operation: &Operation, pool: &[u32]) -> u32 {
        let &Operation { code, words } = operation;
        let [a, b, c, d] = words;
        let width = 1 + a % 1_024;
        match code {
            14 => self.input(width),
            _ if self.netlist.nodes().is_empty() => self.netlist.add_constant(a % 2 == 1).index(),
            0 => self.netlist.add_constant(a % 2 == 1).index(),
            1..=5 => self.gate(code, a, b, c).index(),
            6..=8 => self.arithmetic(code, self.nets(pool, b, width), self.nets(pool, c, width), None),
            9 => self.arithmetic(code, self.nets(pool, b, width), self.nets(pool, c, width), Some(self.net(d))),
            10..=13 => self.comparison(code, &self.nets(pool, b, width), &self.nets(pool, c, width)),
            _ => self.output(&self.nets(pool, b, width)),
        }
    }

    /// A net of those made so far.
    fn net(&self, word: u32) -> NetId {
        let nodes = self.netlist.nodes();
        nodes[word as usize % nodes.len()].output()
    }

    fn nets(&self, pool: &[u32], start: u32, width: u32) -> Vec<NetId> {
        let word = |bit: u32| match pool {
            [] => 0,
            _ => pool[(start as usize + bit as usize) % pool.len()],
        };
        (0..width).map(|bit| self.net(word(bit))).collect()
    }

    fn gate(&mut self, code: u32, a: u32, b: u32, c: u32) -> NetId {
        let [a, b, c] = [a, b, c].map(|word| self.net(word));
        match code {
            1 => self.netlist.add_not(a),
            2 => self.netlist.add_and(a, b),
            3 => self.netlist.add_or(a, b),
            4 => self.netlist.add_xor(a, b),
            _ => {
                self.turned += u64::from(b != c && self.is_not(a));
                self.netlist.add_mux(a, b, c)
            }
        }
    }

    fn is_not(&self, net: NetId) -> bool {
        matches!(self.netlist.nodes()[net.index() as usize].kind(), NodeKind::Not)
    }

    fn arithmetic(&mut self, code: u32, lhs: Vec<NetId>, rhs: Vec<NetId>, carry: Option<NetId>) -> u32 {
        let operation = match code {
            7 => ArithmeticOp::Subtract,
            8 => ArithmeticOp::Multiply,
            _ => ArithmeticOp::Add,
        };
        let outputs = self.cells.arithmetic(&mut self.netlist, operation, &lhs, &rhs, carry);
        digest(outputs.into_iter().map(NetId::index))
    }

    fn comparison(&mut self, code: u32, lhs: &[NetId], rhs: &[NetId]) -> u32 {
        let operation = match code {
            10 => ComparisonOp::LessThanUnsigned,
            11 => ComparisonOp::LessOrEqualUnsigned,
            12 => ComparisonOp::LessThanSigned,
            _ => ComparisonOp::LessOrEqualSigned,
        };
        self.cells.comparison(&mut self.netlist, operation, lhs, rhs).index()
    }

    fn input(&mut self, width: u32) -> u32 {
        let name = port_name(self.netlist.ports().len());
        let width = NonZeroU32::new(width).expect("a width is not 0");
        self.netlist.add_input_port(name, width)[0].index()
    }

    fn output(&mut self, nets: &[NetId]) -> u32 {
        let name = port_name(self.netlist.ports().len());
        let bits = self.netlist.add_output_port(name, nets);
        bits.expect("a port has bits")[0].index()
    }
}

/// The name of the signal that port number so and so stands for.
pub(crate) fn port_name(number: usize) -> String {
    format!("p{number}")
}
