//! Child module of each copy of struo's lowering, so that it may use the private
//! `Lowering`. It runs the lowering and encodes its netlist as nodes and
//! records of the netlist image (docs/FORMATS.md). Compiled once in each copy, on that copy's own types.

use super::{
    ActiveLevel, EnableControl, IrClockEdge, IrMemoryPort, Lowering, MemoryCell, NetId, Netlist,
    NodeKind, RegisterCell, SynthesisError,
};
use crate::module_image::ModuleImage;
use crate::{ABSENT, Answer, rtl};
use image::bit_name;
use struo_rtl::Module;

// Sorts of records, by their first word.
const PORT: usize = 0;
const REGISTER: usize = 1;
const MEMORY: usize = 2;
const ARITHMETIC: usize = 3;
const COMPARISON: usize = 4;

/// Lowers an image without limits.
pub(crate) fn lower(image: &[u8], observable: bool) -> Result<Answer, String> {
    let image = ModuleImage::decode(image)?;
    let module = rtl::module(&image)?;
    match run(&module, observable, |_| ()) {
        Ok(netlist) => {
            let stateless = rtl::stateless_module(&image)?;
            let order = record_order(&module, &stateless, observable, &netlist);
            Ok(encode(&image, &netlist, &order))
        }
        Err(error) => refusal(&image, &error).map(Answer::Refused),
    }
}

/// `Lowering::lower`; `prepare` sees the netlist while it is empty.
pub(crate) fn run(
    module: &Module,
    observable: bool,
    prepare: impl FnOnce(&mut Netlist),
) -> Result<Netlist, SynthesisError> {
    let mut lowering = Lowering::new(module);
    lowering.resolve_observable_dependencies = observable;
    prepare(&mut lowering.netlist);
    lowering.lower()
}

/// The refusal that one of the lowering's errors stands for.
pub(crate) fn refusal(image: &ModuleImage, error: &SynthesisError) -> Result<[u32; 3], String> {
    let signal = |name: &str| position(image.signals.iter().map(|s| &s.name), name);
    let register = |name: &str| position(image.registers.iter().map(|r| &r.name), name);
    match error {
        SynthesisError::UndrivenSignalBit { signal: name, bit } => {
            Ok([6, signal(name), number(*bit)])
        }
        SynthesisError::CombinationalLoop { signal: name, bit } => {
            Ok([7, signal(name), number(*bit)])
        }
        SynthesisError::NonConstantReset {
            register: name,
            bit,
        } => Ok([8, register(name), number(*bit)]),
        other => Err(other.to_string()),
    }
}

/// The sorts of all records in the order the lowering pushes them.
///
/// The netlist keeps one vector for each sort. So the same private functions
/// are run once more on one `Lowering`, but memory by memory and register by
/// register: for each, the lowering is handed a module that holds only that
/// one. Cells of a step come before its memory or register records, since
/// nothing is lowered after the first of them; cells and ports lie in the order
/// of their own nodes. The outcome must equal `expected`.
pub(crate) fn record_order(
    module: &Module,
    stateless: &Module,
    observable: bool,
    expected: &Netlist,
) -> Vec<usize> {
    let memories = single_memory_modules(module, stateless);
    let registers = single_register_modules(module, stateless);
    let mut lowering = Lowering::new(module);
    lowering.resolve_observable_dependencies = observable;
    let mut order = RecordOrder::default();

    lowering.reserve_sources();
    lowering.index_assignments();
    order.extend(&lowering.netlist);
    for single in &memories {
        lowering.module = single;
        lowering.connect_memories().expect("accepted before");
        order.extend(&lowering.netlist);
    }
    for single in &registers {
        lowering.module = single;
        lowering.connect_registers().expect("accepted before");
        order.extend(&lowering.netlist);
    }
    lowering.module = module;
    lowering.connect_outputs().expect("accepted before");
    order.extend(&lowering.netlist);

    assert!(
        lowering.netlist == *expected,
        "the run in steps gives another netlist"
    );
    order.sorts
}

fn single_memory_modules(module: &Module, stateless: &Module) -> Vec<Module> {
    let single = |memory: &struo_rtl::Memory| {
        let mut single = stateless.clone();
        single.add_memory(memory.clone());
        single
    };
    module.memories().iter().map(single).collect()
}

fn single_register_modules(module: &Module, stateless: &Module) -> Vec<Module> {
    let single = |register: &struo_rtl::Register| {
        let mut single = stateless.clone();
        single.add_register(register.clone()).expect("added before");
        single
    };
    module.registers().iter().map(single).collect()
}

/// The order so far, and how many records of each sort it holds.
#[derive(Default)]
struct RecordOrder {
    sorts: Vec<usize>,
    counts: [usize; 5],
}

impl RecordOrder {
    /// Appends the records that were pushed since the last call.
    fn extend(&mut self, netlist: &Netlist) {
        let ports = netlist.ports()[self.counts[PORT]..].iter();
        let arithmetic = netlist.arithmetic()[self.counts[ARITHMETIC]..].iter();
        let comparisons = netlist.comparisons()[self.counts[COMPARISON]..].iter();
        let mut with_nodes: Vec<(NetId, usize)> = Vec::new();
        with_nodes.extend(ports.map(|port| (port.bits()[0], PORT)));
        with_nodes.extend(arithmetic.map(|cell| (cell.outputs()[0], ARITHMETIC)));
        with_nodes.extend(comparisons.map(|cell| (cell.output(), COMPARISON)));
        with_nodes.sort_unstable();
        for (_, sort) in with_nodes {
            self.append(sort);
        }
        for _ in self.counts[MEMORY]..netlist.memories().len() {
            self.append(MEMORY);
        }
        for _ in self.counts[REGISTER]..netlist.registers().len() {
            self.append(REGISTER);
        }
    }

    fn append(&mut self, sort: usize) {
        self.sorts.push(sort);
        self.counts[sort] += 1;
    }
}

/// The netlist's nodes and records in the form of docs/FORMATS.md.
pub(crate) fn encode(image: &ModuleImage, netlist: &Netlist, order: &[usize]) -> Answer {
    Answer::Netlist {
        nodes: nodes(image, netlist),
        records: records(image, netlist, order),
    }
}

/// What a named node belongs to. The name is the one struo must have given it.
#[derive(Clone)]
struct Owner {
    index: u32,
    bit: u32,
    name: String,
}

/// The owner of each net that has one, from the records, in record order.
fn owners(image: &ModuleImage, netlist: &Netlist) -> Vec<Option<Owner>> {
    let mut owners = vec![None; netlist.nodes().len()];
    let mut own = |net: NetId, index: u32, bit: u32, name: String| {
        let place: &mut Option<Owner> = &mut owners[net.index() as usize];
        assert!(place.is_none(), "net {net} has two owners");
        *place = Some(Owner { index, bit, name });
    };
    for port in netlist.ports() {
        let signal = signal_of(image, port.name());
        for (bit, &net) in (0..).zip(port.bits()) {
            own(net, signal, bit, image.signal_bit_name(signal, bit));
        }
    }
    for (cell, (register, bit)) in netlist.registers().iter().zip(image.register_bits()) {
        own(cell.output(), register, bit, image.register_bit_name(register, bit));
    }
    for (memory, cell) in (0..).zip(netlist.memories()) {
        let second = cell.second_port().map_or(&[][..], IrMemoryPort::read_data);
        for (bit, &net) in (0..).zip(cell.read_data().iter().chain(second)) {
            own(net, memory, bit, image.read_data_bit_name(memory, bit));
        }
    }
    for (index, cell) in (0..).zip(netlist.arithmetic()) {
        let width = number(cell.outputs().len());
        for (bit, &net) in (0..).zip(cell.outputs()) {
            own(net, index, bit, bit_name(&format!("arith{index}"), width, bit));
        }
    }
    for (index, cell) in (0..).zip(netlist.comparisons()) {
        own(cell.output(), index, 0, format!("compare{index}"));
    }
    owners
}

fn nodes(image: &ModuleImage, netlist: &Netlist) -> Vec<[u32; 6]> {
    let owners = owners(image, netlist);
    let nodes = netlist.nodes().iter().zip(owners);
    nodes
        .map(|(node, owner)| {
            let (kind, owner, bit) = match node.kind() {
                NodeKind::Input(name) => owned(0, owner, name),
                NodeKind::Constant(value) => (1, u32::from(*value), ABSENT),
                NodeKind::And => (2, ABSENT, ABSENT),
                NodeKind::Or => (3, ABSENT, ABSENT),
                NodeKind::Xor => (4, ABSENT, ABSENT),
                NodeKind::Not => (5, ABSENT, ABSENT),
                NodeKind::Mux => (6, ABSENT, ABSENT),
                NodeKind::RegisterOutput(name) => owned(7, owner, name),
                NodeKind::Output(name) => owned(8, owner, name),
                NodeKind::MemoryOutput(name) => owned(9, owner, name),
                NodeKind::ArithmeticOutput(name) => owned(10, owner, name),
                NodeKind::ComparisonOutput(name) => owned(11, owner, name),
            };
            let input = |place: usize| node.inputs().get(place).map_or(ABSENT, |net| net.index());
            [kind, owner, bit, input(0), input(1), input(2)]
        })
        .collect()
}

fn owned(kind: u32, owner: Option<Owner>, name: &str) -> (u32, u32, u32) {
    let owner = owner.unwrap_or_else(|| panic!("node `{name}` is in no record"));
    assert_eq!(owner.name, name, "a node has another name than its owner");
    (kind, owner.index, owner.bit)
}

fn records(image: &ModuleImage, netlist: &Netlist, order: &[usize]) -> Vec<Vec<u32>> {
    let registers = netlist.registers().iter().zip(image.register_bits());
    let memories = (0..).zip(netlist.memories());
    let of_sort: [Vec<Vec<u32>>; 5] = [
        netlist
            .ports()
            .iter()
            .map(|port| port_record(image, port.name(), port.bits()))
            .collect(),
        registers
            .map(|(cell, place)| register_record(cell, place))
            .collect(),
        memories
            .map(|(index, cell)| memory_record(index, cell))
            .collect(),
        arithmetic_records(netlist),
        comparison_records(netlist),
    ];
    let mut remaining = of_sort.map(Vec::into_iter);
    let next = |&sort: &usize| remaining[sort].next().expect("a record for each place");
    let records = order.iter().map(next).collect();
    assert!(
        remaining.iter().all(|rest| rest.len() == 0),
        "a place for each record"
    );
    records
}

fn port_record(image: &ModuleImage, name: &str, bits: &[NetId]) -> Vec<u32> {
    let mut record = vec![0, signal_of(image, name), number(bits.len())];
    record.extend(indices(bits));
    record
}

fn register_record(cell: &RegisterCell, (register, bit): (u32, u32)) -> Vec<u32> {
    let mut record = vec![1, register, bit];
    record.extend([cell.output(), cell.data(), cell.clock()].map(NetId::index));
    record.push(edge(cell.edge()));
    record.extend(control(cell.enable()));
    record.extend(cell.reset().map_or([ABSENT, 0, 0, 0], |reset| {
        let (asynchronous, value) = (u32::from(reset.asynchronous), u32::from(reset.value));
        [
            reset.signal.index(),
            level(reset.active),
            asynchronous,
            value,
        ]
    }));
    record
}

fn memory_record(index: u32, cell: &MemoryCell) -> Vec<u32> {
    let first = IrMemoryPort::new(
        cell.read_address().to_vec(),
        cell.read_data().to_vec(),
        cell.read_enable(),
        cell.write_address().to_vec(),
        cell.write_data().to_vec(),
        cell.write_enable(),
        cell.clock(),
        cell.edge(),
    );
    let latency = u32::from(cell.read_latency());
    let ports = 1 + u32::from(cell.second_port().is_some());
    let mut record = vec![2, index, cell.depth(), cell.style() as u32, latency, ports];
    for port in std::iter::once(&first).chain(cell.second_port()) {
        let lists = [
            port.read_address(),
            port.read_data(),
            port.write_address(),
            port.write_data(),
        ];
        record.extend(lists.map(|nets| number(nets.len())));
        record.extend(lists.into_iter().flat_map(indices));
        record.extend(control(port.read_enable()));
        record.extend(control(Some(port.write_enable())));
        record.extend([port.clock().index(), edge(port.edge())]);
    }
    record
}

fn arithmetic_records(netlist: &Netlist) -> Vec<Vec<u32>> {
    let cells = netlist.arithmetic().iter();
    cells
        .map(|cell| {
            let carry = cell.carry_in().map_or(ABSENT, NetId::index);
            let mut record = vec![3, cell.operation() as u32, number(cell.lhs().len()), carry];
            record.extend(
                [cell.lhs(), cell.rhs(), cell.outputs()]
                    .into_iter()
                    .flat_map(indices),
            );
            record
        })
        .collect()
}

fn comparison_records(netlist: &Netlist) -> Vec<Vec<u32>> {
    let cells = netlist.comparisons().iter();
    cells
        .map(|cell| {
            let mut record = vec![4, cell.operation() as u32, number(cell.lhs().len())];
            record.extend([cell.lhs(), cell.rhs()].into_iter().flat_map(indices));
            record.push(cell.output().index());
            record
        })
        .collect()
}

fn indices(nets: &[NetId]) -> impl Iterator<Item = u32> {
    nets.iter().map(|net| net.index())
}

/// A control's net and level, as in the module image.
fn control(control: Option<EnableControl>) -> [u32; 2] {
    control.map_or([ABSENT, 0], |control| {
        [control.signal.index(), level(control.active)]
    })
}

fn level(active: ActiveLevel) -> u32 {
    active as u32
}

fn edge(edge: IrClockEdge) -> u32 {
    edge as u32
}

fn signal_of(image: &ModuleImage, name: &str) -> u32 {
    position(image.signals.iter().map(|signal| &signal.name), name)
}

/// The number of the record with this name; names are unique in their sort.
fn position<'a>(mut names: impl Iterator<Item = &'a String>, name: &str) -> u32 {
    let position = names.position(|candidate| candidate == name);
    number(position.unwrap_or_else(|| panic!("no record is called `{name}`")))
}

fn number(value: usize) -> u32 {
    u32::try_from(value).expect("netlist images fit 32 bits")
}
