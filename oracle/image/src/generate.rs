//! Seeded random images that keep every rule of the format. Most of them
//! are accepted; some hold undriven bits, loops or resets that are no constant.

use crate::builder::{Builder, Control, Expr, Memory, Port, Register, Reset, Signal};
use crate::format::*;
use crate::random::Random;
use std::collections::BTreeMap;
use std::str::FromStr;

/// Size classes, by the number of expressions aimed at.
#[derive(Clone, Copy, PartialEq, Eq, Debug)]
pub enum Size {
    Tiny,
    Small,
    Medium,
    Large,
}

impl Size {
    pub const ALL: [Size; 4] = [Size::Tiny, Size::Small, Size::Medium, Size::Large];

    fn expressions(self, random: &mut Random) -> usize {
        let (low, high) = match self {
            Size::Tiny => (0, 8),
            Size::Small => (10, 40),
            Size::Medium => (60, 250),
            Size::Large => (400, 1400),
        };
        random.range(low, high) as usize
    }

    /// The most wires, and of registers a third, of outputs a half of it.
    fn wires(self) -> u32 {
        match self {
            Size::Tiny => 2,
            Size::Small => 8,
            Size::Medium => 24,
            Size::Large => 90,
        }
    }
}

impl FromStr for Size {
    type Err = String;

    fn from_str(text: &str) -> Result<Size, String> {
        match text {
            "tiny" => Ok(Size::Tiny),
            "small" => Ok(Size::Small),
            "medium" => Ok(Size::Medium),
            "large" => Ok(Size::Large),
            other => Err(format!("no size '{other}'")),
        }
    }
}

/// A valid image. Equal arguments give equal images.
pub fn generate(seed: u64, size: Size) -> Image {
    let mut maker = Maker::new(seed, size);
    maker.declare(size);
    let goal = size.expressions(&mut maker.random);
    while maker.builder.image().expressions.len() < goal && maker.has_room() {
        maker.step();
    }
    maker.drive_outputs();
    maker.add_memories();
    maker.add_registers();
    let Maker {
        mut builder,
        mut random,
        ..
    } = maker;
    if random.flag() {
        builder.reorder_assignments(|assignments| random.shuffle(assignments));
    }
    builder.finish()
}

/// What a declared signal is for.
#[derive(Clone, Copy, PartialEq, Eq, Debug)]
enum Role {
    Input,
    Wire,
    Output,
    /// Register target; an output port if true.
    Target(bool),
    /// Read data of a memory and its second port or not.
    Read(usize, bool),
}

/// Which refusals this image may run into.
#[derive(Clone, Copy, Default, Debug)]
struct Mischief {
    undriven: bool,
    loops: bool,
    reset: bool,
}

/// An image in the making and what can be used in it.
pub struct Maker {
    pub random: Random,
    pub builder: Builder,
    /// Widths this image prefers.
    palette: Vec<u32>,
    /// Expressions that need nothing undriven, by width.
    pool: BTreeMap<u32, Vec<Expr>>,
    all: Vec<Expr>,
    /// Of those, the ones that nothing uses yet.
    loose: Vec<Expr>,
    signals: Vec<(Signal, Role)>,
    /// Bits with a driver so far, of each signal.
    driven: Vec<Vec<bool>>,
    mischief: Mischief,
    /// Whether many of its adders have words joined of fields before them.
    pub joins: bool,
    memories: usize,
    two_ports: Vec<bool>,
    target_bits: usize,
}

impl Maker {
    fn new(seed: u64, size: Size) -> Self {
        let mut random = Random::new(seed ^ ((size as u64) << 60));
        let palette = palette(&mut random, size);
        let factor = if matches!(size, Size::Tiny | Size::Small) {
            2
        } else {
            1
        };
        let mischief = Mischief {
            undriven: random.chance(8 * factor),
            loops: random.chance(12 * factor),
            reset: random.chance(9 * factor),
        };
        let joins = random.chance(30);
        Maker {
            random,
            builder: Builder::new(),
            palette,
            pool: BTreeMap::new(),
            all: Vec::new(),
            loose: Vec::new(),
            signals: Vec::new(),
            driven: Vec::new(),
            mischief,
            joins,
            memories: 0,
            two_ports: Vec::new(),
            target_bits: 0,
        }
    }

    // Signals.

    fn declare(&mut self, size: Size) {
        let mut roles = self.plan_signals(size);
        self.random.shuffle(&mut roles);
        let mut bits = 0;
        for (role, width) in roles {
            let left = MOST_SIGNAL_BITS as u32 - bits;
            if width > left {
                continue;
            }
            bits += width;
            self.declare_one(role, width);
        }
    }

    fn declare_one(&mut self, role: Role, width: u32) {
        let name = self.name("abcdqxyz_");
        let direction = match role {
            Role::Input => 1,
            Role::Output | Role::Target(true) => 2,
            Role::Read(_, _) if self.random.chance(30) => 2,
            _ => 0,
        };
        let signal = self.builder.signal(&name, width, direction);
        let source = !matches!(role, Role::Wire | Role::Output);
        if matches!(role, Role::Target(_)) {
            self.target_bits += width as usize;
        }
        self.signals.push((signal, role));
        self.driven.push(vec![source; width as usize]);
    }

    fn plan_signals(&mut self, size: Size) -> Vec<(Role, u32)> {
        let most = size.wires();
        let mut roles = Vec::new();
        for _ in 0..self.random.range(1, 3) {
            roles.push((Role::Input, 1));
        }
        for _ in 0..self.random.range(0, 1 + most / 2) {
            roles.push((Role::Input, self.width()));
        }
        for _ in 0..self.random.range(0, most) {
            let width = if self.random.chance(30) {
                1
            } else {
                self.width()
            };
            roles.push((Role::Wire, width));
        }
        for _ in 0..self
            .random
            .range(u32::from(size != Size::Tiny), 1 + most / 2)
        {
            roles.push((Role::Output, self.width()));
        }
        for _ in 0..self.random.range(0, 1 + most / 3) {
            let output = self.random.chance(30);
            roles.push((Role::Target(output), self.width()));
        }
        self.plan_memories(&mut roles, size);
        roles
    }

    fn plan_memories(&mut self, roles: &mut Vec<(Role, u32)>, size: Size) {
        let most = if size == Size::Large { 4 } else { 2 };
        if self.random.chance(70) {
            return;
        }
        self.memories = self.random.range(1, most) as usize;
        for memory in 0..self.memories {
            let width = self.width().min(64);
            let second = self.random.chance(45);
            roles.push((Role::Read(memory, false), width));
            if second {
                roles.push((Role::Read(memory, true), width));
            }
            self.two_ports.push(second);
        }
    }

    /// A name no other record has: it ends in a running number.
    fn name(&mut self, letters: &str) -> String {
        let number = self.signals.len();
        let letter = self.random.pick(letters.as_bytes()) as char;
        if self.random.chance(90) {
            return format!("{letter}{number}");
        }
        let length = self.random.range(0, 12);
        let odd: String = (0..length)
            .map(|_| self.random.range(33, 126) as u8 as char)
            .collect();
        format!("{odd}_{number}")
    }

    // Widths and constants.

    /// A width of the palette, 1 where a wide step would not fit.
    pub fn width(&mut self) -> u32 {
        let width = self.random.pick(&self.palette);
        if self.bits_left() < 16 * width as usize {
            return 1;
        }
        width
    }

    pub fn constant(&mut self, width: u32) -> Expr {
        let list = self.builder.image().list.len();
        let words = constant_words(width);
        if list > words && self.random.chance(5) {
            let start = self.random.below(list - words) as u32;
            return self.builder.constant_at(width, start);
        }
        let limbs: Vec<u64> = (0..words / 2).map(|limb| self.limb(limb)).collect();
        self.builder.constant_limbs(width, &limbs)
    }

    fn limb(&mut self, limb: usize) -> u64 {
        match self.random.below(7) {
            0 => 0,
            1 => u64::from(limb == 0),
            2 => u64::MAX,
            3 => 1 << self.random.below(64),
            4 | 5 => self.random.next() & 15,
            _ => self.random.next(),
        }
    }

    // Operands.

    /// Enters an expression that others may use.
    pub fn keep(&mut self, expression: Expr) -> Expr {
        let width = self.builder.width(expression);
        self.pool.entry(width).or_default().push(expression);
        self.all.push(expression);
        self.loose.push(expression);
        expression
    }

    /// A loose expression that is wanted, taken as used.
    fn take_loose(&mut self, wanted: impl Fn(&Builder, Expr) -> bool) -> Option<Expr> {
        if self.loose.is_empty() {
            return None;
        }
        let start = self.random.below(self.loose.len());
        let order = (start..self.loose.len()).chain(0..start).take(24);
        let found = order
            .into_iter()
            .find(|index| wanted(&self.builder, self.loose[*index]))?;
        Some(self.loose.swap_remove(found))
    }

    /// Any expression of the width: an old one, a signal, a constant.
    pub fn operand(&mut self, width: u32) -> Expr {
        if self.random.chance(40) {
            let loose = self.take_loose(|builder, loose| builder.width(loose) == width);
            if let Some(expression) = loose {
                return expression;
            }
        }
        let old = self.pool.get(&width).map_or(0, Vec::len);
        match self.random.below(100) {
            0..=54 if old > 0 => self.old(width, old),
            0..=82 => self.signal_operand(width),
            83..=91 => self.constant(width),
            _ => self.adapted(width),
        }
    }

    /// One of the newer expressions more often than one of the older.
    fn old(&mut self, width: u32, count: usize) -> Expr {
        let back = self.random.below(count).min(self.random.below(count));
        self.pool[&width][count - 1 - back]
    }

    fn signal_operand(&mut self, width: u32) -> Expr {
        match self.readable(width) {
            Some((signal, lsb)) => {
                let read = self.builder.read_range(signal, lsb, width);
                self.keep(read)
            }
            None => self.adapted(width),
        }
    }

    /// A signal range of that width whose bits are driven. Where the image
    /// may hold loops, any range.
    fn readable(&mut self, width: u32) -> Option<(Signal, u32)> {
        let any = self.mischief.loops && self.random.chance(20);
        for _ in 0..8 {
            let (signal, _) = self.signals[self.random.below(self.signals.len())];
            let bits = &self.driven[signal.0 as usize];
            if bits.len() < width as usize {
                continue;
            }
            let lsb = self.random.below(bits.len() - width as usize + 1);
            let lsb = if self.random.flag() { 0 } else { lsb };
            if any || bits[lsb..lsb + width as usize].iter().all(|driven| *driven) {
                return Some((signal, lsb as u32));
            }
        }
        None
    }

    /// An expression of another width brought to this one.
    fn adapted(&mut self, width: u32) -> Expr {
        if self.all.is_empty() || !self.has_room() {
            return self.constant(width);
        }
        let from = self.random.pick(&self.all);
        let own = self.builder.width(from);
        let result = if own > width {
            let lsb = self.random.below((own - width) as usize + 1) as u32;
            self.builder.slice(from, lsb, width)
        } else if own == width {
            return from;
        } else {
            self.extended(from, width - own)
        };
        self.keep(result)
    }

    fn extended(&mut self, from: Expr, missing: u32) -> Expr {
        let above = match self.random.below(4) {
            0 => self.constant(missing),
            _ => self.builder.constant(missing, 0),
        };
        if self.random.chance(80) {
            self.builder.concat(&[above, from])
        } else {
            self.builder.concat(&[from, above])
        }
    }

    /// A one-bit operand.
    pub fn bit(&mut self) -> Expr {
        self.operand(1)
    }

    /// Any kept expression, or a new one.
    pub fn any(&mut self) -> Expr {
        if self.all.is_empty() || self.random.chance(20) {
            let width = self.width();
            return self.operand(width);
        }
        let loose = if self.random.flag() {
            self.take_loose(|_, _| true)
        } else {
            None
        };
        loose.unwrap_or_else(|| self.random.pick(&self.all))
    }

    /// Loose expressions joined to the width, so that they come to be used.
    fn gathered(&mut self, width: u32) -> Expr {
        let mut parts = Vec::new();
        let mut left = width;
        while left > 0 {
            let part = match self.loose.pop() {
                None => self.operand(left),
                Some(loose) if self.builder.width(loose) > left => {
                    let lsb = self.random.range(0, self.builder.width(loose) - left);
                    self.builder.slice(loose, lsb, left)
                }
                Some(loose) => loose,
            };
            left -= self.builder.width(part);
            parts.push(part);
        }
        match parts[..] {
            [only] => only,
            _ => self.builder.concat(&parts),
        }
    }

    /// What is connected at the end: mostly loose expressions.
    fn end_value(&mut self, width: u32) -> Expr {
        if self.random.chance(75) {
            self.gathered(width)
        } else {
            self.operand(width)
        }
    }

    // Room.

    /// Whether one more step fits, and all that is needed to end the image.
    pub fn has_room(&self) -> bool {
        let image = self.builder.image();
        let ending = 3 * self.signals.len() + 24 * self.memories + 40;
        let list = self.loose.len() + 6 * self.signals.len() + 48 * self.memories + 1000;
        image.expressions.len() + ending < MOST[EXPRESSIONS]
            && self.bits_left() > 4 * MOST_WIDTH as usize
            && image.list.len() + list < MOST[LIST]
            && image.assignments.len() + self.signals.len() + 70 < MOST[ASSIGNMENTS]
    }

    /// Expression bits left beside those that end the image.
    fn bits_left(&self) -> usize {
        let image = self.builder.image();
        let ending = 2 * self.undriven_bits() + 4 * self.target_bits + 500 * self.memories;
        MOST_EXPRESSION_BITS.saturating_sub(image.expression_bits() + ending)
    }

    fn undriven_bits(&self) -> usize {
        self.driven
            .iter()
            .flatten()
            .filter(|driven| !**driven)
            .count()
    }

    // Drivers.

    /// Drives a stretch of a wire or output that has none yet.
    pub fn drive_some(&mut self) {
        let number = self.random.below(self.signals.len());
        let Some((lsb, length)) = self.gap(number) else {
            return;
        };
        let width = match self.random.below(4) {
            0 => self.random.range(1, length),
            _ => length,
        };
        self.drive(number, lsb, width);
    }

    /// The first stretch of a signal without a driver.
    fn gap(&self, number: usize) -> Option<(u32, u32)> {
        let bits = &self.driven[number];
        let lsb = bits.iter().position(|driven| !*driven)?;
        let length = bits[lsb..].iter().take_while(|driven| !**driven).count();
        Some((lsb as u32, length as u32))
    }

    fn drive(&mut self, number: usize, lsb: u32, width: u32) {
        let value = self.operand(width);
        self.assign(number, lsb, value);
    }

    fn assign(&mut self, number: usize, lsb: u32, value: Expr) {
        let width = self.builder.width(value) as usize;
        self.builder.assign_range(Signal(number as u32), lsb, value);
        self.driven[number][lsb as usize..lsb as usize + width].fill(true);
    }

    /// A wire or output of at least two bits without any driver.
    pub fn untouched(&mut self) -> Option<(usize, u32)> {
        for _ in 0..4 {
            let number = self.random.below(self.signals.len());
            let bits = &self.driven[number];
            if bits.len() >= 2 && bits.len() <= 65 && bits.iter().all(|driven| !*driven) {
                return Some((number, bits.len() as u32));
            }
        }
        None
    }

    /// Drives the bits of an untouched signal one by one.
    pub fn drive_bits(&mut self, number: usize, values: &[Expr]) {
        for (bit, value) in values.iter().enumerate() {
            self.assign(number, bit as u32, *value);
        }
    }

    pub fn allows_loops(&self) -> bool {
        self.mischief.loops
    }

    fn drive_outputs(&mut self) {
        for number in 0..self.signals.len() {
            let leave = match self.signals[number].1 {
                Role::Output => self.mischief.undriven && self.random.chance(30),
                _ => self.random.chance(40),
            };
            if !leave {
                self.drive_rest(number);
            }
        }
    }

    fn drive_rest(&mut self, number: usize) {
        while let Some((lsb, length)) = self.gap(number) {
            let value = self.end_value(length);
            self.assign(number, lsb, value);
        }
    }

    // Registers and memories.

    /// A one-bit signal with a driver; mostly an input.
    fn control(&mut self) -> Option<Signal> {
        let fits = |(signal, role): &(Signal, Role), inputs: bool| {
            self.driven[signal.0 as usize] == [true] && (!inputs || *role == Role::Input)
        };
        let inputs: Vec<Signal> = self
            .signals
            .iter()
            .filter(|signal| fits(signal, true))
            .map(|signal| signal.0)
            .collect();
        let driven: Vec<Signal> = self
            .signals
            .iter()
            .filter(|signal| fits(signal, false))
            .map(|signal| signal.0)
            .collect();
        if driven.is_empty() {
            return None;
        }
        let from = if inputs.is_empty() || self.random.chance(35) {
            driven
        } else {
            inputs
        };
        Some(self.random.pick(&from))
    }

    fn some_control(&mut self) -> Option<Control> {
        let signal = self.control()?;
        let low = self.random.flag();
        self.random.flag().then_some(Control { signal, low })
    }

    fn add_registers(&mut self) {
        let targets: Vec<Signal> = self
            .signals
            .iter()
            .filter(|(_, role)| matches!(role, Role::Target(_)))
            .map(|(signal, _)| *signal)
            .collect();
        for (number, target) in targets.into_iter().enumerate() {
            if let Some(clock) = self.control() {
                self.add_register(number, target, clock);
            }
        }
    }

    fn add_register(&mut self, number: usize, target: Signal, clock: Signal) {
        let width = self.builder.signal_width(target);
        let next = self.end_value(width);
        let falling = self.random.chance(25);
        let enable = self.some_control();
        let reset = self.some_control().map(|control| Reset {
            control,
            asynchronous: self.random.flag(),
            value: self.reset_value(width),
        });
        let name = format!("r{number}");
        self.builder.register(
            &name,
            Register {
                target,
                next,
                clock,
                falling,
                enable,
                reset,
            },
        );
    }

    fn reset_value(&mut self, width: u32) -> Expr {
        if self.mischief.reset && self.random.chance(50) {
            return self.operand(width);
        }
        if self.has_room() && self.random.chance(40) {
            return self.constant_cone(width);
        }
        self.constant(width)
    }

    fn add_memories(&mut self) {
        for memory in 0..self.memories {
            let first = self.read_data(memory, false);
            let second = self.read_data(memory, true);
            let (Some(first), Some(clock)) = (first, self.control()) else {
                continue;
            };
            if second.is_none() && self.two_ports[memory] {
                continue;
            }
            let first = self.port(first, clock);
            let second = second.map(|read_data| {
                let clock = self.control().unwrap_or(clock);
                self.port(read_data, clock)
            });
            let record = Memory {
                depth: self.depth(),
                style: self.random.range(0, 2),
                first,
                second,
            };
            self.builder.memory(&format!("m{memory}"), record);
        }
    }

    fn read_data(&self, memory: usize, second: bool) -> Option<Signal> {
        let wanted = Role::Read(memory, second);
        self.signals
            .iter()
            .find(|(_, role)| *role == wanted)
            .map(|(signal, _)| *signal)
    }

    fn depth(&mut self) -> u32 {
        match self.random.below(6) {
            0 => 1,
            1 => MOST_DEPTH,
            2 => 1 << self.random.below(17),
            _ => self.random.range(1, 300),
        }
    }

    fn port(&mut self, read_data: Signal, clock: Signal) -> Port {
        let width = self.builder.signal_width(read_data);
        let read_address = self.address();
        let read_enable = self.some_control();
        let write_address = self.address();
        let write_data = self.end_value(width);
        let signal = self.control().unwrap_or(clock);
        let write_enable = Control {
            signal,
            low: self.random.chance(30),
        };
        let falling = self.random.chance(25);
        Port {
            read_address,
            read_data,
            read_enable,
            write_address,
            write_data,
            write_enable,
            clock,
            falling,
        }
    }

    fn address(&mut self) -> Expr {
        let width = match self.random.below(8) {
            0 => 1,
            1 => MOST_ADDRESS,
            _ => self.random.range(1, 10),
        };
        self.operand(width)
    }
}

/// A few widths for one image, wide ones rarely where there is much of them.
fn palette(random: &mut Random, size: Size) -> Vec<u32> {
    let wide = match size {
        Size::Tiny => 20,
        Size::Small => 12,
        Size::Medium | Size::Large => 4,
    };
    let mut widths = vec![1];
    for _ in 0..random.range(1, 4) {
        widths.push(match random.below(10) {
            0..=4 => random.range(1, 9),
            5 | 6 => random.range(7, 34),
            _ if size == Size::Large && random.chance(70) => random.range(2, 12),
            _ => random.pick(&[31, 32, 33, 63, 64, 65, 66]),
        });
    }
    if random.chance(wide) {
        widths.push(random.pick(&[127, 128, 129, 255, 1000, 1023, 1024]));
    }
    widths
}
