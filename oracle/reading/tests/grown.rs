//! Images grown record by record, each record mostly right and sometimes not:
//! this reading and the reference must answer alike about each, and the next
//! one is put behind those that were right. So the last records are met as
//! often as the first, in all mixtures of right and wrong fields.

use image::memory_field::SECOND_PORT;
use image::{Image, MEMORY_FIELDS, Random};

const ABSENT: u32 = u32::MAX;
const GROWN: u64 = 1_500;

#[test]
fn grown_images() {
    let mut judged = [[0; 2]; 7];
    for seed in 0..GROWN {
        Growth::new(seed).grow(&mut judged);
    }
    // Each section's records were taken and refused.
    for section in [0, 1, 3, 4, 5] {
        assert!(judged[section].iter().all(|&count| count > 20), "{judged:?}");
    }
}

struct Growth {
    random: Random,
    image: Image,
}

impl Growth {
    fn new(seed: u64) -> Growth {
        Growth { random: Random::new(seed), image: Image::default() }
    }

    fn grow(&mut self, judged: &mut [[u32; 2]; 7]) {
        self.image.names = b"abcabdac d~\x7f".to_vec();
        self.image.list = (0..12).map(|_| self.random.range(0, 9)).collect();
        for _ in 0..10 {
            let record = self.signal();
            self.try_record(0, judged, |image| &mut image.signals, record);
        }
        for _ in 0..30 {
            let record = self.expression();
            self.try_record(1, judged, |image| &mut image.expressions, record);
        }
        for _ in 0..6 {
            let record = self.assignment();
            self.try_record(3, judged, |image| &mut image.assignments, record);
        }
        for _ in 0..8 {
            let record = self.register();
            self.try_record(4, judged, |image| &mut image.registers, record);
        }
        for _ in 0..16 {
            let record = self.memory();
            self.try_record(5, judged, |image| &mut image.memories, record);
        }
    }

    /// Compares the answers with a record put behind the others; keeps it if it
    /// is right.
    fn try_record<const COUNT: usize>(
        &mut self,
        section: usize,
        judged: &mut [[u32; 2]; 7],
        records: impl Fn(&mut Image) -> &mut Vec<[u32; COUNT]>,
        record: [u32; COUNT],
    ) {
        records(&mut self.image).push(record);
        let bytes = self.image.encode();
        let (n, p, netlist, scratch) = (1, 0, 22, 1 << 20);
        let read = reading::refusal(&bytes, n, p, netlist, scratch);
        let reference = reference::check(&bytes, n, p, netlist, scratch);
        assert_eq!(read, reference, "this reading and the reference, on {:?}", self.image);
        let right = read == [0, 0, 0];
        judged[section][usize::from(right)] += 1;
        if !right {
            records(&mut self.image).pop();
        }
    }

    /// A field that is as it should be, but for once in a while.
    fn mostly(&mut self, right: u32) -> u32 {
        if self.random.chance(97) { right } else { self.any() }
    }

    fn any(&mut self) -> u32 {
        let small = self.random.range(0, 20);
        self.random.pick(&[0, 0, 1, 2, small, small, 1 << 31, ABSENT - 1, ABSENT])
    }

    fn width(&mut self) -> u32 {
        self.random.pick(&[1, 1, 1, 2, 2, 3, 3, 4, 32, 33, 64, 65])
    }

    /// The number of a signal of a width, if there is one.
    fn signal_of(&mut self, width: u32) -> u32 {
        let widths: Vec<u32> = self.image.signals.iter().map(|signal| signal[2]).collect();
        self.one_of(&widths, width)
    }

    /// The number of an expression of a width, if there is one.
    fn expression_of(&mut self, width: u32) -> u32 {
        let widths: Vec<u32> = self.image.expressions.iter().map(|expression| expression[1]).collect();
        self.one_of(&widths, width)
    }

    fn one_of(&mut self, widths: &[u32], width: u32) -> u32 {
        let fitting: Vec<u32> = (0..).zip(widths).filter(|(_, of)| **of == width).map(|(number, _)| number).collect();
        if fitting.is_empty() || self.random.chance(4) { self.any() } else { self.random.pick(&fitting) }
    }

    fn name(&mut self) -> [u32; 2] {
        [self.random.range(0, 12), self.random.range(0, 4)]
    }

    fn signal(&mut self) -> [u32; 4] {
        let [offset, length] = self.name();
        let (width, direction) = (self.width(), self.random.range(0, 2));
        [offset, length, self.mostly(width), self.mostly(direction)]
    }

    fn expression(&mut self) -> [u32; 5] {
        let kind = self.random.range(0, 7);
        let width = self.width();
        let one_or_width = if self.random.flag() { 1 } else { width };
        let mut record = match kind {
            0 => [0, width, self.signal_of(width), 0, 0],
            1 => [1, width, self.random.range(0, 12), 0, 0],
            2 => [2, one_or_width, self.random.range(0, 5), self.expression_of(width), 0],
            3 => {
                let operator = self.random.range(0, 19);
                [3, one_or_width, operator, self.expression_of(width), self.expression_of(width)]
            }
            4 => [4, width, self.expression_of(1), self.expression_of(width), self.expression_of(width)],
            5 => [5, width, self.random.range(0, 12), self.random.range(0, 3), 0],
            6 => [6, self.random.range(1, 4), self.expression_of(width), self.random.range(0, 3), 0],
            _ => [7, width, 0, 0, 0],
        };
        let field = self.random.below(5);
        record[field] = self.mostly(record[field]);
        record
    }

    fn assignment(&mut self) -> [u32; 4] {
        let width = self.width();
        let of = if self.random.flag() { width } else { self.width() };
        let lsb = self.random.range(0, 2);
        [self.signal_of(of), self.mostly(lsb), self.mostly(width), self.expression_of(width)]
    }

    fn register(&mut self) -> [u32; 12] {
        let [offset, length] = self.name();
        let width = self.width();
        let [enable, level] = self.control(true);
        let [reset, reset_level] = self.control(true);
        let (mode, value) = if reset == ABSENT {
            (self.mostly(0), self.mostly(0))
        } else {
            let mode = self.random.range(0, 1);
            (self.mostly(mode), self.expression_of(width))
        };
        let edge = self.random.range(0, 1);
        [
            offset,
            length,
            self.signal_of(width),
            self.expression_of(width),
            self.signal_of(1),
            self.mostly(edge),
            enable,
            level,
            reset,
            reset_level,
            mode,
            value,
        ]
    }

    fn control(&mut self, may_be_absent: bool) -> [u32; 2] {
        if may_be_absent && self.random.chance(40) {
            return [ABSENT, self.mostly(0)];
        }
        let polarity = self.random.range(0, 1);
        [self.signal_of(1), self.mostly(polarity)]
    }

    fn memory(&mut self) -> [u32; MEMORY_FIELDS] {
        let width = self.width();
        let [offset, length] = self.name();
        let depth = self.random.pick(&[1, 16, 65_536]);
        // Of the read data, or of its own.
        let word_width = if self.random.chance(90) { width } else { self.width() };
        let style = self.random.range(0, 2);
        let mut fields = vec![offset, length, self.mostly(depth), self.mostly(word_width)];
        fields.extend([self.mostly(style), self.mostly(1)]);
        fields.extend(self.port(width));
        if self.random.chance(40) {
            fields.push(self.mostly(0));
            fields.extend([0; 10]);
            let field = SECOND_PORT + self.random.below(10);
            fields[field] = self.mostly(0);
        } else {
            fields.push(self.mostly(1));
            // Of the other port's width, or of its own.
            let width = if self.random.chance(70) { width } else { self.width() };
            fields.extend(self.port(width));
        }
        fields.try_into().expect("27 fields")
    }

    fn port(&mut self, width: u32) -> [u32; 10] {
        let (read_width, write_width) = (self.width(), self.width());
        let [read_enable, read_polarity] = self.control(true);
        let [write_enable, write_polarity] = self.control(false);
        let edge = self.random.range(0, 1);
        [
            self.expression_of(read_width),
            self.signal_of(width),
            read_enable,
            read_polarity,
            self.expression_of(write_width),
            self.expression_of(width),
            write_enable,
            write_polarity,
            self.signal_of(1),
            self.mostly(edge),
        ]
    }
}
