//! Timing one lowering: the port's call and struo's own, on the same image.

use compare::expect::netlist_use;
use compare::timing::least_time;
use driver::Prepared;
use std::hint::black_box;

/// An image with what its two lowerings need.
pub struct Race {
    bytes: Vec<u8>,
    pub nets: u32,
    pub list_words: u32,
    module: Prepared,
}

/// Buffers of a call, exactly as long as its limits require.
struct Lent {
    n: u32,
    p: u32,
    netlist: Vec<u32>,
    scratch: Vec<u32>,
}

impl Race {
    pub fn new(bytes: Vec<u8>) -> Race {
        let (nets, list_words) = netlist_use(&bytes).expect("an image that passes checks 3 and 4");
        let module = Prepared::new(&bytes).expect("a module that struo can hold");
        Race { bytes, nets, list_words, module }
    }

    pub fn bytes(&self) -> usize {
        self.bytes.len()
    }

    /// Nanoseconds of the port's call with limits that just serve.
    pub fn port(&self) -> f64 {
        self.port_with(self.nets.max(1), self.list_words)
    }

    /// Nanoseconds of the port's call with the largest limits.
    pub fn port_largest(&self) -> f64 {
        self.port_with(image::MOST_LIMIT, image::MOST_LIMIT)
    }

    fn port_with(&self, n: u32, p: u32) -> f64 {
        let mut lent = Lent::new(&self.bytes, n, p);
        least_time(|| lent.lower(&self.bytes))
    }

    /// Nanoseconds of `Lowering::new` and `Lowering::lower`. Decoding the image
    /// and freeing the netlist are not counted.
    pub fn rust(&self) -> f64 {
        least_time(|| self.module.lower())
    }

    /// `calls` of the port's call, for a profiler.
    pub fn repeat_port(&self, calls: u32) {
        let mut lent = Lent::new(&self.bytes, self.nets.max(1), self.list_words);
        for _ in 0..calls {
            black_box(lent.lower(&self.bytes));
        }
    }

    /// As [`Race::repeat_port`], of struo's lowering.
    pub fn repeat_rust(&self, calls: u32) {
        for _ in 0..calls {
            black_box(self.module.lower());
        }
    }
}

impl Lent {
    fn new(image: &[u8], n: u32, p: u32) -> Lent {
        let netlist = vec![0; reference::netlist_words(n, p)];
        let scratch = vec![0; reference::scratch_words(image, n).expect("a checked image")];
        Lent { n, p, netlist, scratch }
    }

    fn lower(&mut self, image: &[u8]) {
        let Lent { n, p, netlist, scratch } = self;
        let answer = port::lower(black_box(image), *n, *p, netlist, scratch);
        assert_eq!(answer, port::ACCEPTED, "an image that is accepted");
    }
}
