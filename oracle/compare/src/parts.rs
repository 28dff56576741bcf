//! Parts of the port that are compared with struo's own functions, over plain
//! slices.

pub trait Parts {
    /// Rows of eight words for each expression; whether the image is judged.
    fn adder_widths(&self, image: &[u8], table: &mut [u32]) -> bool;

    /// Rows of eight words for each pair of expressions; whether it is judged.
    fn fusion(&self, image: &[u8], pairs: &[[u32; 2]], rows: &mut [u32]) -> bool;

    /// An empty netlist, then the first so many operations: 0, 9 or 10, and the
    /// operation that met the limit.
    fn build(&self, plan: &BuildPlan, netlist: &mut [u32], index: &mut [u32], answers: &mut [u32]) -> [u64; 2];
}

/// What is built: net limit, operations of five words each, and their pool.
pub struct BuildPlan<'a> {
    pub n: u32,
    pub operations: &'a [[u32; 5]],
    pub turns: usize,
    pub pool: &'a [u32],
}
