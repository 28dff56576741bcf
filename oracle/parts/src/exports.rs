//! The functions that the port's library `compare_parts` exports: the only place
//! that has the names of its symbols. Read by the build script too.

macro_rules! exported {
    ($($function:ident as $symbol:literal $arguments:tt $(-> $result:ty)?;)*) => {
        extern "C" {
            $(#[link_name = $symbol] pub fn $function $arguments $(-> $result)?;)*
        }

        /// What the library must export.
        pub const SYMBOLS: &[&str] = &[$($symbol),*];
    };
}

exported! {
    adder_widths as "compare_adder_widths" (image: *const u8, image_len: usize, table: *mut u32, table_len: usize) -> bool;
    fusion as "compare_fusion" (image: *const u8, image_len: usize, lhs: u32, rhs: u32, row: *mut [u32; 8]) -> bool;
    build as "compare_build" (
        n: u32,
        operations: *const u32,
        operations_len: usize,
        turns: usize,
        pool: *const u32,
        pool_len: usize,
        netlist: *mut u32,
        netlist_len: usize,
        index: *mut u32,
        index_len: usize,
        answers: *mut u32,
        answers_len: usize,
        end: *mut [u64; 2],
    );
}
