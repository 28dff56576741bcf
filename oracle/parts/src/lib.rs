//! The parts of the port that its library `compare_parts` exports for comparison.

#[allow(dead_code)]
mod exports;

use compare::parts::{BuildPlan, Parts};

/// The library's functions.
pub struct Library;

impl Parts for Library {
    fn adder_widths(&self, image: &[u8], table: &mut [u32]) -> bool {
        // The function reads `image` and writes `table`; it asks nothing else.
        unsafe { exports::adder_widths(image.as_ptr(), image.len(), table.as_mut_ptr(), table.len()) }
    }

    fn fusion(&self, image: &[u8], pairs: &[[u32; 2]], rows: &mut [u32]) -> bool {
        let (rows, short) = rows.as_chunks_mut::<8>();
        // The function reads `image` and writes the row.
        let judged = |[lhs, rhs]: [u32; 2], row| unsafe { exports::fusion(image.as_ptr(), image.len(), lhs, rhs, row) };
        short.is_empty() && rows.len() == pairs.len() && pairs.iter().zip(rows).all(|(&pair, row)| judged(pair, row))
    }

    fn build(&self, plan: &BuildPlan, netlist: &mut [u32], index: &mut [u32], answers: &mut [u32]) -> [u64; 2] {
        let operations = plan.operations.as_flattened();
        let mut end = [u64::MAX; 2];
        // The function reads `operations` and the pool, and writes the rest.
        unsafe {
            exports::build(
                plan.n,
                operations.as_ptr(),
                operations.len(),
                plan.turns,
                plan.pool.as_ptr(),
                plan.pool.len(),
                netlist.as_mut_ptr(),
                netlist.len(),
                index.as_mut_ptr(),
                index.len(),
                answers.as_mut_ptr(),
                answers.len(),
                &mut end,
            );
        }
        end
    }
}
