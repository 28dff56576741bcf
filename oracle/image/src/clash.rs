//! Changes images so that their memories do more in a run: few words, which are met
//! often, and second ports that write where the first ones do.

use crate::format::{memory_field, port_field, Image};
use crate::random::Random;

/// Gives each memory six words at most.
pub fn lower_depths(image: &mut Image) {
    for memory in &mut image.memories {
        memory[memory_field::DEPTH] = 1 + memory[memory_field::DEPTH] % 6;
    }
}

/// Gives second ports the write address, the write enable and the clock of the first,
/// each most often; enables and clocks sometimes with the other level or edge.
pub fn bring_near_clash(image: &mut Image, random: &mut Random) {
    use port_field::{CLOCK, END, WRITE_ADDRESS, WRITE_ENABLE};
    for memory in image.memories.iter_mut().filter(|memory| memory[memory_field::HAS_SECOND] == 1) {
        for (fields, percent) in [(WRITE_ADDRESS..WRITE_ADDRESS + 1, 80), (WRITE_ENABLE..CLOCK, 60), (CLOCK..END, 80)] {
            if random.chance(percent) {
                let first = memory_field::FIRST_PORT + fields.start..memory_field::FIRST_PORT + fields.end;
                memory.copy_within(first, memory_field::SECOND_PORT + fields.start);
                if fields.len() > 1 && random.chance(15) {
                    memory[memory_field::SECOND_PORT + fields.end - 1] ^= 1;
                }
            }
        }
    }
}
