//! The 16-bit check: from any start, over a run in any blocks.

use crate::gen::{self, Xorshift};
use crate::vectors::text::Lines;
use crate::vectors::values::blocks_lines;

/// None to three blocks, empty ones among them, and then all of them in one pass.
pub fn carried(random: &mut Xorshift) -> Lines {
    let mut lines = Lines::default();
    let start = gen::start(random);
    let blocks: Vec<Vec<u8>> = (0..random.below(4))
        .map(|_| {
            let length = gen::data_length(random);
            gen::contents(random, length)
        })
        .collect();
    blocks_lines(&mut lines, start, &blocks);
    lines
}
