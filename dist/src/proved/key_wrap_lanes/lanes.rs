// Written by generate/erase.py from crates/key_wrap_lanes/src/lanes.rt, which has the contracts.

//! The lengths of lanes, and the numbers of their steps.

use crate::proved::key_wrap_core::{WORD, step_count, text_length_ok};

// The bytes of a block.
pub(crate) const BLOCK: usize = 16;

// Whether buffers of these lengths are texts of `text_len` bytes, and a block for each.
pub(crate) fn lanes_ok(text_len: usize, texts: usize, blocks: usize) -> bool {
    text_length_ok(text_len) && blocks % BLOCK == 0 && are_parts(texts, text_len, blocks / BLOCK)
}

// Whether `len` bytes are as many parts of `n` bytes.
fn are_parts(len: usize, n: usize, count: usize) -> bool {
    match n.checked_mul(count) {
        Some(all) => all == len,
        None => false,
    }
}

// The number of steps of each lane.
pub(crate) fn lane_steps(text_len: usize) -> u64 {
    step_count(text_len - WORD)
}
