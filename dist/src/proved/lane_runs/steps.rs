// Written by generate/erase.py from crates/lane_runs/src/steps.rt, which has the contracts.

//! All steps of many wrappings or unwrappings of one length, over their blocks side by side.

use crate::proved::block_lanes::BlockLanes;
use crate::proved::key_wrap_core::{WORD, step_count};
use crate::proved::key_wrap_lanes::{step_unwrap_many, step_wrap_many};

// Makes all steps of wrappings that have begun.
pub(crate) fn make_steps<B: BlockLanes>(
    pair: &B,
    texts: &mut [u8],
    text_len: usize,
    blocks: &mut [u8],
) {
    let mut done = 0;
    for _step in 0..step_count(text_len - WORD) {
        pair.encrypt_many(blocks);
        let _stepped = step_wrap_many(texts, text_len, &mut done, blocks);
    }
}

// Undoes all steps of unwrappings that have begun.
pub(crate) fn undo_steps<B: BlockLanes>(
    pair: &B,
    texts: &mut [u8],
    text_len: usize,
    blocks: &mut [u8],
) {
    let mut left = step_count(text_len - WORD);
    for _step in 0..left {
        pair.decrypt_many(blocks);
        let _stepped = step_unwrap_many(texts, text_len, &mut left, blocks);
    }
}
