// Written by generate/erase.py from crates/lane_runs/src/unwraps.rt, which has the contracts.

//! Whole unwrappings of many texts.

use crate::proved::lane_runs::LANES;
use crate::proved::lane_runs::ends::end_batch;
use crate::proved::lane_runs::steps::undo_steps;
use crate::proved::block_lanes::{BLOCK, BlockLanes};
use crate::proved::key_wrap_core::Form;
use crate::proved::key_wrap_lanes::begin_unwrap_many;

/// Unwraps as many texts as there are statuses, in this form under the default initial value. The
/// status of a text is 0, and it becomes 8 zero bytes, its key and zeros to the end; or it is 5, and
/// the text becomes zeros. The length of each key is in `key_lens`, or 0.
pub fn unwrap_texts<B: BlockLanes>(
    pair: &B,
    form: Form,
    texts: &mut [u8],
    text_len: usize,
    key_lens: &mut [usize],
    statuses: &mut [u8],
) {
    let mut blocks = [0; BLOCK * LANES];
    let count = statuses.len();
    for batch in 0..count / LANES + 1 {
        let first = LANES * batch;
        let last = count.min(first + LANES);
        unwrap_batch(
            pair,
            form,
            &mut texts[text_len * first..text_len * last],
            text_len,
            &mut blocks[..BLOCK * (last - first)],
            &mut key_lens[first..last],
            &mut statuses[first..last],
        );
    }
}

// Unwraps each text of a batch. The blocks become zeros.
fn unwrap_batch<B: BlockLanes>(
    pair: &B,
    form: Form,
    texts: &mut [u8],
    text_len: usize,
    blocks: &mut [u8],
    key_lens: &mut [usize],
    statuses: &mut [u8],
) {
    undo_lanes(pair, texts, text_len, blocks);
    end_batch(form, texts, text_len, blocks, key_lens, statuses);
    blocks.fill(0);
}

// Undoes all steps of each text: no step is left, and its unwrapping has to be ended.
pub(crate) fn undo_lanes<B: BlockLanes>(
    pair: &B,
    texts: &mut [u8],
    text_len: usize,
    blocks: &mut [u8],
) {
    let mut left = 0;
    let _begun = begin_unwrap_many(texts, text_len, &mut left, blocks);
    undo_steps(pair, texts, text_len, blocks);
}
