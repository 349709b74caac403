// Written by generate/erase.py from crates/lane_runs/src/kinds.rt, which has the contracts.

//! The forms of many wrapped keys, and the lengths of their keys.

use crate::proved::lane_runs::ends::{DONE, INTEGRITY};
use crate::proved::lane_runs::unwraps::undo_lanes;
use crate::proved::lane_runs::{LANES, MAX_COPIED};
use crate::proved::block_lanes::{BLOCK, BlockLanes};
use crate::proved::key_wrap_core::{Form, FoundKey, InitialValue, WORD};
use crate::proved::key_wrap_steps::end_unwrap_any;

/// Finds in which form each of as many texts as there are statuses is a wrapping, under the default
/// initial value, and the length of its key. A form is 0, or 1 for the padded form. The status of a
/// text is 0; or it is 5, with both numbers 0, if it has neither form.
pub fn kind_texts<B: BlockLanes>(
    pair: &B,
    texts: &[u8],
    text_len: usize,
    forms: &mut [u8],
    key_lens: &mut [usize],
    statuses: &mut [u8],
) {
    let mut blocks = [0; BLOCK * LANES];
    let mut copies = [0; MAX_COPIED * LANES];
    let count = statuses.len();
    for batch in 0..count / LANES + 1 {
        let first = LANES * batch;
        let last = count.min(first + LANES);
        kind_batch(
            pair,
            &texts[text_len * first..text_len * last],
            text_len,
            &mut copies[..text_len * (last - first)],
            &mut blocks[..BLOCK * (last - first)],
            &mut forms[first..last],
            &mut key_lens[first..last],
            &mut statuses[first..last],
        );
    }
}

// Finds the form of each text of a batch, over copies. These and the blocks become zeros.
fn kind_batch<B: BlockLanes>(
    pair: &B,
    texts: &[u8],
    text_len: usize,
    copies: &mut [u8],
    blocks: &mut [u8],
    forms: &mut [u8],
    key_lens: &mut [usize],
    statuses: &mut [u8],
) {
    copies.copy_from_slice(texts);
    undo_lanes(pair, copies, text_len, blocks);
    end_kinds(copies, text_len, blocks, forms, key_lens, statuses);
    copies.fill(0);
    blocks.fill(0);
}

// Ends each unwrapping of a batch.
fn end_kinds(
    texts: &mut [u8],
    text_len: usize,
    blocks: &[u8],
    forms: &mut [u8],
    key_lens: &mut [usize],
    statuses: &mut [u8],
) {
    for lane in 0..statuses.len() {
        let start = text_len * lane;
        let place = BLOCK * lane;
        let (status, form, key_len) = end_kind(
            &mut texts[start..start + text_len],
            &blocks[place..place + BLOCK],
        );
        statuses[lane] = status;
        forms[lane] = form;
        key_lens[lane] = key_len;
    }
}

// Ends one unwrapping. Returns its status, and the form and the length of its key.
fn end_kind(text: &mut [u8], block: &[u8]) -> (u8, u8, usize) {
    let mut last = [0; BLOCK];
    last.copy_from_slice(block);
    match end_unwrap_any(&InitialValue::default(), &mut text[WORD..], 0, &mut last) {
        Ok(found) => numbers_of(found),
        Err(_) => (INTEGRITY, 0, 0),
    }
}

// The status, and the form and the length of a key that was found.
fn numbers_of(found: FoundKey) -> (u8, u8, usize) {
    match found.form {
        Form::Plain => (DONE, 0, found.len),
        Form::Padded => (DONE, 1, found.len),
    }
}
